"""Logs of runs in which processes crash and come back, judged at each moment: by all moments and all sets of members, straight from the
definitions, and by candidates. An entry is named by its member and its number in the member's log."""
import itertools
from functools import cached_property
from typing import NamedTuple

from hostile_parts.logs import is_send, logs_of
from hostile_parts.moments import receipt_of, words_of

EVENTS, RECORDS, LEADERS = ("send", "receipt"), ("hold", "store"), ("receipt", "told", "restart")
CONTROL = ("tell", "told")
MOST_RESTARTS = 8


def life_of(receipt):
    """The life of its sender that a receipt names."""
    return receipt[5] if len(receipt) > 5 else 0


class Restart(NamedTuple):
    """What names a restart."""
    member: int
    life: int


class History:
    """What happened before what in the members' logs, which events stood when, and what depends on what. A receipt takes the send that
    stands in the life that it names, a told its tell; there must be these."""

    def __init__(self, logs):
        self.logs, self.restarts, self.undone_by, self.stood, self.standing, self.lives = logs, {}, {}, {}, [], []
        self.sends, self.tells, self.pasts, self.dependences = {}, {}, {}, {}
        for member, own in enumerate(logs):
            standing, life = [], 0
            for number, entry in enumerate(own):
                self.stood[member, number] = tuple(standing)
                if entry[0] in EVENTS:
                    standing.append((member, number))
                    if is_send(entry):
                        self.sends[member, life, entry[2]] = (member, number)
                elif entry[0] == "tell":
                    self.tells[member, entry[2], entry[3]] = (member, number)
                elif entry[0] == "restart":
                    life, kept = entry[2], entry[3] + entry[4]
                    self.restarts[Restart(member, life)] = (member, number)
                    self.undone_by.update(dict.fromkeys(standing[kept:], (member, number)))
                    del standing[kept:]
                    self.sends.update({(member, life, self.entry(event)[2]): event for event in standing if is_send(self.entry(event))})
            self.standing.append(tuple(standing))
            self.lives.append(life)

    def entry(self, at):
        return self.logs[at[0]][at[1]]

    def positions(self, *kinds):
        return [(member, number) for member, own in enumerate(self.logs) for number, entry in enumerate(own) if entry[0] in kinds]

    @cached_property
    def events_of(self):
        """Each member's sends and receipts."""
        return [[at for at in self.positions(*EVENTS) if at[0] == member] for member in range(len(self.logs))]

    def send_of(self, receipt):
        """The send with the number that stands in the life that the receipt names."""
        return self.sends.get((receipt[3], life_of(receipt), receipt[4]))

    def causes(self, at):
        """What the entry depends on at once: the last event of its member that stood before it, and the send of a receipt."""
        entry = self.entry(at)
        return [*self.stood[at][-1:], *([self.send_of(entry)] if entry[0] == "receipt" else [])]

    def leading(self, at):
        """What happened before the entry at once."""
        entry, more = self.entry(at), []
        if entry[0] == "receipt":
            more = [self.send_of(entry), self.restarts.get(Restart(entry[3], life_of(entry)))]
        elif entry[0] == "told":
            more = [self.tells[entry[2], entry[1], entry[3]]]
        return [(at[0], at[1] - 1)] * (at[1] > 0) + [one for one in more if one]

    def past(self, at):
        """The entry, and what happened before it."""
        if at not in self.pasts:
            self.pasts[at] = frozenset([at]).union(*map(self.past, self.leading(at)))
        return self.pasts[at]

    def depends_on(self, at):
        """The event, and the events on which it depends."""
        if at not in self.dependences:
            self.dependences[at] = frozenset([at]).union(*map(self.depends_on, self.causes(at)))
        return self.dependences[at]

    def is_in_step(self, at, of):
        """Whether the entry is a hold or a store that stands directly behind this receipt, told or restart."""
        return at[0] == of[0] and at[1] > of[1] and self.entry(of)[0] in LEADERS and all(
            entry[0] in RECORDS for entry in self.logs[of[0]][of[1] + 1:at[1] + 1])

    # ---- at a cut: how many of its first entries each member has

    def come(self, cut):
        return [(member, number) for member, count in enumerate(cut) for number in range(count)]

    def is_moment(self, cut):
        """Whether the cut has with each entry all that happened before it, and its step."""
        come = set(self.come(cut))
        return all(set(self.leading(at)) <= come for at in come) and not any(
            self.is_in_step((member, count), at) for member, count in enumerate(cut) if count < len(self.logs[member]) for at in come)

    def stands(self, at, cut):
        """Whether the event has come, and no restart undid it that has come."""
        undoer = self.undone_by.get(at)
        return at[1] < cut[at[0]] and not (undoer and undoer[1] < cut[at[0]])

    def holds(self, receipt, member, cut):
        """Whether the member said that it holds the determinant, and has not restarted since."""
        own = self.logs[member][:cut[member]]
        behind = max((number for number, entry in enumerate(own) if entry[0] == "restart"), default=-1)
        return any(entry[0] == "hold" and receipt_of(entry) == receipt for entry in own[behind + 1:])

    def is_stored(self, receipt, cut):
        return any(self.entry(at)[0] == "store" and receipt_of(self.entry(at)) == receipt for at in self.come(cut))

    def depends(self, member, at, cut):
        """Whether an event of the member that stands depends on the receipt."""
        return any(self.entry(own)[0] in EVENTS and self.stands(own, cut) and at in self.depends_on(own)
                   for own in ((member, number) for number in range(cut[member])))

    def restarts_in(self, cut):
        return frozenset(restart for restart, at in self.restarts.items() if at[1] < cut[at[0]])


# ---- the rules of logs


def is_due(history, receipt):
    """Whether the receipt takes a send to it that stands in the life that it names, and that it may take next."""
    _, to, number, source, *_ = receipt
    send, takes = history.send_of(receipt), lambda at: history.entry(at)[0] == "receipt" and history.entry(at)[3] == source
    taken = [history.send_of(history.entry(at)) for at in history.standing[to] if takes(at)]
    greatest = max((history.entry(at)[2] for at in taken), default=0)
    earlier = [at for (member, life, ssn), at in history.sends.items() if (member, life) == (source, life_of(receipt)) and ssn < receipt[4]]
    return send and history.entry(send)[3] == to and send not in taken and all(
        at in taken or history.entry(at)[2] <= greatest for at in earlier if history.entry(at)[3] == to)


def obeys(members, before, entry):
    """Whether the entry, no hold and no store, obeys the rules behind these, which do."""
    history, kind, own = History(tuple(map(tuple, logs_of(members, before)))), entry[0], entry[1]
    if own >= members:
        return False
    standing = history.standing[own]
    is_receipt = [history.entry(at)[0] == "receipt" for at in standing]
    if kind == "send":
        return entry[3] < members and entry[3] != own and entry[2] == is_receipt.count(False) + 1
    if kind == "receipt":
        return entry[2] == is_receipt.count(True) + 1 and bool(is_due(history, entry))
    if kind == "tell":
        return entry[2] < members and entry[2] != own and (own, entry[2], entry[3]) not in history.tells
    if kind == "told":
        return (entry[2], own, entry[3]) in history.tells and entry not in history.logs[own]
    kept = entry[3] + entry[4]
    return entry[2] > history.lives[own] and kept <= len(standing) and sum(is_receipt[:kept]) == entry[3] and len(history.restarts) < MOST_RESTARTS


def first_bad(members, entries, kinds):
    """The place of the first entry of these kinds that breaks a rule behind those of these kinds."""
    chosen = [(place, entry) for place, entry in enumerate(entries) if entry[0] in kinds]
    before = [entry for _, entry in chosen]
    return next((place for count, (place, entry) in enumerate(chosen) if not obeys(members, before[:count], entry)), None)


def first_unknown(members, entries):
    """The place of the first hold or store that is of no member, or of a receipt that did not happen before it."""
    history, counts = History(tuple(map(tuple, logs_of(members, entries)))), [0] * members
    for place, entry in enumerate(entries):
        at = (entry[1], counts[entry[1]]) if entry[1] < members else None
        known = map(history.entry, history.past(at)) if at else ()
        if entry[0] in RECORDS and not any(one[0] == "receipt" and receipt_of(one) == receipt_of(entry) for one in known):
            return place
        counts[entry[1]] += 1
    return None


def fault_of(log):
    """The fault of a log, none if it obeys the rules. Where somebody restarts, sends, receipts, control messages and restarts are looked at
    together, and else control messages behind the strike set."""
    has_lives = any(entry[0] == "restart" or entry[0] == "receipt" and life_of(entry) for entry in log.entries)
    first, then = ((*EVENTS, *CONTROL, "restart"), ()) if has_lives else (EVENTS, CONTROL)
    place = first_bad(log.members, log.entries, first)
    if place is None and any(member >= log.members for member in log.strike):
        return "BadStrike"
    place = first_bad(log.members, log.entries, then) if place is None else place
    place = first_unknown(log.members, log.entries) if place is None else place
    return None if place is None else f"BadEvent {place}"


class Candidate(NamedTuple):
    """Where a receipt is unsafe: the restarts that have come, the orphan, the moment, and the members whose loss loses the receipt."""
    restarts: frozenset
    member: int
    cut: tuple
    strike: frozenset

    def rank(self):
        return len(self.strike), sorted(self.strike), self.member, len(self.restarts), sorted(self.restarts)


class CrashJudge:
    """What a check says of a log. Its parts are found twice: among all moments and all sets of members, and by closures of what happened
    before."""

    def __init__(self, log):
        self.log, self.history = log, History(tuple(map(tuple, logs_of(log.members, log.entries))))
        counts, self.place = [0] * log.members, {}
        for place, entry in enumerate(log.entries):
            self.place[entry[1], counts[entry[1]]] = place
            counts[entry[1]] += 1
        self.receipts = sorted(self.history.positions("receipt"), key=self.place.get)
        self.most = max(log.f, len(log.strike))
        self.last = tuple(map(len, self.history.logs))

    def determinant(self, at):
        return receipt_of(self.history.entry(at))

    # ---- by all moments and all sets

    @cached_property
    def moments(self):
        cuts = itertools.product(*(range(len(own) + 1) for own in self.history.logs))
        return [cut for cut in cuts if self.history.is_moment(cut)]

    @cached_property
    def sets(self):
        """The sets of members that may be lost."""
        sizes = range(self.most + 1)
        chosen = (frozenset(some) for size in sizes for some in itertools.combinations(range(self.log.members), size))
        return [some for some in chosen if set(self.log.strike) <= some]

    def losses(self, at, cut):
        """The sets that may be lost at the moment, and lose the receipt, which stands there."""
        receipt = self.determinant(at)
        if not self.history.stands(at, cut) or self.history.is_stored(receipt, cut):
            return []
        return [some for some in self.sets if all(member in some or not self.history.holds(receipt, member, cut) for member in range(self.log.members))]

    def orphans(self, at, cut, strike):
        return [member for member in range(self.log.members) if member not in strike and self.history.depends(member, at, cut)]

    def is_unsafe(self, at):
        return any(self.orphans(at, cut, some) for cut in self.moments for some in self.losses(at, cut))

    def candidates_of_all(self, at):
        """For each set of restarts and each member, the least moment with just these at which the member depends on the receipt."""
        for restarts in set(map(self.history.restarts_in, self.moments)):
            among = [cut for cut in self.moments if self.history.restarts_in(cut) == restarts]
            for member in range(self.log.members):
                depend = [cut for cut in among if self.history.depends(member, at, cut)]
                least = tuple(map(min, zip(*depend)))
                losses = [some for some in self.losses(at, least) if member not in some] if depend else []
                assert not depend or least in depend, "there is no least moment"
                if losses:
                    yield Candidate(restarts, member, least, frozenset.intersection(*losses))

    # ---- by closures

    @cached_property
    def closed_sets(self):
        """The sets of restarts that have with each of them those that happened before it."""
        restarts = self.history.restarts
        sets = (frozenset(some) for size in range(len(restarts) + 1) for some in itertools.combinations(sorted(restarts), size))
        return [some for some in sets if all(other in some or restarts[other] not in self.history.past(restarts[one]) for one in some for other in restarts)]

    def closure(self, positions):
        """The least moment that has these entries."""
        cut = [0] * self.log.members
        for member, number in frozenset().union(*map(self.history.past, positions)):
            cut[member] = max(cut[member], number + 1)
        for member, own in enumerate(self.history.logs):
            front = cut[member]
            leader = next((number for number in reversed(range(front)) if own[number][0] not in RECORDS), None)
            while leader is not None and cut[member] < len(own) and self.history.is_in_step((member, cut[member]), (member, leader)):
                cut[member] += 1
        return tuple(cut)

    def first_dependent(self, at, member, restarts):
        """The member's first event that depends on the receipt and that none of these restarts undoes."""
        undoers = {self.history.restarts[restart] for restart in restarts}
        return next((own for own in self.history.events_of[member] if at in self.history.depends_on(own)
                     and self.history.undone_by.get(own) not in undoers), None)

    def candidates(self, at):
        receipt = self.determinant(at)
        for restarts in self.closed_sets:
            for member in range(self.log.members):
                first = self.first_dependent(at, member, restarts)
                if not first:
                    continue
                cut = self.closure([first, *(self.history.restarts[one] for one in restarts)])
                if self.history.restarts_in(cut) != restarts or not self.history.stands(at, cut) or self.history.is_stored(receipt, cut):
                    continue
                strike = frozenset(self.log.strike) | {one for one in range(self.log.members) if self.history.holds(receipt, one, cut)}
                if len(strike) <= self.most and member not in strike:
                    yield Candidate(restarts, member, cut, strike)

    # ---- the lines

    def place_of(self, at, found):
        """The place of the orphan's first standing entry that depends on the receipt, if all the restarts happened before it, and else of the
        last restart that did not, of the least member."""
        first = self.first_dependent(at, found.member, found.restarts)
        places = {restart: self.history.restarts[restart] for restart in found.restarts}
        later = [one for one in sorted(found.restarts) if places[one] not in self.history.past(first)]
        last = [one for one in later if not any(places[one] in self.history.past(places[other]) for other in later if other != one)]
        return self.place[places[last[0]] if last else first]

    def unsafe_line(self, at):
        found = min(self.candidates(at), key=Candidate.rank, default=None)
        if not found:
            return ""
        orphans = self.orphans(at, found.cut, found.strike)
        return f"unsafe {' '.join(map(str, self.determinant(at)))} at {self.place_of(at, found)} strike {words_of(found.strike)} orphans {words_of(orphans)}\n"

    def undone_line(self, at):
        undoer = self.history.undone_by.get(at)
        orphans = self.orphans(at, self.last, self.log.strike) if undoer else []
        return f"undone {' '.join(map(str, self.determinant(at)))} at {self.place[undoer]} orphans {words_of(orphans)}\n" if orphans else ""

    def text(self):
        """The lines of the check."""
        return "".join(self.unsafe_line(at) + self.undone_line(at) for at in self.receipts) or "safe\n"

    def audit(self):
        """The lines of the audit: of the receipts that stand at the last moment those that nobody outside the strike set holds, and who
        depends on one."""
        strike = frozenset(self.log.strike)
        lost = [at for at in self.receipts if self.history.stands(at, self.last) and not self.history.is_stored(self.determinant(at), self.last)
                and not any(self.history.holds(self.determinant(at), member, self.last) for member in range(self.log.members) if member not in strike)]
        orphans = {member for at in lost for member in self.orphans(at, self.last, strike)}
        named = "".join(f"determinant {' '.join(map(str, self.determinant(at)))}\n" for at in lost)
        return f"lost {len(lost)}\n{named}orphans {words_of(orphans)}\n"

    def differences(self):
        """Where the candidates say something else than all moments and all sets do."""
        for at in self.receipts:
            found, all_found = sorted(self.candidates(at), key=Candidate.rank), sorted(self.candidates_of_all(at), key=Candidate.rank)
            if found != all_found or bool(found) != self.is_unsafe(at):
                yield f"{self.determinant(at)} at {self.place[at]}: {found}, by all moments {all_found}, unsafe: {self.is_unsafe(at)}"
