"""Logs of runs, judged at each of their moments: by the program, and by trying all consistent cuts and all sets of members."""
import itertools
import json
import random
from functools import lru_cache
from typing import NamedTuple

from hostile_parts.damage import mutated
from hostile_parts.logs import channel_of, files_of, is_send, logs_of, message_of, note_each, random_run, texts_of
from hostile_parts.pictures import Moment, Picture, is_picture_of_log, places_of_pictures
from program import EXAMPLES, run

# the most messages of the runs of which all are tried, with each choice of holds
MOST_MESSAGES = 3
STORED_LOGS = 1500
GREATER_LOGS = 300
CUT_LOGS = 200
EARLY_LOGS = 200
MUTATED_LOGS = 400
DRAWN_LOGS = 300


class Receipt(NamedTuple):
    """A determinant, in the order of its line."""
    source: int
    ssn: int
    to: int
    rsn: int


class Log(NamedTuple):
    """A run with its holds and stores, its entries in an order."""
    members: int
    f: int
    strike: tuple
    entries: tuple

    def text(self):
        return json.dumps({"version": 2, "members": self.members, "f": self.f, "events": self.entries, "strike": self.strike})


def logs_in(log):
    """Each member's own entries."""
    return tuple(tuple(own) for own in logs_of(log.members, log.entries))


def receipt_of(entry):
    """What names a receipt, or what a hold or a store names."""
    if entry[0] == "receipt":
        return Receipt(entry[3], entry[4], entry[1], entry[2])
    return Receipt(*entry[2:]) if entry[0] in ("hold", "store") else None


# ---- runs


def small_runs(members):
    """All runs with so few messages, as the logs of the members, but for the members' names."""
    seen, waiting, found = set(), [((),) * members], {}
    while waiting:
        logs = waiting.pop()
        if logs in seen:
            continue
        seen.add(logs)
        found.setdefault(min(renamed(logs, names) for names in itertools.permutations(range(members))), logs)
        waiting += longer_runs(logs)
    return list(found.values())


def renamed(logs, names):
    """The logs with other names of the members."""
    others = {0: lambda e: e[0], 1: lambda e: names[e[1]], 2: lambda e: e[2], 3: lambda e: names[e[3]], 4: lambda e: e[4]}
    new = [None] * len(logs)
    for member, log in enumerate(logs):
        new[names[member]] = tuple(tuple(others[part](e) for part in range(len(e))) for e in log)
    return tuple(new)


def longer_runs(logs):
    """The runs with one event more."""
    members = range(len(logs))
    number = lambda kind, member: sum(e[0] == kind for e in logs[member]) + 1
    with_event = lambda e: (*logs[:e[1]], (*logs[e[1]], e), *logs[e[1] + 1:])
    for sender, receiver in itertools.permutations(members, 2):
        if sum(is_send(e) for log in logs for e in log) < MOST_MESSAGES:
            yield with_event(("send", sender, number("send", sender), receiver))
        flight = [e[2] for e in logs[sender] if is_send(e) and e[3] == receiver]
        taken = sum(not is_send(e) and e[3] == sender for e in logs[receiver])
        if taken < len(flight):
            yield with_event(("receipt", receiver, number("receipt", receiver), sender, flight[taken]))


def listed(source, logs):
    """The entries of all members in an order, at random, in which each receipt comes after the send of its message."""
    fronts, sent, entries = [0] * len(logs), set(), []
    while True:
        ready = [member for member, log in enumerate(logs) if fronts[member] < len(log) and
                 (log[fronts[member]][0] != "receipt" or (channel_of(log[fronts[member]]), message_of(log[fronts[member]])) in sent)]
        if not ready:
            return tuple(entries)
        member = source.choice(ready)
        entry = logs[member][fronts[member]]
        fronts[member] += 1
        if is_send(entry):
            sent.add((channel_of(entry), message_of(entry)))
        entries.append(entry)


# ---- precedence, by the definitions


@lru_cache(maxsize=4)
def pasts_of(logs):
    """For each entry, by its member and number, how many of its first entries each member has in its past, with itself."""
    pasts = {}

    def past(member, number):
        if (member, number) not in pasts:
            counts = list(past(member, number - 1)) if number else [0] * len(logs)
            entry = logs[member][number]
            if entry[0] == "receipt":
                sender = entry[3]
                sent = next(place for place, e in enumerate(logs[sender]) if is_send(e) and e[2] == entry[4])
                counts = [max(pair) for pair in zip(counts, past(sender, sent))]
            counts[member] = number + 1
            pasts[member, number] = tuple(counts)
        return pasts[member, number]

    for member, log in enumerate(logs):
        for number in range(len(log)):
            past(member, number)
    return pasts


def depends(logs, receipt, member, count):
    """Whether one of the member's first entries, so many, depends on the receipt."""
    place = next(number for number, entry in enumerate(logs[receipt.to]) if entry[0] == "receipt" and entry[2] == receipt.rsn)
    return any(pasts_of(logs)[member, number][receipt.to] > place for number in range(count))


def is_moment(logs, cut):
    """Whether the cut has with each entry all that precede it, and with a receipt the holds and stores directly behind it."""
    for member, count in enumerate(cut):
        if any(other > cut[q] for number in range(count) for q, other in enumerate(pasts_of(logs)[member, number])):
            return False
        behind, before = logs[member][count:count + 1], count - 1
        while before >= 0 and logs[member][before][0] in ("hold", "store"):
            before -= 1
        if behind and behind[0][0] in ("hold", "store") and before >= 0 and logs[member][before][0] == "receipt":
            return False
    return True


def moments_of(logs):
    return [cut for cut in itertools.product(*(range(len(log) + 1) for log in logs)) if is_moment(logs, cut)]


class Found(NamedTuple):
    """Where a receipt is unsafe: a member with its first entry that depends on the receipt, the least moment that has it, the least set
    that loses the receipt there and leaves the member, and the orphans."""
    receipt: Receipt
    member: int
    number: int
    cut: tuple
    strike: set
    orphans: list

    def place_in(self, entries):
        """The place of the member's entry among these."""
        return [place for place, entry in enumerate(entries) if entry[1] == self.member][self.number]


class Judge:
    """What holds at the moments of a log, found by trying all of them and all sets of members."""

    def __init__(self, log):
        self.log, self.logs = log, logs_in(log)
        self.moments = moments_of(self.logs)
        most = max(log.f, len(log.strike))
        self.sets = [set(chosen) for size in range(most + 1) for chosen in itertools.combinations(range(log.members), size) if set(log.strike) <= set(chosen)]

    def come(self, cut):
        return [entry for own, count in zip(self.logs, cut) for entry in own[:count]]

    def holders(self, receipt, cut):
        return {entry[1] for entry in self.come(cut) if entry[0] == "hold" and receipt_of(entry) == receipt}

    def is_stored(self, receipt, cut):
        return any(entry[0] == "store" and receipt_of(entry) == receipt for entry in self.come(cut))

    def losses(self, receipt, cut):
        """The sets of members that may be lost at the moment and lose the receipt."""
        if self.is_stored(receipt, cut):
            return []
        return [lost for lost in self.sets if self.holders(receipt, cut) <= lost]

    def orphans(self, receipt, cut, lost):
        return [member for member in range(self.log.members) if member not in lost and depends(self.logs, receipt, member, cut[member])]

    def is_unsafe(self, receipt):
        return any(self.orphans(receipt, cut, lost) for cut in self.moments for lost in self.losses(receipt, cut))

    def least_moment(self, member, number):
        """The least moment that has the member's entry."""
        return tuple(map(min, zip(*(cut for cut in self.moments if cut[member] > number))))

    def candidates(self, receipt):
        """The members that depend on the receipt, each at the least moment at which it does, where that can leave it an orphan."""
        for member, own in enumerate(self.logs):
            number = next((number for number in range(len(own)) if depends(self.logs, receipt, member, number + 1)), None)
            if number is not None:
                cut = self.least_moment(member, number)
                losses = [lost for lost in self.losses(receipt, cut) if member not in lost]
                if losses:
                    least = set.intersection(*losses)
                    yield Found(receipt, member, number, cut, least, self.orphans(receipt, cut, least))

    def found(self, receipt):
        """The candidate that a check names: by the least number of members struck, then the least of such sets, then the least member."""
        return min(self.candidates(receipt), key=lambda one: (len(one.strike), sorted(one.strike), one.member), default=None)

    def line(self, receipt):
        """The line of an unsafe receipt."""
        found = self.found(receipt)
        if not found:
            return f"{receipt} is unsafe nowhere\n"
        place = found.place_in(self.log.entries)
        return f"unsafe {' '.join(map(str, receipt))} at {place} strike {words_of(found.strike)} orphans {words_of(found.orphans)}\n"

    def receipts(self):
        return [receipt_of(entry) for entry in self.log.entries if entry[0] == "receipt"]

    def drawn(self):
        """What the picture of the log is to show: its first unsafe receipt at its moment, or its last moment."""
        first = next((self.found(receipt) for receipt in self.receipts() if self.is_unsafe(receipt)), None)
        if first:
            said = f"unsafe {' '.join(map(str, first.receipt))} at {first.place_in(self.log.entries)}, strike {words_of(first.strike)}, orphans {words_of(first.orphans)}"
            return self.moment(first.cut, first.strike, first.orphans, said)
        last = tuple(map(len, self.logs))
        strike = set(self.log.strike)
        lost = [receipt for receipt in self.receipts() if not self.is_stored(receipt, last) and self.holders(receipt, last) <= strike]
        return self.moment(last, strike, [], f"struck {words_of(strike)}, lost {len(lost)}, orphans none")

    def moment(self, cut, strike, orphans, said):
        """What the entries are to be drawn as where these are struck at the moment."""
        come = [number < cut[member] for member, number in places_of(self.log.members, self.log.entries)]
        receipts = {place: receipt_of(entry) for place, entry in enumerate(self.log.entries) if entry[0] == "receipt"}
        holders = {place: self.holders(receipt, cut) for place, receipt in receipts.items()}
        stored = {place for place, receipt in receipts.items() if self.is_stored(receipt, cut)}
        return Moment(strike, come, holders, stored, len(orphans), said)

    def text(self):
        """The lines of the check."""
        return "".join(self.line(receipt) for receipt in self.receipts() if self.is_unsafe(receipt)) or "safe\n"


def words_of(members):
    return ",".join(map(str, sorted(members))) or "none"


# ---- holds and stores


def choices(logs):
    """For each receipt and each member that depends on it, the numbers of the member's entries from its first that does on."""
    for to, log in enumerate(logs):
        for place, entry in enumerate(log):
            if entry[0] == "receipt":
                for member, own in enumerate(logs):
                    numbers = [number for number in range(len(own)) if pasts_of(logs)[member, number][to] > place]
                    if numbers:
                        yield receipt_of(entry), member, numbers


def with_records(logs, records):
    """The logs with these holds and stores, each behind the entry of its member that has the number."""
    new = [[] for _ in logs]
    for member, log in enumerate(logs):
        for number, entry in enumerate(log):
            new[member].append(entry)
            new[member] += [(kind, member, *receipt) for kind, receipt, of, behind in records if (of, behind) == (member, number)]
    return new


def each_choice_of_holds(logs):
    """The logs with each choice of who holds what, from each entry on from which it may, or never."""
    places = list(choices(logs))
    for chosen in itertools.product(*([None, *numbers] for _, _, numbers in places)):
        yield with_records(logs, [("hold", receipt, member, number) for (receipt, member, _), number in zip(places, chosen) if number is not None])


def some_records(source, logs, kinds):
    """The logs with holds and stores at random."""
    places = [place for place in choices(logs) if source.random() < 0.6]
    return with_records(logs, [(source.choice(kinds), receipt, member, source.choice(numbers)) for receipt, member, numbers in places])


def log_of(source, logs, f, strike=()):
    return Log(len(logs), f, tuple(strike), listed(source, logs))


def judge_log(log):
    """Whether the check says what trying everything says."""
    wanted = Judge(log).text()
    ran = run(["check"], log.text().encode())
    return [(ran == (0 if wanted == "safe\n" else 1, wanted, ""), f"{log.text()}: {ran}, and not {wanted}")]


def try_small_logs(tally):
    """All runs of two and three members with so few messages, with each choice of holds and each f."""
    source, logs = random.Random(5), []
    for members in (2, 3):
        for own in small_runs(members):
            for held in each_choice_of_holds(own):
                logs += [log_of(source, held, f) for f in range(1, members)]
    note_each(tally, judge_log, logs)


def try_greater_logs(tally):
    """Runs at random, with stores and strike sets, small ones and such as have more members and messages."""
    source, logs = random.Random(6), []
    small = [run for members in (2, 3) for run in small_runs(members)]
    for _ in range(STORED_LOGS):
        own = source.choice(small)
        strike = [member for member in range(len(own)) if source.random() < 0.15]
        logs.append(log_of(source, some_records(source, own, ["hold", "hold", "store"]), source.randint(1, len(own) - 1), strike))
    for _ in range(GREATER_LOGS):
        members, events = random_run(source, 9)
        own = tuple(tuple(map(tuple, log)) for log in logs_of(members, events))
        strike = [member for member in range(members) if source.random() < 0.1]
        logs.append(log_of(source, some_records(source, own, ["hold"] * 5 + ["store"]), source.randint(1, members - 1), strike))
    note_each(tally, judge_log, logs)


def judge_drawn(log):
    """Whether the picture is that of the log at the moment which trying everything finds."""
    ran, drawn = run(["draw"], log.text().encode()), Judge(log).drawn()
    try:
        well, why = is_picture_of_log(Picture(ran.text), places_of_pictures(), log.f, log.entries, drawn), drawn
    except Exception as error:
        well, why = False, error
    return [((ran.status, ran.fault) == (0, "") and well, f"the picture of {log.text()} is not that of {why}: {ran}")]


def try_drawn_logs(tally):
    """The pictures of runs at random, with stores and strike sets."""
    source = random.Random(10)
    small = [run for members in (2, 3) for run in small_runs(members)]
    places_of_pictures()
    logs = []
    for _ in range(DRAWN_LOGS):
        own = source.choice(small)
        strike = [member for member in range(len(own)) if source.random() < 0.15]
        logs.append(log_of(source, some_records(source, own, ["hold", "hold", "store"]), source.randint(1, len(own) - 1), strike))
    note_each(tally, judge_drawn, logs)


# ---- logs in several files, and damaged ones


def random_log(source, most):
    members, events = random_run(source, most)
    own = tuple(tuple(map(tuple, log)) for log in logs_of(members, events))
    return log_of(source, some_records(source, own, ["hold", "hold", "store"]), source.randint(1, members - 1))


class CutLog(NamedTuple):
    """A log, the file of each member, and the order in which the files are named."""
    log: Log
    files: list
    order: list

    def parts(self):
        """What each file has: the entries of its members, as they are listed."""
        log = self.log
        own = lambda file: [entry for entry in log.entries if self.files[entry[1]] == file]
        return [{"version": 2, "members": log.members, "f": log.f, "events": own(file), "strike": log.strike if file == 0 else []} for file in range(len(self.order))]

    def lines_in(self, text, entries, paths):
        """The lines of a check, with the places of these entries in their files in place of those among all."""
        spots = {member: [] for member in range(self.log.members)}
        for path, part in zip(paths, self.parts()):
            for place, entry in enumerate(part["events"]):
                spots[entry[1]].append(f'{place} in "{path}"')
        names = [spots[entry[1]].pop(0) for entry in entries]
        return [line_in_file(line, names) for line in text.splitlines(True)]


def cut_log(source):
    log = random_log(source, 24)
    count = source.randint(2, log.members)
    files = [source.randrange(count) for _ in range(log.members)]
    return CutLog(log, files, source.sample(range(count), count))


def judge_cut_log(case):
    """Whether the files, in the order in which they are named, are merged to the run, and are safe and unsafe where it is, by whole lines."""
    log = case.log
    with files_of(texts_of(case.parts())) as paths:
        named = [paths[file] for file in case.order]
        merged, checked, audited, drawn = (run([word, *named]) for word in ("merge", "check", "audit", "draw"))
    entries = [tuple(entry) for entry in json.loads(merged.text)["events"]] if merged.status == 0 else []
    yield logs_of(log.members, entries) == logs_of(log.members, log.entries), f"{case} is merged to {merged}"
    alone, whole, whole_audit = run(["check"], merged.text.encode()), *(run([word], log.text().encode()) for word in ("check", "audit"))
    wanted = case.lines_in(alone.text, entries, paths)
    yield (checked.status, checked.text) == (alone.status, "".join(wanted)), f"{case}, checked in files: {checked}, and not {wanted}"
    same = sorted(wanted) == sorted(case.lines_in(whole.text, log.entries, paths))
    yield same and sorted(audited.text.splitlines()) == sorted(whole_audit.text.splitlines()), f"{case} in files: {checked} and not {whole}; {audited}"
    heading = wanted[0].strip().replace(" strike ", ", strike ").replace(" orphans ", ", orphans ") if wanted != ["safe\n"] else None
    well = drawn.status == 0 and (not heading or Picture(drawn.text).heading.endswith(f": {heading}"))
    yield well, f"{case}, drawn from files: {drawn}, and not with {heading}"


def places_of(members, entries):
    """The member of each entry, and its place in the member's own log."""
    counts = [0] * members
    for entry in entries:
        yield entry[1], counts[entry[1]]
        counts[entry[1]] += 1


def line_in_file(line, names):
    """The line of an unsafe receipt, with the place in the file."""
    before, at, after = line.partition(" at ")
    place, space, rest = after.partition(" ")
    return before + at + names[int(place)] + space + rest if at else line


def try_cut_logs(tally):
    source = random.Random(7)
    note_each(tally, judge_cut_log, [cut_log(source) for _ in range(CUT_LOGS)])


def judge_early(case):
    """Whether a hold that is put before all that tells of its receipt is refused, with its place."""
    log, place = case
    ran = run(["check", "--explain"], log.text().encode())
    said = json.dumps(log.entries[place], separators=(",", ":"))
    wanted = f"fault: BadEvent {place}\nevent {place} is {said}, and nobody there can know the receipt yet\n"
    return [(ran == (2, "", wanted), f"{log.text()}: {ran}, and not {wanted}")]


def try_early_holds(tally):
    """A hold or a store of a receipt that does not precede it is the fault, at its place."""
    source, cases = random.Random(8), []
    while len(cases) < EARLY_LOGS:
        log = random_log(source, 16)
        receipts = [receipt_of(entry) for entry in log.entries if entry[0] == "receipt"]
        member, place = source.randrange(log.members), source.randint(0, len(log.entries))
        receipt = source.choice(receipts) if receipts else None
        count = sum(entry[1] == member for entry in log.entries[:place])
        if receipt and not depends(logs_in(log), receipt, member, count):
            early = (source.choice(["hold", "store"]), member, *receipt)
            cases.append((log._replace(entries=(*log.entries[:place], early, *log.entries[place:])), place))
    note_each(tally, judge_early, cases)


def try_mutated_moments(tally):
    """Texts of logs that are damaged give a fault or an answer."""
    source = random.Random(9)
    texts = [path.read_bytes() for folder in ("moments", "restarts") for path in sorted((EXAMPLES / folder).glob("*.json"))]
    for number in range(MUTATED_LOGS):
        word, given = source.choice(["merge", "audit", "check", "draw"]), mutated(source, texts)
        ran = run([word], given)
        is_fault = ran.status == 2 and ran.text == "" and ran.fault.startswith("fault: ") and ran.fault.count("\n") == 1
        found_unsafe = word == "check" and ran.status == 1 and ran.text.startswith(("unsafe ", "undone ")) and ran.fault == ""
        tally.note(is_fault or found_unsafe or (ran.status == 0 and ran.fault == ""), f"log {number} for {word}, {given!r:.600}: {ran}")
