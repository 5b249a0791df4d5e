"""Logs of runs with crashes, made entry by entry by their rules, and whether candidates say of them what all moments and all sets of members
say. Run from the folder above, `python3 -m hostile_parts.crashed_runs` tries all small ones, and others at random."""
import itertools
import random
import sys

from hostile_parts.crashes import MOST_RESTARTS, CrashJudge, History, is_due
from hostile_parts.logs import files_of, is_send, logs_of, note_each, texts_of
from hostile_parts.moments import CutLog, Log, receipt_of
from program import run
from tally import Tally

# the most of each kind in the runs of two members of which all are tried
MOST_OF = {"send": 2, "tell": 1, "restart": 1}
MOST_WITH_CONTROL = {**MOST_OF, "restart": 0}
RANDOM_LOGS = 2000
CONTROL_LOGS = 300


def history_of(members, entries):
    return History(tuple(map(tuple, logs_of(members, entries))))


# ---- runs


def next_entries(members, entries):
    """The sends, receipts, control messages and restarts that obey the rules behind these entries. New lives and tells have the next number."""
    history = history_of(members, entries)
    for own, standing in enumerate(history.standing):
        sends = sum(is_send(history.entry(at)) for at in standing)
        for other in {*range(members)} - {own}:
            yield "send", own, sends + 1, other
            yield "tell", own, other, sum(told[:2] == (own, other) for told in history.tells) + 1
        for member, life, ssn in history.sends:
            receipt = ("receipt", own, len(standing) - sends + 1, member, ssn, life)[:6 if life else 5]
            if is_due(history, receipt):
                yield receipt
        for teller, other, number in history.tells:
            if other == own and ("told", own, teller, number) not in history.logs[own]:
                yield "told", own, teller, number
        for kept in range(len(standing) + 1) if len(history.restarts) < MOST_RESTARTS else ():
            sent = sum(is_send(history.entry(at)) for at in standing[:kept])
            yield "restart", own, history.lives[own] + 1, kept - sent, sent


def renamed(entry, names):
    """The entry with other names of the members."""
    named = {"send": (1, 3), "receipt": (1, 3), "tell": (1, 2), "told": (1, 2), "restart": (1,)}[entry[0]]
    return tuple(names[part] if place in named else part for place, part in enumerate(entry))


def small_runs(members, most_of=None):
    """All runs with so few messages, control messages and restarts, each in one order, but for the members' names."""
    most_of = most_of or MOST_OF
    seen, waiting = set(), [()]
    orders = list(itertools.permutations(range(members)))
    while waiting:
        entries = waiting.pop()
        key = min(tuple(map(tuple, logs_of(members, [renamed(entry, names) for entry in entries]))) for names in orders)
        if key in seen:
            continue
        seen.add(key)
        yield entries
        waiting += [(*entries, entry) for entry in next_entries(members, entries)
                    if sum(other[0] == entry[0] for other in entries) < most_of.get(entry[0], len(entries))]


def random_run(source, members, most, restarts):
    """A run of so many members, with so many entries and restarts at most."""
    weights = {"send": 3, "receipt": 8, "tell": 1, "told": 4, "restart": 2}
    entries = []
    for _ in range(most):
        ready = {}
        for entry in next_entries(members, entries):
            ready.setdefault(entry[0], []).append(entry)
        if sum(entry[0] == "restart" for entry in entries) == restarts or not any(entry[0] == "receipt" for entry in entries):
            ready.pop("restart", None)
        kinds = sorted(ready)
        kind = source.choices(kinds, [weights[one] for one in kinds])[0]
        # what is kept is mostly much
        entries.append(ready[kind][-1] if kind == "restart" and source.random() < 0.3 else source.choice(ready[kind]))
    return tuple(entries)


# ---- holds and stores


def choices(members, entries):
    """For each determinant and each life of each member, the places of the member's entries from the first that it happened before."""
    history, lives = history_of(members, entries), {}
    counts, life = [0] * members, [0] * members
    for place, entry in enumerate(entries):
        member = entry[1]
        past = history.past((member, counts[member]))
        counts[member] += 1
        life[member] = entry[2] if entry[0] == "restart" else life[member]
        for receipt in {receipt_of(history.entry(at)) for at in past if history.entry(at)[0] == "receipt"}:
            lives.setdefault((receipt, member, life[member]), []).append(place)
    return [(receipt, member, places) for (receipt, member, _), places in sorted(lives.items())]


def with_records(entries, records):
    """The entries with these holds and stores, each directly behind the entry of its member that has the place."""
    behind = {}
    for place, record in records:
        behind.setdefault(place, []).append(record)
    return tuple(one for place, entry in enumerate(entries) for one in (entry, *behind.get(place, ())))


def each_choice_of_holds(members, entries):
    """The entries with each choice of who holds what in each life, from each entry on from which it may, or never."""
    places = choices(members, entries)
    for chosen in itertools.product(*([None, *some] for _, _, some in places)):
        yield with_records(entries, [(place, ("hold", member, *receipt)) for (receipt, member, _), place in zip(places, chosen) if place is not None])


def some_records(source, members, entries):
    """The entries with holds and stores at random, mostly as early as may be."""
    records = []
    for receipt, member, places in choices(members, entries):
        if source.random() < 0.75:
            place = places[0] if source.random() < 0.7 else source.choice(places)
            records.append((place, ("hold" if source.random() < 0.95 else "store", member, *receipt)))
    return with_records(entries, records)


# ---- what is tried


def small_logs():
    return [Log(2, 1, (), entries) for run in small_runs(2) for entries in each_choice_of_holds(2, run)]


def random_logs(source, count):
    for _ in range(count):
        members = source.randint(2, 4)
        run = random_run(source, members, source.randint(6, 22 - 3 * members), source.randint(0, 3))
        strike = tuple(member for member in range(members) if source.random() < 0.05)
        yield Log(members, source.randint(1, members - 1), strike, some_records(source, members, run))


def small_control_logs():
    """All small logs in which somebody is told something, and nobody restarts."""
    runs = (small for small in small_runs(2, MOST_WITH_CONTROL) if any(entry[0] == "told" for entry in small))
    return [Log(2, 1, (), entries) for small in runs for entries in each_choice_of_holds(2, small)]


def random_control_logs(source, count):
    """Such logs at random."""
    while count:
        members = source.randint(2, 4)
        entries = some_records(source, members, random_run(source, members, source.randint(8, 26 - 3 * members), 0))
        if any(entry[0] == "told" for entry in entries):
            count -= 1
            yield Log(members, source.randint(1, members - 1), (), entries)


def judge_control_log(case):
    """Whether the check of the log says what trying everything says, and of its members' files, named in an order, the same, but for places."""
    log, order = case
    wanted = CrashJudge(log).text()
    ran = run(["check"], log.text().encode())
    yield ran == (0 if wanted == "safe\n" else 1, wanted, ""), f"{log.text()}: {ran}, and not {wanted}"
    cut = CutLog(log, list(range(log.members)), order)
    with files_of(texts_of(cut.parts())) as paths:
        named = [paths[file] for file in order]
        ran = run(["check", *named])
        merged = run(["merge", *named])
    lines = cut.lines_in(wanted, log.entries, paths)
    yield (ran.status, sorted(ran.text.splitlines(True))) == (0 if wanted == "safe\n" else 1, sorted(lines)), f"{case} in files: {ran}, and not {lines}, merged to {merged}"


def try_control_logs(tally):
    """Logs with control messages, whole and cut into the files of the members, which are named in any order."""
    source = random.Random(12)
    logs = [*small_control_logs(), *random_control_logs(source, CONTROL_LOGS)]
    note_each(tally, judge_control_log, [(log, source.sample(range(log.members), log.members)) for log in logs])


def try_candidates(tally):
    """All small logs, and such at random: the candidates are those that trying everything finds."""
    for log in itertools.chain(small_logs(), random_logs(random.Random(11), RANDOM_LOGS)):
        tally.note(*judge_candidates(log))


def judge_candidates(log):
    different = list(CrashJudge(log).differences())
    return not different, f"{log.text()}: {different}"


if __name__ == "__main__":
    counted = Tally()
    try_candidates(counted)
    sys.exit(counted.end())
