"""Logs with restarts: what a check and an audit of each say, what the picture of each shows, what a check says of its members' files in any
order, and for what a log that breaks a rule is refused, compared with all moments and all sets of members."""
import json
import random
import re
from math import prod
from typing import NamedTuple

from hostile_parts.crashed_runs import each_choice_of_holds, random_run, small_runs, some_records
from hostile_parts.crashes import RECORDS, CrashJudge, fault_of, obeys
from hostile_parts.logs import files_of, logs_of, note_each, texts_of
from hostile_parts.moments import CutLog, Log, line_in_file
from hostile_parts.pictures import Picture
from program import EXAMPLES, run

RANDOM_LOGS = 2000
# the most cuts of a log of which all are tried
MOST_CUTS = 1000
# of each kind of entry, the parts that are numbers
NUMBERS = {"send": (1, 2, 3), "receipt": (1, 2, 3, 4, 5), "tell": (1, 2, 3), "told": (1, 2, 3), "restart": (1, 2, 3, 4), "hold": (1, 2, 3, 4, 5),
           "store": (1, 2, 3, 4, 5)}
# the entries that an explanation names, each with its file and place
NAMED = re.compile(r'event (\d+) of "([^"]*)"(?: is|,) (\[[^]]*\])')


class LifeCut(NamedTuple):
    """A log, of each entry the number of its file, and the order in which the files are named."""
    log: Log
    files: list
    order: list

    def parts(self):
        """What each file has."""
        own = lambda file: [entry for entry, other in zip(self.log.entries, self.files) if other == file]
        return [{"version": 2, "members": self.log.members, "f": self.log.f, "events": own(file), "strike": self.log.strike if file == 0 else []}
                for file in range(len(self.order))]

    def names(self, paths):
        """Of each entry its place in its file."""
        counts = [0] * len(self.order)
        for file in self.files:
            yield f'{counts[file]} in "{paths[file]}"'
            counts[file] += 1

    def pieces(self, member):
        """What the files have of the member, by their lives, and of one life as they are named."""
        pieces = [[entry for entry, other in zip(self.log.entries, self.files) if entry[1] == member and other == file] for file in self.order]
        return sorted(pieces, key=lambda piece: next((entry[2] for entry in piece if entry[0] == "restart"), 0))

    def joined(self):
        """The log with the entries of a member one behind another."""
        return self.log._replace(entries=tuple(entry for member in range(self.log.members) for piece in self.pieces(member) for entry in piece))


class Case(NamedTuple):
    """A log, the order in which the files of its members are named, and files for its lives."""
    log: Log
    order: list
    lives: LifeCut


# ---- logs


def has_restart(entries):
    return any(entry[0] == "restart" for entry in entries)


def small_logs():
    """All small logs in which a member restarts."""
    return [Log(2, 1, (), entries) for run in filter(has_restart, small_runs(2)) for entries in each_choice_of_holds(2, run)]


def random_log(source):
    members, entries = source.randint(2, 4), ()
    while not has_restart(entries):
        entries = random_run(source, members, source.randint(8, 26 - 3 * members), source.randint(1, 3))
    strike = tuple(member for member in range(members) if source.random() < 0.05)
    return Log(members, source.randint(1, members - 1), strike, some_records(source, members, entries))


def spoiled(source, log):
    """The log with one number changed, an entry left out or twice there, two entries exchanged, or somebody struck who is not there."""
    entries, change = list(log.entries), source.random()
    first, second = (source.randrange(len(entries)) for _ in range(2))
    if change < 0.05:
        return log._replace(strike=(*log.strike, log.members))
    if change < 0.15:
        del entries[first]
    elif change < 0.25:
        entries.insert(first, entries[second])
    elif change < 0.35:
        entries[first], entries[second] = entries[second], entries[first]
    else:
        entries[first] = renumbered(source, entries[first])
    return log._replace(entries=tuple(entries))


def renumbered(source, entry):
    """The entry with one number that is one more, or one less."""
    part = source.choice([part for part in NUMBERS[entry[0]] if part < len(entry)])
    number = entry[part] + (1 if entry[part] == 0 else source.choice([1, -1]))
    # a receipt of life 0 names none
    return entry[:part] if entry[0] == "receipt" and (part, number) == (5, 0) else (*entry[:part], number, *entry[part + 1:])


def life_cut(source, log):
    """The log in files in which most lives of a member have a file of their own, and a file may have lives of several members."""
    own = [[place for place, entry in enumerate(log.entries) if entry[1] == member] for member in range(log.members)]
    cuts = []
    for places in own:
        restarts = [number for number, place in enumerate(places) if log.entries[place][0] == "restart"]
        cuts.append([source.randint(before + 1, at) for before, at in zip([-1, *restarts], restarts) if source.random() < 0.8])
    count, files = max(1, *map(len, cuts)) + 1 + source.randint(0, 1), [0] * len(log.entries)
    for places, starts in zip(own, cuts):
        chosen = source.sample(range(count), len(starts) + 1)
        for number, place in enumerate(places):
            files[place] = chosen[sum(start <= number for start in starts)]
    return LifeCut(log, files, source.sample(range(count), count))


def case_of(source, log):
    return Case(log, source.sample(range(log.members), log.members), life_cut(source, log))


# ---- what is tried


def status_of(text):
    return 0 if text == "safe\n" else 1


def judge_log(log):
    """Whether the check of the log says what its moments say."""
    text, wanted = log.text(), CrashJudge(log).text()
    ran = run(["check"], text.encode())
    yield ran == (status_of(wanted), wanted, ""), f"{text}: {ran}, and not {wanted}"


def judge_picture(log, judge):
    """Whether the picture of the log says what the first line of the check says, or else what an audit finds, and has the orphans of that."""
    line, audit = judge.text().splitlines()[0], judge.audit().splitlines()
    if line == "safe":
        line = f"struck {','.join(map(str, log.strike)) or 'none'} {audit[0]} {audit[-1]}"
    for word in ("strike", "lost", "orphans"):
        line = line.replace(f" {word} ", f", {word} ")
    ran = run(["draw"], log.text().encode())
    picture = Picture(ran.text)
    labels = [text.firstChild.data.split() for text in picture.texts if text.firstChild.data.startswith("member ")]
    orphans = ",".join(label[1] for label in labels if label[2:] == ["orphan"]) or "none"
    well = (ran.status, ran.fault) == (0, "") and picture.heading.endswith(f" entries: {line}") and line.split()[-1] == orphans
    yield well, f"the picture of {log.text()}: {ran}, and not {line}"


def judge_case(case):
    """Whether the check, the audit and the picture of the log are right, and the check of its members' files; or its fault, and that of the
    files."""
    log, order, lives = case
    cut, fault = CutLog(log, list(range(log.members)), order), fault_of(log)
    if fault:
        ran = run(["check"], log.text().encode())
        yield ran == (2, "", f"fault: {fault}\n"), f"{log.text()}: {ran}, and not {fault}"
        if all(entry[1] < log.members for entry in log.entries):
            yield from judge_wrong_files(cut)
            yield from judge_wrong_lives(lives)
        return
    yield from judge_log(log)
    judge = CrashJudge(log)
    if prod(count + 1 for count in judge.last) <= MOST_CUTS:
        different = list(judge.differences())
        yield not different, f"{log.text()}: {different}"
    ran = run(["audit"], log.text().encode())
    yield ran == (0, judge.audit(), ""), f"the audit of {log.text()}: {ran}, and not {judge.audit()}"
    yield from judge_picture(log, judge)
    yield from judge_files(cut, judge.text())
    yield from judge_lives(lives, judge)


def ordered(log):
    """The log with its entries in an order in which as many come as may."""
    waiting, before, has_moved = logs_of(log.members, log.entries), [], True
    while has_moved:
        has_moved = False
        for own in waiting:
            while own and (own[0][0] in RECORDS or obeys(log.members, before, own[0])):
                before.append(own.pop(0))
                has_moved = True
    return log._replace(entries=tuple(before))


def judge_wrong_files(cut):
    """Whether the files have the fault of their order, where they have one, or else that of the merged log, if it has one."""
    merged = ordered(cut.log)
    fault = "BadEvent" if len(merged.entries) < len(cut.log.entries) else fault_of(merged)
    if not fault:
        yield from judge_files(cut._replace(log=merged), CrashJudge(merged).text())
        return
    with files_of(texts_of(cut.parts())) as paths:
        ran = run(["check", *(paths[file] for file in cut.order)])
    is_well = ran[:2] == (2, "") and ran.fault.startswith(f"fault: {fault.split()[0]} ") and ran.fault.count("\n") == 1
    yield is_well, f"{cut} in files: {ran}, and not {fault}"


def judge_files(cut, text):
    """Whether the files have the lines of the check of the whole, but for places, and in the order of the receipts in the files."""
    with files_of(texts_of(cut.parts())) as paths:
        ran = run(["check", *(paths[file] for file in cut.order)])
        lines = cut.lines_in(text, cut.log.entries, paths)
    same = (ran.status, sorted(ran.text.splitlines(True)), ran.fault) == (status_of(text), sorted(lines), "")
    yield same, f"{cut} in files: {ran}, and not {lines}"


def judge_lives(cut, judge):
    """Whether the files, in whichever order they are named, are merged to the members' logs and have the lines of the whole, but for places."""
    with files_of(texts_of(cut.parts())) as paths:
        named, names = [paths[file] for file in cut.order], list(cut.names(paths))
        merged, checked, audited = (run([word, *named]) for word in ("merge", "check", "audit"))
    entries = [tuple(entry) for entry in json.loads(merged.text)["events"]] if merged.status == 0 else []
    yield logs_of(cut.log.members, entries) == logs_of(cut.log.members, cut.log.entries), f"{cut} by lives is merged to {merged}"
    lines = [line_in_file(line, names) for line in judge.text().splitlines(True)]
    same = (checked.status, sorted(checked.text.splitlines(True)), checked.fault) == (status_of(judge.text()), sorted(lines), "")
    yield same, f"{cut} by lives: {checked}, and not {lines}"
    yield sorted(audited.text.splitlines()) == sorted(judge.audit().splitlines()), f"{cut} by lives: {audited}"


def judge_wrong_lives(cut):
    """Whether files that may be wrong say what those of the members say, where each has its pieces by life; and whether the entry that a fault
    names stands where it says."""
    joined = cut.joined()
    members = CutLog(joined, list(range(joined.members)), list(range(joined.members)))
    with files_of(texts_of(members.parts())) as paths:
        wanted = run(["check", *paths])
    parts = cut.parts()
    with files_of(texts_of(parts)) as paths:
        ran = run(["check", "--explain", *(paths[file] for file in cut.order)])
        same = ran.status == wanted.status and ran.fault.split()[:2] == wanted.fault.split()[:2] if wanted.status == 2 else ran.status == wanted.status
        places = NAMED.findall(ran.fault)
        stands = all(json.loads(entry) == list(parts[paths.index(path)]["events"][int(place)]) for place, path, entry in places)
    yield same and stands and (places or "BadEvent" not in ran.fault), f"{cut} by lives: {ran}, and not {wanted}"


def example(path):
    """The log of an example."""
    given = json.loads(path.read_text())
    return Log(given["members"], given["f"], tuple(given["strike"]), tuple(map(tuple, given["events"])))


def try_small_restarts(tally):
    """All small logs, and the examples, whose texts stand beside them."""
    note_each(tally, judge_log, small_logs())
    for path in sorted((EXAMPLES / "restarts").glob("*.json")):
        said = CrashJudge(example(path)).text()
        tally.note(said == path.with_suffix(".txt").read_text(), f"{path.name}: {said}")


def try_random_restarts(tally):
    """Logs at random, each as it is and with something wrong."""
    source, cases = random.Random(13), []
    for _ in range(RANDOM_LOGS):
        log = random_log(source)
        cases += [case_of(source, one) for one in (log, spoiled(source, log))]
    cases += [case_of(source, log) for log in map(example, sorted((EXAMPLES / "restarts").glob("*.json")))]
    note_each(tally, judge_case, cases)
    refused = sum(fault_of(log) is not None for log, _, _ in cases)
    tally.note(refused > RANDOM_LOGS // 2, f"of the logs with something wrong {refused} alone are refused")
