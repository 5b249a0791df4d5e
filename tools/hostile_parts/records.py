"""Records of scripts made at random: each is a log that a check calls safe, which says what the play says of its end; and with one planted
change a check of it says what all moments and all sets of members say."""
import json
import random
from math import prod

from hostile_parts.crashes import EVENTS, MOST_RESTARTS, CrashJudge, fault_of
from hostile_parts.logs import logs_of, note_each
from hostile_parts.moments import Log, receipt_of
from hostile_parts.restarts import MOST_CUTS, status_of
from program import run

RECORDS = 1000
RECOVERIES = 600
WORKERS = (1, 3)


# ---- scripts


def random_set(source, members, most):
    return source.sample(range(members), source.randint(1, most))


def random_command(source, members, f, made):
    kind = source.choices(["deliver", "strike", "recover", "checkpoint", "run"], [24, 2, 3, 3, 1])[0]
    if kind == "deliver":
        return ["deliver", *source.sample(range(members), 2)]
    if kind == "strike":
        return ["strike", random_set(source, members, f)]
    if kind == "checkpoint":
        return ["checkpoint", source.randrange(members)]
    if kind == "run":
        at = sorted(source.sample(range(made, made + 12), source.randint(0, 2)))
        return ["run", [[number, random_set(source, members, f)] for number in at]]
    return ["recover"]


def random_script(source):
    """A script with strikes, some while members are down, recoveries, checkpoints, and runs with plans."""
    members = source.randint(2, 5)
    f = source.randint(1, members - 1)
    starts = [[*source.sample(range(members), 2), source.randint(0, 99), source.randint(0, 5)] for _ in range(source.randint(1, 6))]
    commands = [random_command(source, members, f, 1 + place // 4) for place in range(source.randint(8, 50))]
    return {"version": 2, "members": members, "f": f, "behaviour": source.choice(["relay", "mix"]), "start": starts, "commands": commands}


def random_recovery(source):
    """A script in which several members are struck at once and recovered, and survivors then receive what those sent, again too."""
    members = source.randint(3, 5)
    f = source.randint(2, members - 1)
    starts = [[*source.sample(range(members), 2), source.randint(0, 99), source.randint(1, 5)] for _ in range(source.randint(2, 5))]
    before = [["deliver", *source.sample(range(members), 2)] for _ in range(source.randint(6, 24))]
    struck = source.sample(range(members), source.randint(2, f))
    after = [["deliver", to, sender] for to in range(members) if to not in struck for sender in struck] * 2
    source.shuffle(after)
    commands = [*before, ["strike", struck], ["recover"], *after]
    return {"version": 2, "members": members, "f": f, "behaviour": "mix", "start": starts, "commands": commands}


# ---- what a play says


def with_dumps(script):
    """The script with a dump behind each checkpoint, and a dump and a report at its end."""
    commands = []
    for command in script["commands"]:
        commands += [command, ["dump", []]] if command[0] == "checkpoint" else [command]
    return {**script, "commands": [*commands, ["dump", []], ["report"]]}


class Played:
    """What a play says: its events and who holds what at its end, who is down then, and what each member's checkpoints have."""

    def __init__(self, script):
        lines = run(["play", "--workers", "1"], json.dumps(with_dumps(script)).encode()).text.splitlines()
        self.down = [int(line.split()[1]) for line in lines if line.startswith("member ") and line.endswith(" down")]
        self.stored, held = {}, {}
        for before, line in zip(["", *lines], lines):
            if line.startswith("{"):
                self.dump = json.loads(line)
                held = {member: {tuple(pair[1:]) for pair in self.dump["held"] if pair[0] == member} for member in range(script["members"])}
                words = before.split()
                if words[:1] == ["checkpoint"] and words[1] != "refused":
                    self.stored.setdefault(int(words[1]), set()).update(held[int(words[1])])
        self.held = {member: own for member, own in held.items() if member not in self.down}
        self.events = [list(map(tuple, own)) for own in logs_of(script["members"], self.dump["events"])]


def log_of(text):
    given = json.loads(text)
    return Log(given["members"], given["f"], tuple(given["strike"]), tuple(map(tuple, given["events"])))


def differences(log, played):
    """What the log says otherwise than the play."""
    judge = CrashJudge(log)
    history = judge.history
    standing = [[history.entry(at)[:5] for at in own] for own in history.standing]
    held = {member: {receipt_of(entry) for entry in log.entries if entry[0] == "hold" and history.holds(receipt_of(entry), member, judge.last)}
            for member in played.held}
    stored = {}
    for entry in log.entries:
        if entry[0] == "store":
            stored.setdefault(entry[1], set()).add(receipt_of(entry))
    pairs = {"events": (standing, played.events), "holds": (held, played.held), "strike": (list(log.strike), played.down),
             "stores": (stored, {member: own for member, own in played.stored.items() if own})}
    return {word: pair for word, pair in pairs.items() if pair[0] != pair[1]}


# ---- planted changes


def planted(source, log):
    """The log with a hold left out, and with a restart that keeps one receipt more or fewer, if it has one."""
    holds, restarts = ([place for place, entry in enumerate(log.entries) if entry[0] == kind] for kind in ("hold", "restart"))
    if holds:
        place = source.choice(holds)
        yield log._replace(entries=(*log.entries[:place], *log.entries[place + 1:]))
    if restarts:
        place = source.choice(restarts)
        entry = log.entries[place]
        other = (*entry[:3], max(entry[3] + source.choice([1, -1]), 0), entry[4])
        yield log._replace(entries=(*log.entries[:place], other, *log.entries[place + 1:]))


def wanted_of(log):
    """What a check of the log says: its status, its text and its fault."""
    fault = fault_of(log)
    if fault:
        return 2, "", f"fault: {fault}\n"
    text = CrashJudge(log).text()
    return status_of(text), text, ""


def judge_planted(log):
    """Whether the check of the log with a change says what its moments say."""
    ran, wanted = run(["check"], log.text().encode()), wanted_of(log)
    yield ran == wanted, f"{log.text()}: {ran}, and not {wanted}"
    if not wanted[2]:
        judge = CrashJudge(log)
        if prod(count + 1 for count in judge.last) <= MOST_CUTS:
            found = list(judge.differences())
            yield not found, f"{log.text()}: {found}"


# ---- what is tried


def fits(text):
    """Whether a log may have so many restarts."""
    return sum(entry[0] == "restart" for entry in json.loads(text)["events"]) <= MOST_RESTARTS


def judge_record(case):
    """Whether the script's record is safe, and says what the play says, where one worker makes its runs; and what is said of it with a change."""
    script, workers, seed = case
    given = json.dumps(script).encode()
    ran = run(["record", "--workers", str(workers)], given)
    if ran.status == 2:
        yield ran.fault.startswith("fault: the play has ") and ran.fault.endswith(" restarts, and a log may have at most 8\n"), f"{script}: {ran}"
        return
    yield ran.status == 0 and ran.fault == "" and fits(ran.text), f"the record of {script} by {workers}: {ran}"
    checked = run(["check"], ran.text.encode())
    yield checked == (0, "safe\n", ""), f"the check of the record of {script} by {workers}: {checked}"
    log = log_of(ran.text)
    yield fault_of(log) is None and CrashJudge(log).text() == "safe\n", f"the record of {script} by {workers} is not safe: {log.text()}"
    if workers == 1:
        found = differences(log, Played(script))
        yield not found, f"the record of {script}: {found}"
    for other in planted(random.Random(seed), log):
        yield from judge_planted(other)


def try_records(tally):
    """The records of scripts made at random."""
    source = random.Random(14)
    cases = [(random_script(source), WORKERS[number % 2], number) for number in range(RECORDS)]
    cases += [(random_recovery(source), 1, number) for number in range(RECOVERIES)]
    note_each(tally, judge_record, cases)
