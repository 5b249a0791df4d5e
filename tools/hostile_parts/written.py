"""Logs as processes write them, a file of lines for each life: what a check of them says, by the candidates of crashes.py."""
import json
from pathlib import Path
from typing import NamedTuple

from hostile_parts.crashes import CrashJudge, History, fault_of
from hostile_parts.moments import Log, line_in_file
from program import Ran


class Written(NamedTuple):
    """The group, each member's entries, and where each of them stands."""
    members: int
    f: int
    logs: tuple
    spots: tuple


def read(folder, names):
    """The files, by their names: a member's entries follow in this order."""
    for place, name in enumerate(names):
        text = Path(folder, name).read_text()
        lines = [json.loads(line) for line in text[:text.rfind("\n") + 1].splitlines()]
        if place == 0:
            head = lines[0]
            logs, spots = ([[] for _ in range(head["members"])] for _ in range(2))
        for number, entry in enumerate(entry for line in lines[1:] for entry in line):
            logs[entry[1]].append(tuple(entry))
            spots[entry[1]].append(f'{number} in "{name}"')
    return Written(head["members"], head["f"], tuple(map(tuple, logs)), tuple(spots))


def listed(logs):
    """The positions of the entries in an order in which what happened before an entry comes before it; those that have none are left."""
    history, counts, order, come = History(logs), [0] * len(logs), [], set()
    may_come = lambda at: come.issuperset(history.leading(at)) and (history.entry(at)[0] != "receipt" or history.send_of(history.entry(at)))
    has_moved = True
    while has_moved:
        has_moved = False
        for member, own in enumerate(logs):
            while counts[member] < len(own) and may_come((member, counts[member])):
                order.append((member, counts[member]))
                come.add(order[-1])
                counts[member] += 1
                has_moved = True
    return order


def check(folder, names):
    """What a check of the files says; of a fault which it is, and not where."""
    written = read(folder, names)
    order = listed(written.logs)
    log = Log(written.members, written.f, (), tuple(written.logs[member][number] for member, number in order))
    if len(order) < sum(map(len, written.logs)) or fault_of(log):
        return Ran(2, "", "fault: BadEvent")
    judge = CrashJudge(log)
    # each from those before it
    for at in order:
        judge.history.past(at)
        judge.history.depends_on(at)
    text = judge.text()
    names = [written.spots[member][number] for member, number in order]
    return Ran(0 if text == "safe\n" else 1, "".join(line_in_file(line, names) for line in text.splitlines(True)), "")
