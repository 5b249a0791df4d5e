"""Runs that are cut into the logs of their members, in one file or several, and merged."""
import json
import os
import pathlib
import random
import tempfile
from concurrent.futures import ProcessPoolExecutor
from contextlib import contextmanager
from functools import partial
from typing import NamedTuple

from hostile_parts.damage import mutated
from program import EXAMPLES, run

RUNS = 500
DAMAGED_RUNS = 500
MUTATED_FILES = 200
# the most events of a run through whose orders a search goes
MOST_SEARCHED = 9
NOTHING = (4, "", "fault: memory\n")


def is_send(event):
    return event[0] == "send"


def channel_of(event):
    """The sender and the receiver of an event's message."""
    return (event[1], event[3]) if is_send(event) else (event[3], event[1])


def message_of(event):
    """The number of an event's message."""
    return event[2] if is_send(event) else event[4]


def random_run(source, most):
    """The number of members, and events that obey the rules."""
    members = source.randint(2, 5)
    counts, flights, events = {}, {}, []
    for _ in range(source.randint(2, most)):
        ready = [channel for channel, numbers in sorted(flights.items()) if numbers]
        if ready and source.random() < 0.5:
            sender, member = source.choice(ready)
            counts["receipt", member] = counts.get(("receipt", member), 0) + 1
            events.append(["receipt", member, counts["receipt", member], sender, flights[sender, member].pop(0)])
        else:
            sender, member = source.sample(range(members), 2)
            counts["send", sender] = counts.get(("send", sender), 0) + 1
            flights.setdefault((sender, member), []).append(counts["send", sender])
            events.append(["send", sender, counts["send", sender], member])
    return members, events


def dump(source, members, events):
    """The run as a dump, with pairs and a strike set at random."""
    receipts = [[event[3], event[4], event[1], event[2]] for event in events if not is_send(event)]
    held = [[member, *receipt] for receipt in receipts for member in range(members) if source.random() < 0.6]
    strike = [member for member in range(members) if source.random() < 0.2]
    return {"members": members, "f": source.randint(1, members - 1), "events": events, "held": held, "strike": strike}


def cut(source, whole, files):
    """The members' logs, one behind another in random order, in so many files; and what they hold and who is struck."""
    logs = [[event for event in whole["events"] if event[1] == member] for member in range(whole["members"])]
    source.shuffle(logs)
    parts = [{**whole, "events": [], "held": [], "strike": []} for _ in range(files)]
    first = 0
    for log in logs:
        # a member's log may be cut, and goes on in a later file then
        start, end = sorted((source.randint(0, len(log)), len(log)))
        places = sorted(source.choices(range(files), k=2)) if source.random() < 0.3 else [first, first]
        parts[places[0]]["events"] += log[:start]
        parts[places[1]]["events"] += log[start:end]
        first = source.randrange(files)
    for key in ("held", "strike"):
        for item in whole[key]:
            source.choice(parts)[key].append(item)
    return parts


@contextmanager
def files_of(texts):
    """Files with these texts, as the program is to name them."""
    with tempfile.TemporaryDirectory() as room:
        paths = [pathlib.Path(room, f"{number}.json") for number in range(len(texts))]
        for path, text in zip(paths, texts):
            path.write_bytes(text)
        yield [str(path) for path in paths]


def texts_of(parts):
    return [json.dumps(part).encode() for part in parts]


def may_come(event, before):
    """Whether an event obeys the rules behind these."""
    same_kind = [other for other in before if other[:2] == event[:2]]
    if event[2] != len(same_kind) + 1:
        return False
    if is_send(event):
        return True
    on_channel = [other for other in before if channel_of(other) == channel_of(event)]
    flight = [message_of(other) for other in on_channel if is_send(other)][sum(not is_send(other) for other in on_channel):]
    return flight[:1] == [message_of(event)]


def logs_of(members, events):
    return [[event for event in events if event[1] == member] for member in range(members)]


def is_order(members, events, ordered):
    return logs_of(members, events) == logs_of(members, ordered) and all(may_come(event, ordered[:place]) for place, event in enumerate(ordered))


def reached_in(members, events):
    """How many of each member's events stand in the parts of orders that go furthest, by a search through all parts of orders."""
    logs = logs_of(members, events)
    seen, waiting, reached = set(), [((0,) * members, [])], [0] * members
    while waiting:
        fronts, before = waiting.pop()
        if fronts in seen:
            continue
        seen.add(fronts)
        for member in range(members):
            reached[member] = max(reached[member], fronts[member])
            log = logs[member]
            if fronts[member] < len(log) and may_come(log[fronts[member]], before):
                waiting.append(((*fronts[:member], fronts[member] + 1, *fronts[member + 1:]), [*before, log[fronts[member]]]))
    return reached


def next_places(events, reached):
    """For each member of which not all events come, the place of the first that doesn't."""
    places, passed = {}, [0] * len(reached)
    for place, event in enumerate(events):
        if passed[event[1]] == reached[event[1]]:
            places.setdefault(event[1], place)
        passed[event[1]] += 1
    return places


def awaited(events, reached, places, event):
    """The place of the event for which this one waits, the next of its member; None where it waits for none."""
    run = [other for member, log in enumerate(logs_of(len(reached), events)) for other in log[:reached[member]]]
    is_due = event[2] == sum(other[:2] == event[:2] for other in run) + 1
    taken = [other for other in run if channel_of(other) == channel_of(event)]
    in_flight = sum(map(is_send, taken)) - sum(not is_send(other) for other in taken)
    if is_send(event) or not is_due or in_flight:
        return None
    send = ["send", event[3], event[4], event[1]]
    return places[event[3]] if send in events and send not in run else None


def bad_event(members, events):
    """The place of the event because of which the events have no order, by a search through all parts of orders; None where they have
    one. Of a circle it is the event to which the search comes first."""
    reached = reached_in(members, events)
    places = next_places(events, reached)
    come, place = [], min(places.values(), default=None)
    while place is not None and place not in come:
        come.append(place)
        place = awaited(events, reached, places, events[place])
    return come[-1] if come and place is None else place


def events_of(parts):
    return [event for part in parts for event in part["events"]]


class Cut(NamedTuple):
    """A run as one dump, and its parts."""
    number: int
    whole: dict
    parts: list


def notes_of(judge, case):
    """What the judge notes of a case: whether it is well, and what is told where it isn't."""
    return [(is_well, "" if is_well else told) for is_well, told in judge(case)]


def note_each(tally, judge, cases):
    """Judges the cases, in as many processes as there are cores, and notes of each what is well and what is told of it if it isn't."""
    with ProcessPoolExecutor(os.cpu_count()) as pool:
        for notes in pool.map(partial(notes_of, judge), cases, chunksize=8):
            for is_well, told in notes:
                tally.note(is_well, told)


def judge_merge(case):
    """Whether the parts are merged into an order, and an audit and a check say of it what they say of the run."""
    number, whole, parts = case
    with files_of(texts_of(parts)) as paths:
        ran = run(["merge", *paths])
        merged = json.loads(ran.text) if ran.status == 0 else {"events": [], "held": []}
        is_merged = is_order(whole["members"], events_of(parts), merged["events"]) and sorted(merged["held"]) == sorted(whole["held"])
        notes = [(ran.status == 0 and ran.fault == "" and is_merged, f"run {number}, {parts}: {ran}")]
        for word in ("audit", "check"):
            told, wanted = (run([word, *paths]) if len(paths) > 1 else run([word], ran.text.encode())), run([word], json.dumps(whole).encode())
            # the receipts come in the order of the events
            same = (told.status, sorted(told.text.splitlines()), told.fault) == (wanted.status, sorted(wanted.text.splitlines()), wanted.fault)
            notes.append((same, f"run {number}, {word} of {parts}: {told} and not {wanted}"))
    return notes


def try_logs(tally):
    """A run that is cut is merged into an order, and an audit and a check say of it what they say of the run."""
    source = random.Random(2)
    cases = []
    for number in range(RUNS):
        members, events = random_run(source, 40)
        whole = dump(source, members, events)
        cases.append(Cut(number, whole, cut(source, whole, source.choice([1, 1, 2, 3, members]))))
    note_each(tally, judge_merge, cases)


def damaged(source, events):
    """The events with one left out, two of a member swapped, or a receipt put before its member's first event: what it led to
    then comes before it."""
    events = list(events)
    change = source.choice(["leave out", "swap", "circle"])
    place = source.randrange(len(events))
    own = [other for other, event in enumerate(events) if event[1] == events[place][1]]
    if change == "leave out":
        del events[place]
    elif change == "swap":
        other = source.choice(own)
        events[place], events[other] = events[other], events[place]
    else:
        events.insert(own[0], events.pop(own[-1]))
    return events


def fault_of(parts, paths, place):
    """The line of the fault of the event at this place of all, by its file where there are several, and how its explanation begins."""
    file = 0
    while place >= len(parts[file]["events"]):
        place -= len(parts[file]["events"])
        file += 1
    event = json.dumps(parts[file]["events"][place], separators=(",", ":"))
    before, behind = (f' in "{paths[file]}"', f' of "{paths[file]}"') if len(paths) > 1 else ("", "")
    return f"fault: BadEvent {place}{before}\nevent {place}{behind} is {event}, and comes in no order: "


def judge_damaged(case):
    """Whether the merge has the fault that a search through all orders finds, or an order."""
    number, whole, parts = case
    members, given = whole["members"], events_of(parts)
    place = bad_event(members, given)
    with files_of(texts_of(parts)) as paths:
        ran = run(["merge", "--explain", *paths])
        if place is None:
            is_well = ran.status == 0 and is_order(members, given, json.loads(ran.text)["events"])
        else:
            is_well = ran[:2] == (2, "") and ran.fault.startswith(fault_of(parts, paths, place)) and ran.fault.count("\n") == 2
    return [(is_well, f"damaged run {number}, {parts}: {ran}")]


def try_damaged_logs(tally):
    """A damaged run has the fault that a search through all orders finds, or an order."""
    source = random.Random(3)
    cases = []
    for number in range(DAMAGED_RUNS):
        members, events = random_run(source, MOST_SEARCHED)
        whole = dump(source, members, damaged(source, events))
        whole["held"] = []
        cases.append(Cut(number, whole, cut(source, whole, source.choice([1, 2, 3]))))
    note_each(tally, judge_damaged, cases)
    refused = sum(bad_event(case.whole["members"], events_of(case.parts)) is not None for case in cases)
    tally.note(refused > DAMAGED_RUNS // 3, f"of the damaged runs {refused} alone have no order")


def try_mutated_logs(tally):
    """Files that are damaged as texts give a fault, which names one of them, or an answer."""
    source = random.Random(4)
    texts = [path.read_bytes() for path in sorted((EXAMPLES / "logs").glob("*.json"))]
    for number in range(MUTATED_FILES):
        given = [source.choice([text, text, mutated(source, texts)]) for text in texts[-3:]]
        words = [source.choice(["merge", "audit", "check", "draw"])]
        with files_of(given) as paths:
            ran = run([*words, *paths])
        is_fault = ran.status == 2 and ran.text == "" and ran.fault.startswith("fault: ") and ran.fault.count("\n") == 1
        found_unsafe = words == ["check"] and ran.status == 1 and ran.text.startswith("unsafe ") and ran.fault == ""
        tally.note(is_fault or found_unsafe or (ran.status == 0 and ran.fault == ""), f"files {number} for {words[0]}, {given!r:.600}: {ran}")


def is_told_of(told, wanted):
    """Whether what is told are lines of what is to be told, in their order: the fault's line, if there is one, and of an explanation what there
    is memory for."""
    lines, more = iter(wanted.splitlines()), told.splitlines()
    return all(line in lines for line in more) and (not wanted.startswith("fault: ") or more[:1] == wanted.splitlines()[:1])


def try_without_memory(refuser, words, files, tally):
    """Of so many files the whole is written, or their fault, or nothing where a request for memory is refused."""
    wanted, refused = run(words), 0
    for variable in ("REFUSE_AT", "REFUSE_FROM"):
        for number, ran, met in refuser.refuse_each(words, variable=variable):
            whole = ran[:2] == wanted[:2] and (ran.fault == wanted.fault or (met and "--explain" in words and is_told_of(ran.fault, wanted.fault)))
            tally.note(whole or (met and ran == NOTHING), f"{words}, {variable}={number}: {ran}")
            refused += ran == NOTHING
    # each file takes some requests
    tally.note(refused > files, f"{words}: memory ran out {refused} times alone")


def later_life_first():
    """Files for two lives of a member, the later one first, and for another member. To sort so many entries takes memory."""
    events = ([["restart", 1, 1, 1, 1], ["send", 1, 2, 0]], [["send", 0, 1, 1]], [["receipt", 1, 1, 0, 1], *(["send", 1, number, 0] for number in range(1, 30))])
    return [{"version": 2, "members": 2, "f": 1, "strike": [], "events": own} for own in events]


def try_logs_without_memory(refuser, _, tally):
    """Several files, and logs with restarts, where requests for memory are refused."""
    logs = [EXAMPLES / "logs" / f"member-{member}.json" for member in range(3)]
    late = [EXAMPLES / "wrong/member-0-send-last.json", *logs[1:]]
    moments = [EXAMPLES / "moments" / f"member-{member}.json" for member in range(3)]
    restarts = [EXAMPLES / "restarts" / f"{name}.json" for name in ("undone", "one-of-two")]
    with files_of(texts_of(later_life_first())) as lives:
        for words in (["merge", *logs], ["audit", *logs], ["check", "--explain", *logs], ["draw", *logs], ["merge", *late],
                      ["merge", "--explain", *late], ["merge", *moments], ["audit", "--explain", *moments], ["check", "--explain", *moments],
                      ["draw", *moments], ["check", *moments[1:]], ["check", *moments[1:], *logs[:1]], ["merge", *lives],
                      ["check", "--explain", *lives], *(["check", "--explain", log] for log in restarts)):
            try_without_memory(refuser, words, len(logs), tally)
