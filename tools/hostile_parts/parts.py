"""Pictures of parts of logs, beside the logs that they are of."""
import random

from hostile_parts.logs import logs_of, note_each, random_run
from hostile_parts.moments import log_of, some_records
from hostile_parts.pictures import Picture, numbers_of, places_of_pictures, sorts_of, title_due, title_of
from program import run

# how many entries are drawn before an entry, and how many behind it; beyond how many an unsafe log is drawn around its moment
REACH, MANY = 30, 200
PART_LOGS = 60
MOST_EVENTS = 150


def with_controls(source, entries):
    """The entries with control messages at random: some are taken, in any order, and some are not."""
    told, untaken, more = {}, [], []
    members = sorted({entry[1] for entry in entries})
    for entry in entries:
        if len(members) > 1 and source.random() < 0.15:
            ends = tuple(source.sample(members, 2))
            told[ends] = told.get(ends, 0) + 1
            more.append(["tell", *ends, told[ends]])
            untaken.append((*ends, told[ends]))
        if untaken and source.random() < 0.1:
            sender, receiver, number = untaken.pop(source.randrange(len(untaken)))
            more.append(["told", receiver, sender, number])
        more.append(entry)
    return tuple(more)


def ends_of(entries):
    """The place of the receipt of each message, and of the told of each control message."""
    ends = {}
    for place, entry in enumerate(entries):
        if entry[0] == "receipt":
            ends["send", entry[3], entry[4]] = place
        if entry[0] == "told":
            ends["tell", entry[2], entry[1], entry[3]] = place
    return ends


def arrows_due(entries, drawn):
    """Of each arrow that is drawn at one end at least: its classes, and the column and the member of each end that is drawn."""
    ends, due = ends_of(entries), []
    for sent, entry in enumerate(entries):
        if entry[0] not in ("send", "tell"):
            continue
        is_send = entry[0] == "send"
        sender, receiver = (entry[1], entry[3]) if is_send else (entry[1], entry[2])
        received = ends.get(("send", entry[1], entry[2]) if is_send else tuple(entry))
        start = (sent - drawn[0], sender) if sent in drawn else None
        end = (received - drawn[0], receiver) if received in drawn else None
        sorts = {"message"} if is_send else {"message", "control"}
        sorts |= {"in-flight"} if received is None else {"leaving"} if end is None else set()
        if start or end:
            due.append((sorted(sorts), start, end))
    return due


def arrows_of(picture, places):
    """The same of a picture: an end of a stub stands at no column's crossing with a member's line."""
    at = lambda x, y: (places.column_at(x), places.member_at(y)) if x in places.columns and y in places.lines else None
    return [(sorted(sorts_of(line)), at(*numbers_of(line, "x1", "y1")), at(*numbers_of(line, "x2", "y2"))) for line in picture.lines_of("message")]


def marks_are(picture, places, entries, drawn):
    """Whether the picture has the mark of each entry that is drawn, in its column."""
    marks = [mark for mark in picture.marks if sorts_of(mark) != ["moment"]]
    titles = [title_due(entries[place], ()).split(", held by")[0] if entries[place][0] not in ("tell", "told") else f"member {entries[place][1]} " for place in drawn]
    return len(marks) == len(drawn) and all(title_of(mark).startswith(title) for mark, title in zip(marks, titles))


def numbers_above(picture, places):
    """The numbers of the columns, from the left."""
    return [int(part.firstChild.data) for part in picture.texts if numbers_of(part, "y")[0] < places.lines[0] - 20 and sorts_of(part) == ["at"]]


def is_part(log, picture, places, drawn):
    end = drawn[-1]
    heading = f"{log.members} members, f {log.f}, entries {drawn[0]} to {end} of {len(log.entries)}: "
    return (picture.heading.startswith(heading) and marks_are(picture, places, log.entries, drawn) and numbers_above(picture, places) == list(drawn)
            and sorted(map(str, arrows_of(picture, places))) == sorted(map(str, arrows_due(log.entries, drawn))))


def judge_part(case):
    """Whether the picture around a place is of what stands there; a picture of a long unsafe log is the one around its moment."""
    log, place = case
    given, places, count = log.text().encode(), places_of_pictures(), len(log.entries)
    drawn = range(max(0, place - REACH), min(count, place + REACH + 1))
    ran = run(["draw", "--around", str(place)], given)
    notes = [((ran.status, ran.fault) == (0, "") and is_part(log, Picture(ran.text), places, drawn), f"the picture around {place} of {log.text()}: {ran}")]
    ran = run(["draw", "--around", str(count)], given)
    notes.append((ran == (2, "", f'error: --around names "{count}", and no entry stands there\n'), f"the picture around {count} of {log.text()}: {ran}"))
    checked, whole = run(["check"], given), run(["draw"], given)
    if checked.status == 1 and count > MANY:
        around = run(["draw", "--around", checked.text.split()[6]], given)
        notes.append((whole == around, f"the picture of {log.text()} is not that around its moment: {whole}"))
    else:
        notes.append((f" {count} entries: " in whole.text, f"the picture of {log.text()} is not the whole: {whole}"))
    return notes


def try_parts(tally):
    """Runs at random, of which most have more entries than a part, and some more than are drawn at once."""
    source, cases = random.Random(14), []
    places_of_pictures()
    for _ in range(PART_LOGS):
        members, events = random_run(source, MOST_EVENTS)
        own = tuple(tuple(map(tuple, log)) for log in logs_of(members, events))
        log = log_of(source, some_records(source, own, ["hold"] * 5 + ["store"]), source.randint(1, members - 1))
        log = log._replace(entries=with_controls(source, log.entries))
        cases.append((log, source.randrange(len(log.entries))))
    note_each(tally, judge_part, cases)
