"""Pictures read as XML, and those of dumps and of logs compared with the dumps and the logs."""
import json
from functools import lru_cache
from typing import NamedTuple
from xml.dom import minidom

from hostile_parts.inputs import dumps
from program import run


def sorts_of(part):
    return part.getAttribute("class").split()


def numbers_of(part, *names):
    return [int(part.getAttribute(name)) for name in names]


def title_of(mark):
    return mark.getElementsByTagName("title")[0].firstChild.data


def point_of(mark):
    """Where a mark stands, from the left and from the top."""
    if mark.tagName == "circle":
        return tuple(numbers_of(mark, "cx", "cy"))
    x, y = mark.getAttribute("d")[1:].split("m")[0].split()
    return int(x), int(y)


class Picture:
    """A picture's heading, its marks (the parts with a class and a title of their own), its lines and its texts."""

    def __init__(self, text):
        picture = minidom.parseString(text)
        titles = picture.getElementsByTagName("title")
        self.heading = titles[0].firstChild.data
        self.marks = [title.parentNode for title in titles if title.parentNode.tagName != "svg" and title.parentNode.getAttribute("class")]
        self.lines = picture.getElementsByTagName("line")
        self.texts = picture.getElementsByTagName("text")

    def lines_of(self, *sorts):
        """The lines of which these are the first classes."""
        return [line for line in self.lines if sorts_of(line)[:len(sorts)] == list(sorts)]

    def stubs(self):
        """The messages in flight."""
        return self.lines_of("message", "in-flight")

    def arrows(self):
        """The messages that are received."""
        stubs = self.stubs()
        return [line for line in self.lines_of("message") if line not in stubs]

    def titled(self):
        """The marks, each by its class and its title."""
        return [(mark.getAttribute("class"), title_of(mark)) for mark in self.marks]


def dump_of(members, events):
    return json.dumps({"members": members, "f": 1, "events": events, "held": [], "strike": []}).encode()


def sends_alone(count):
    """A dump of so many sends."""
    return dump_of(2, [["send", place % 2, place // 2 + 1, (place + 1) % 2] for place in range(count)])


class Places:
    """Where columns and the members' lines stand in each picture, read off pictures of sends alone."""

    def __init__(self):
        each = dump_of(16, [["send", member, 1, (member + 1) % 16] for member in range(16)])
        self.columns, self.lines = (
            [point_of(mark)[side] for mark in Picture(run(["draw"], given).text).marks] for side, given in ((0, sends_alone(8192)), (1, each)))

    def are_in_order(self):
        return all(places == sorted(set(places)) for places in (self.columns, self.lines))

    def point(self, column, member):
        return self.columns[column], self.lines[member]

    def column_at(self, x):
        return self.columns.index(x)

    def member_at(self, y):
        return self.lines.index(y)

    def rooms(self, columns):
        """The columns before which names stand again, in a picture of so many: there is more room than before others, and there are more
        than 8 columns behind."""
        steps = [end - start for start, end in zip(self.columns, self.columns[1:])]
        least = min(steps)
        return [column for column, step in enumerate(steps[:columns], 1) if step > least and columns - column > 8]

    def have_names(self, names, members, columns):
        """Whether these names, each with its point, are those of the members in each room, at the same place in each: above their lines."""
        rooms = self.rooms(columns)
        wanted = [(f"member {member}", column, member) for member in range(members) for column in rooms]
        if [name for name, _, _ in names] != [name for name, _, _ in wanted]:
            return False
        offsets = {(self.columns[column] - x, self.lines[member] - y) for (_, x, y), (_, column, member) in zip(names, wanted)}
        widths = [self.columns[column] - self.columns[column - 1] for column in rooms]
        return len(offsets) <= 1 and all(0 < before < min(widths) and 0 < above < min(self.lines) for before, above in offsets)


@lru_cache(maxsize=None)
def places_of_pictures():
    return Places()


def title_due(event, holders):
    """What the mark of an event tells: of a receipt who holds it, where that is judged."""
    if event[0] == "send":
        return f"member {event[1]} sends its message {event[2]} to {event[3]}"
    if event[0] == "receipt":
        held_by = "to come" if holders is None else "held by " + (",".join(map(str, sorted(holders))) or "none")
        return f"member {event[1]} receipt {event[2]}: message {event[4]} of {event[3]}, {held_by}"
    return f"member {event[1]} {event[0]}s receipt {event[5]} of member {event[4]}"


def mark_is(places, mark, column, event, holders):
    """Whether a mark tells of the event, and stands in its column on its member's line."""
    return title_of(mark) == title_due(event, holders) and sorts_of(mark)[0] == event[0] and stands_at(mark, places.point(column, event[1]))


def stands_at(mark, point):
    """Whether a mark stands at the point: a hold begins on its left, and a store has it within."""
    if sorts_of(mark)[0] == "store":
        return all(0 < there - corner < 10 for there, corner in zip(point, numbers_of(mark, "x", "y")))
    if sorts_of(mark)[0] == "hold":
        x, y = mark.getAttribute("d")[1:].split("a")[0].split()
        return 0 < point[0] - int(x) < 10 and int(y) == point[1]
    return point_of(mark) == point


def kind_of(f, strike, holders, is_stored=False):
    """How safe a receipt with these holders is, where these members are struck."""
    if is_stored:
        return "stable"
    if holders <= strike:
        return "lost"
    return "stable" if len(holders) > f else "recorded"


def names_of(picture):
    """The members' names that stand again, each with its point."""
    return [(part.firstChild.data, *numbers_of(part, "x", "y")) for part in picture.texts if sorts_of(part) == ["name"]]


class Found(NamedTuple):
    """What a check finds first: a determinant, the members whose loss loses it, and how many orphans these leave."""
    determinant: list
    strike: set
    orphans: int


def members_in(words):
    return set() if words == "none" else set(map(int, words.split(",")))


def found_first(check_text):
    """What the first line of a check says, if it isn't safe."""
    words = check_text.splitlines()[0].split()
    return None if words == ["safe"] else Found([int(word) for word in words[1:5]], members_in(words[6]), len(members_in(words[8])))


def is_picture_of(dump, picture, places, orphans, found=None):
    """Whether the marks, the arrows, the names and the orphans' lines of the picture are those of the dump, or of what a check of it
    found."""
    events, marks = dump["events"], picture.marks
    strike, orphans = (found.strike, found.orphans) if found else (set(dump["strike"]), orphans)
    well = len(marks) == len(events)
    for column, (mark, event) in enumerate(zip(marks, events)):
        holders = {pair[0] for pair in dump["held"] if event[0] == "receipt" and pair[1:] == [event[3], event[4], event[1], event[2]]}
        well = well and mark_is(places, mark, column, event, holders)
        well = well and (event[0] == "send" or sorts_of(mark) == ["receipt", kind_of(dump["f"], strike, holders)])
    sends = [event for event in events if event[0] == "send"]
    well = well and len(picture.lines_of("message")) == len(sends)
    well = well and len(picture.stubs()) == 2 * len(sends) - len(events)
    well = well and len(picture.lines_of("line", "down")) == len(strike)
    well = well and len(picture.lines_of("line", "orphan")) == orphans
    # a path within one member's line has no arrow: it begins at a lost receipt of a member that is not struck
    lost_here = any(sorts_of(mark)[-1] == "lost" and event[1] not in strike for mark, event in zip(marks, events))
    has_path = picture.lines_of("path") != []
    well = well and has_path <= (orphans > 0) and (lost_here or has_path == (orphans > 0))
    return well and places.have_names(names_of(picture), dump["members"], len(events))


class Moment(NamedTuple):
    """What a log has at a moment: who is struck, for each entry whether it has come, of each receipt that has, by its place, who holds it
    and whether it is stored; how many members are orphans, and what the heading says of it all."""
    strike: set
    come: list
    holders: dict
    stored: set
    orphans: int
    said: str


def is_grey(mark):
    return mark.parentNode.tagName == "g" and sorts_of(mark.parentNode) == ["to-come"]


def is_judged(picture, places, f, entries, moment):
    """Whether each mark of a log's picture is that of its entry at the moment, and grey if the entry has not come."""
    well = len(picture.marks) == len(entries)
    for column, (mark, entry) in enumerate(zip(picture.marks, entries)):
        come = moment.come[column]
        holders = moment.holders[column] if come and entry[0] == "receipt" else None
        well = well and mark_is(places, mark, column, entry, holders) and is_grey(mark) != come
        if entry[0] == "receipt":
            kind = kind_of(f, moment.strike, holders, column in moment.stored) if come else "to-come"
            well = well and sorts_of(mark) == ["receipt", kind]
    return well


def moment_lines(picture, places):
    """For each member, how far from the left the line of the moment crosses its line: a part begins above the member's line that is next."""
    crossings = {}
    for mark in picture.marks:
        if sorts_of(mark) == ["moment"]:
            x, top = mark.getAttribute("d")[1:].split("V")[0].split()
            crossings[next(member for member, y in enumerate(places.lines) if y > int(top))] = int(x)
    return crossings


def is_picture_of_log(picture, places, f, entries, moment):
    """Whether the picture is that of the log's entries at the moment: its line has on its left what has come, the rest is grey, and no
    orphan's line goes beyond it."""
    crossings = moment_lines(picture, places)
    picture.marks = [mark for mark in picture.marks if sorts_of(mark) != ["moment"]]
    well = is_judged(picture, places, f, entries, moment) and picture.heading.endswith(f" {len(entries)} entries: {moment.said}")
    for column, entry in enumerate(entries):
        well = well and moment.come[column] == (places.columns[column] < crossings.get(entry[1], places.columns[-1]))
    orphans = picture.lines_of("line", "orphan")
    ends = [crossings[places.member_at(*numbers_of(line, "y1"))] for line in orphans]
    return well and len(orphans) == moment.orphans and [numbers_of(line, "x2")[0] for line in orphans] == ends


def try_picture(tally, places, name, given, orphans, found=None):
    """The picture is XML, with what the dump has in it."""
    ran = run(["draw"], given)
    try:
        well = is_picture_of(json.loads(given), Picture(ran.text), places, orphans, found)
    except Exception as error:
        tally.note(False, f"the picture of {name}: {error}: {ran}")
        return
    tally.note((ran.status, ran.fault) == (0, "") and well, f"the picture of {name}: {ran}")


def try_pictures(examples, tally):
    places = places_of_pictures()
    tally.note(places.are_in_order(), f"columns stand at {places.columns}, lines at {places.lines}")
    for example in dumps(examples):
        orphans = len(members_in(example.text.splitlines()[-1].split()[1]))
        # where its own strike set leaves nobody as an orphan, what a check finds is drawn
        try_picture(tally, places, example.name, example.given, orphans, None if orphans else found_first(example.check_text))
    for count in (0, 24, 25, 48, 49, 100, 8192):
        try_picture(tally, places, f"{count} sends", sends_alone(count), 0)
