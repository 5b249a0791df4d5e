"""Pictures of histories, compared with what plays print and explain."""
from hostile_parts.explanations import tells_commands
from hostile_parts.inputs import scripts
from hostile_parts.pictures import Picture, numbers_of, places_of_pictures, sorts_of
from program import run

# the marks of the histories of two scripts, by class and title, where their members are down and which way their arrows go, both
# from a column to a column, and the messages in flight
SHOWN = {
    "lost-receipts": ("3 members, f 1, mix: 4 receipts made, 1 undone", [
        ("send", "member 0 sends its message 1 to 2"),
        ("send", "member 1 sends its message 1 to 2"),
        ("receipt", "member 2 receipt 1: message 1 of 1, state 8"),
        ("send", "member 2 sends its message 1 to 0"),
        ("receipt undone", "member 2 receipt 2: message 1 of 0, state 253, undone"),
        ("receipt", "member 0 receipt 1: message 1 of 2, state 9"),
        ("strike", "member 2 is struck"),
        ("recovery", "member 2 is recovered, 1 receipt replayed"),
        ("receipt", "member 2 receipt 2: message 1 of 0, state 253"),
    ], [(2, 6, 7)], [("message", 1, 2), ("message undone", 0, 4), ("message", 3, 5), ("message again", 7, 8)], []),
    "struck-in-turn": ("3 members, f 2, relay: 4 receipts made, 2 undone", [
        ("send", "member 0 sends its message 1 to 1"),
        ("receipt undone", "member 1 receipt 1: message 1 of 0, state 5, undone"),
        ("send undone", "member 1 sends its message 1 to 2, undone"),
        ("receipt undone", "member 2 receipt 1: message 1 of 1, state 5, undone"),
        ("send undone", "member 2 sends its message 1 to 0, undone"),
        ("strike", "member 1 is struck"),
        ("strike", "member 2 is struck"),
        ("recovery", "member 1 is recovered, 0 receipts replayed"),
        ("recovery", "member 2 is recovered, 0 receipts replayed"),
        ("receipt", "member 1 receipt 1: message 1 of 0, state 5"),
        ("send", "member 1 sends its message 1 to 2"),
        ("receipt", "member 2 receipt 1: message 1 of 1, state 5"),
        ("send", "member 2 sends its message 1 to 0"),
    ], [(1, 5, 7), (2, 6, 7)], [("message undone", 0, 1), ("message undone", 2, 3), ("message again", 7, 8), ("message", 9, 10)],
        [(2, "to 2"), (4, "to 0"), (11, "to 0")]),
}


def down_parts(picture, places):
    """The parts of the members' lines where they are down: the member, and the columns from which and to which."""
    parts = [numbers_of(line, "y1", "x1", "x2") for line in picture.lines_of("line", "down")]
    return [(places.member_at(y), places.column_at(start), places.column_at(end)) for y, start, end in parts]


def arrows_of(picture, places):
    """The arrows of messages: the class, and the columns from which and to which."""
    return [(arrow.getAttribute("class"), *map(places.column_at, numbers_of(arrow, "x1", "x2"))) for arrow in picture.arrows()]


def in_flight(picture, places):
    """The stubs of messages in flight: the column of the send, and what is written beside."""
    words = [text.firstChild.data for text in picture.texts if text.firstChild.data.startswith("to ")]
    return [(places.column_at(*numbers_of(stub, "x1")), said) for stub, said in zip(picture.stubs(), words)]


def told_marks(example):
    """What the printed lines tell of receipts, strikes, recoveries and checkpoints: the class, and words of the title."""
    marks, down = [], set()
    for line in example.text.splitlines():
        words = line.split()
        if words[1:2] == ["refused"]:
            continue
        if words[0] == "deliver":
            marks.append(("receipt", f"member {words[1]} receipt {words[4]}: ", f" of {words[2]}, state {words[8]}"))
        elif words[0] == "strike":
            struck = {int(member) for member in words[1].split(",") if member != "none"}
            down |= struck
            marks += [("strike", f"member {member} is struck", "") for member in sorted(struck)]
        elif words[0] == "recover":
            marks += [("recovery", f"member {member} is recovered, ", "") for member in sorted(down)]
            down = set()
        elif words[0] == "checkpoint":
            marks.append(("checkpoint", f"checkpoint of member {words[1]}", ""))
    return marks


def recoveries_told(example, word):
    """The sum of what the recoveries of a script print behind a word."""
    lines = [line.split() for line in example.text.splitlines() if line.startswith("recover ") and "refused" not in line]
    return sum(int(words[words.index(word) + 1]) for words in lines)


def tells_history(example, marks):
    """Whether the marks of a history are those that the printed lines of its script tell of, which has no run."""
    told, shown = told_marks(example), [mark for mark in marks if not mark[0].startswith("send")]
    same = len(told) == len(shown) and all(
        mark[0].split()[0] == line[0] and mark[1].startswith(line[1]) and mark[1].removesuffix(", undone").endswith(line[2])
        for mark, line in zip(shown, told))
    replayed = [int(title.split()[4]) for sort, title in marks if sort == "recovery"]
    undone = [sort for sort, _ in marks].count("receipt undone")
    return same and sum(replayed) == recoveries_told(example, "replayed") and undone == recoveries_told(example, "undone")


def heads_history(picture):
    """Whether the heading counts the receipts that are marked, and there is an arrow for each mark and a stub for each undone send and
    each message in flight."""
    marks = picture.titled()
    sorts = [sort for sort, _ in marks]
    marked, crossed = sorts.count("receipt") + sorts.count("receipt undone"), sorts.count("receipt undone")
    arrows = picture.arrows()
    dotted = [line for line in arrows if "undone" in sorts_of(line)]
    well = len(arrows) == marked and len(dotted) == crossed and len(picture.stubs()) == sorts.count("send") + sorts.count("send undone") - sorts.count("receipt")
    return heading_counts(picture, marked, crossed) and well


def heading_counts(picture, made, undone):
    return picture.heading.endswith(f": {made} receipt{'' if made == 1 else 's'} made, {undone} undone")


def totals_told(example, told):
    """How many receipts were made and undone, as the printed lines tell of deliveries and recoveries, and the explanations of runs."""
    runs = [line.split(": receipts made ")[1].split(";")[0].split(", undone ") for line in told.splitlines() if ": receipts made " in line]
    delivered = [line for line in example.text.splitlines() if line.startswith("deliver ") and "refused" not in line]
    return len(delivered) + sum(int(made) for made, _ in runs), recoveries_told(example, "undone") + sum(int(undone) for _, undone in runs)


def is_history_of(example, ran, is_explained):
    """Whether the picture is that of the script's history, and each command is explained, or nothing."""
    picture = Picture(ran.text)
    well = ran.status == 0 and heads_history(picture) and (example.has_run or tells_history(example, picture.titled()))
    if not is_explained:
        return well and ran.fault == ""
    return well and tells_commands(example, ran.fault) and heading_counts(picture, *totals_told(example, ran.fault))


def try_histories(examples, tally):
    places = places_of_pictures()
    for example in scripts(examples):
        for workers in example.workers(range(1, 9)):
            words = ["show"] if workers is None else ["show", "--workers", str(workers)]
            for more in ([], ["--explain"]):
                ran = run(words + more, example.given)
                try:
                    well, why = is_history_of(example, ran, more != []), ""
                except Exception as error:
                    well, why = False, error
                tally.note(well, f"the history of {example.name}, {words + more}: {why}, {ran}")
        if example.name in SHOWN:
            picture = Picture(run(["show"], example.given).text)
            shown = picture.heading, picture.titled(), down_parts(picture, places), arrows_of(picture, places), in_flight(picture, places)
            tally.note(shown == SHOWN[example.name], f"the history of {example.name} is not what was written out: {shown}")
