"""What `--explain` tells, compared with what is printed and with the dump."""
import subprocess

from hostile_parts.inputs import dumps
from hostile_parts.pictures import Picture
from program import run


def tells_commands(example, told):
    """Whether each command of a script is told, by its place, in order; of a dump nothing is."""
    places = [line.split(":")[0] for line in told.splitlines() if line.startswith("command ") and line.split(":")[0][8:].isdigit()]
    return places == [f"command {place}" for place in range(len(example.commands))]


def tells_in_turn(example, text):
    """Whether each command is told of before its lines are written, and with its account once they are, if that says more."""
    fronts = example.fronts()
    for place, (before, after) in enumerate(zip(fronts, fronts[1:])):
        begun, _, text = text.partition("\n")
        lines = after[len(before):]
        if not begun.startswith(f"command {place}: ") or not text.startswith(lines):
            return False
        text = text[len(lines):]
        # of a run each strike has a line of its own
        while text.startswith(f"command {place}, "):
            text = text.partition("\n")[2]
    return text == ""


def place_of(events, words):
    """The place of the event that these words name, as `send 1 of member 2`."""
    kind, number, _, _, member = words.split()
    return next(place for place, event in enumerate(events) if event[:3] == [kind, int(member), int(number)])


def is_step(events, before, after):
    """Whether one event leads to the other: a later one of its member, or the receipt of what it sends."""
    first, second = events[before], events[after]
    takes = first[0] == "send" and second[0] == "receipt" and first[1:] == [second[3], second[4], second[1]]
    return before < after and (first[1] == second[1] or takes)


def set_words(members):
    """A set as the program prints it."""
    return ",".join(map(str, sorted(members))) or "none"


def reasons_told(dump, told):
    """Of each receipt that is told of: its determinant, the strike that loses it, and the orphans. None where a holder is wrong,
    or a path is none from the receipt to the orphan."""
    events, reasons = dump["events"], []
    for line in told.splitlines():
        words = line.split()
        if words[0] == "determinant":
            numbers = [int(word) for word in words[1:5]]
            holders = {pair[0] for pair in dump["held"] if pair[1:] == numbers}
            begins = f"{' '.join(words[:5])} is held by " + (f"[{set_words(holders)}], and a strike of [" if holders else "nobody")
            if not line.startswith(begins):
                return None
            strike = line[len(begins):].partition("]")[0] if holders else set_words(dump["strike"])
            reasons.append((" ".join(words[1:5]), strike, set()))
        else:
            orphan, path = int(words[1]), [place_of(events, part) for part in line.partition(": ")[2].split(", ")]
            begins = ["receipt", numbers[2], numbers[3], numbers[0], numbers[1]]
            steps = all(is_step(events, before, after) for before, after in zip(path, path[1:]))
            if events[path[0]] != begins or not steps or events[path[-1]][1] != orphan:
                return None
            reasons[-1][2].add(orphan)
    return reasons


def tells_why(example, told):
    """Whether an audit tells of each lost receipt who holds it, and of each orphan a path from one; of a script nothing is told."""
    if example.is_script:
        return not any(line.startswith(("determinant ", "orphan ")) for line in told.splitlines())
    reasons, lines = reasons_told(example.value, told), example.text.splitlines()
    if reasons is None or any(strike != set_words(example.value["strike"]) for _, strike, _ in reasons):
        return False
    orphans = set().union(*(orphans for _, _, orphans in reasons))
    return [f"determinant {receipt}" for receipt, _, _ in reasons] == lines[1:-1] and lines[-1] == f"orphans {set_words(orphans)}"


def tells_why_unsafe(example, told):
    """Whether a check tells of each unsafe receipt who holds it, and of each orphan a path from it."""
    reasons = reasons_told(example.value, told)
    if reasons is None:
        return False
    said = [f"unsafe {receipt} strike {strike} orphans {set_words(orphans)}\n" for receipt, strike, orphans in reasons]
    return ("".join(said) or "safe\n") == example.check_text


def try_checks(examples, tally):
    """Each dump is checked with explanations."""
    for example in dumps(examples):
        ran = run(["check", "--explain"], example.given)
        well = (ran.status, ran.text) == (example.check_status(), example.check_text)
        tally.note(well and tells_why_unsafe(example, ran.fault), f"{example.name} checked: {ran}")


def try_explanations(examples, tally):
    """With `--explain` the standard output and the status are the same."""
    for example in examples:
        words = [*example.words(), "--explain"]
        ran = run(words, example.given)
        well = (ran.status, ran.text) == (0, example.text) and tells_commands(example, ran.fault) and tells_why(example, ran.fault)
        tally.note(well, f"{example.name} explained: {ran}")
        if example.is_script:
            ran = run(words, example.given, stderr=subprocess.STDOUT)
            well = ran.status == 0 and tells_in_turn(example, ran.text)
            tally.note(well, f"{example.name} explained where its lines are written: {ran}")


def script_of_help(word):
    """What the program does by a word with the script that its help gives."""
    told = run([word, "--help"]).text
    return run([word], told.partition("echo '")[2].partition("'")[0].encode())


def try_help(tally):
    """The scripts that the help of `play` and of `show` give can be pasted, and play."""
    ran = script_of_help("show")
    sorts = [sort for sort, _ in Picture(ran.text).titled()]
    well = ran.status == 0 and sorts == ["send", "receipt", "send", "receipt", "strike", "recovery"]
    tally.note(well, f"the script of the help of show: {ran}")
    ran = script_of_help("play")
    lines = ran.text.splitlines()
    well = ran.status == 0 and lines[2:4] == ["strike 1 lost 0", "recover replayed 1 resent 0 undone 0"] and len(lines) == 11
    tally.note(well, f"the script of the help: {ran}")
