"""Streams and files that can't be read or written."""
import os
import pathlib
import resource
import signal
import tempfile

from hostile_parts.inputs import dumps, faulty_inputs, scripts
from program import run, run_from_shell


def try_streams(examples, tally):
    """What can't be written ends with that fault and status 3, and so does what can't be read."""
    orders = [([*example.words(), *more], example.given) for example in examples for more in ([], ["--explain"])]
    orders += [([word], example.given) for example in dumps(examples) for word in ("check", "draw")]
    orders += [(["show"], example.given) for example in scripts(examples)]
    for words, given in orders:
        for redirection in ("> /dev/full", ">&-"):
            ran = run_from_shell(words, redirection, given)
            tally.note(fails_to_write(ran), f"{words} {redirection}: {ran}")
        ran = run_from_shell(words, "<&-", given)
        tally.note(ran == (3, "", "fault: read\n"), f"{words} with no standard input: {ran}")
        reads, writes = os.pipe()
        os.close(reads)
        ran = run(words, given, stdout=writes)
        os.close(writes)
        tally.note(fails_to_write(ran), f"{words} to a pipe that nobody reads: {ran}")


def fails_to_write(ran):
    return ran.status == 3 and "fault: write" in ran.fault.splitlines()


class Older:
    """A file that is there, in a folder of its own, and is named for the output."""

    def __init__(self, room):
        self.path = pathlib.Path(room) / "older"
        self.text = "older\n"
        self.path.write_text(self.text)

    def has(self, text):
        """Whether it has the text, and nothing stands beside it. It gets its older text back."""
        well = self.path.read_text() == text and list(self.path.parent.iterdir()) == [self.path]
        for path in self.path.parent.iterdir():
            path.unlink()
        self.path.write_text(self.text)
        return well


def try_older_files(examples, tally):
    """A fault of the input, in its shape or in a rule, and one of writing leave an older file."""
    with tempfile.TemporaryDirectory() as room:
        older = Older(room)
        for words, given, fault in faulty_inputs():
            ran = run([*words, "-o", older.path], given)
            well = ran == (2, "", f"fault: {fault}\n") and older.has(older.text)
            tally.note(well, f"{given.decode():.200} with an older file: {ran}")
        for example in examples:
            for words, wanted in example.tasks():
                for room_for in sorted({0, 1, len(wanted.text) // 2, max(0, len(wanted.text) - 1)}):
                    ran = write_little(room_for, [*words, "-o", older.path], example.given)
                    line = f'fault: write "{older.path}": File too large (os error 27)\n'
                    well = ran == (3, "", line) and older.has(older.text)
                    tally.note(well, f"{example.name}, {words}, room for {room_for} bytes: {ran}")
                ran = run([*words, "-o", older.path], example.given)
                well = ran == (wanted.status, "", "") and older.has(wanted.text)
                tally.note(well, f"{example.name}, {words}, to an older file: {ran}")


def write_little(room_for, words, given):
    """What the program does where no file may get more bytes than this."""
    def limit():
        signal.signal(signal.SIGXFSZ, signal.SIG_IGN)
        resource.setrlimit(resource.RLIMIT_FSIZE, (room_for, room_for))

    return run(words, given, preexec_fn=limit)
