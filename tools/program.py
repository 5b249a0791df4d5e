"""The program that ./build or the gate has made, and what it does with an input."""
import os
import pathlib
import pty
import subprocess
from typing import NamedTuple

TOP = pathlib.Path(__file__).resolve().parent.parent
EXAMPLES = TOP / "examples"
CRATE = TOP / "crates/fblrun"
PROGRAM = CRATE / "out/fblrun"
SECONDS = 60


class Ran(NamedTuple):
    """What a program did: its exit status, and what it wrote on its two outputs."""
    status: int
    text: str
    fault: str

    def __str__(self):
        return f"status {self.status}, standard output {self.text!r:.300}, standard error {self.fault!r:.200}"


def run(words, given=b"", program=PROGRAM, **more):
    """Runs the program with these words on this input. An output for which another stream is given is answered as empty."""
    ran = subprocess.run([program, *words], input=given, timeout=SECONDS,
                         **{"stdout": subprocess.PIPE, "stderr": subprocess.PIPE, **more})
    return Ran(ran.returncode, *((output or b"").decode(errors="replace") for output in (ran.stdout, ran.stderr)))


def told_on_terminal(words, given, program=PROGRAM, **more):
    """What the program writes on standard error where that is a terminal."""
    reads, writes = pty.openpty()
    run(words, given, program, stderr=writes, **more)
    # the end of what was written stands for its end, since a terminal has none
    os.write(writes, b"\0")
    os.close(writes)
    told = b""
    while not told.endswith(b"\0"):
        told += os.read(reads, 4096)
    os.close(reads)
    return told[:-1].decode().replace("\r\n", "\n")


def run_from_shell(words, redirection, given=b""):
    """Runs the program from a shell, which says where its standard input comes from and its outputs go to."""
    return run(["-c", f'exec "$0" "$@" {redirection}', PROGRAM, *words], given, "/bin/sh")
