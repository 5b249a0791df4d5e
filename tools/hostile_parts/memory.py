"""Requests for memory that are refused, each in turn."""
import os
import shutil
import subprocess
import tempfile
from itertools import count

from hostile_parts.explanations import tells_why_unsafe
from hostile_parts.inputs import dumps, faulty_inputs, scripts
from hostile_parts.outputs import Older
from program import PROGRAM, TOP, run

# the tests that hold where any one request for memory is refused, each with what it tells at some time
TESTS_WITHOUT_MEMORY = (
    ("audits::without_memory", "ok"),
    ("configurations::without_memory", "ok"),
    ("group::plays::mixes_without_memory", "ok"),
    ("group::plays::relays_without_memory", "ok"),
    ("records::without_memory", "ok"),
    ("tables::without_memory", "ok"),
    ("workers::claiming::without_memory", "ok"),
    ("workers::memory::a_drain_goes_on_after_want_of_memory", "ok"),
    ("workers::memory::a_worker_without_a_thread_changes_nothing", "NoThread"),
    ("workers::memory::turns_are_recorded_where_memory_runs_out", "ok"),
)
# how often the last requests of a run are refused again, until each command was the one that met it
RETRIES = 1000
# what is written where memory runs out before anything else is
NOTHING = (4, "", "fault: memory\n")


class Refuser:
    """Runs programs with requests for memory refused, by the library in tools/refuse_memory.c."""

    def __enter__(self):
        self.room = tempfile.TemporaryDirectory()
        self.library = f"{self.room.name}/refuse_memory.so"
        compiler = shutil.which("cc") or shutil.which("gcc") or shutil.which("clang")
        subprocess.run([compiler, "-O2", "-shared", "-fPIC", "-o", self.library, TOP / "tools/refuse_memory.c"], check=True)
        return self

    def __exit__(self, *_):
        self.room.cleanup()

    def refuse(self, number, words, given=b"", variable="REFUSE_AT", program=PROGRAM):
        """What the program does where this request is refused, or, by `REFUSE_FROM`, each from this one on, and whether it met that."""
        reads, writes = os.pipe()
        environment = {**os.environ, "LD_PRELOAD": self.library, variable: str(number), "REFUSED_FD": str(writes)}
        try:
            ran = run(words, given, program, env=environment, pass_fds=(writes,))
        finally:
            os.close(writes)
        met = os.read(reads, 1) == b"r"
        os.close(reads)
        return ran, met

    def refuse_each(self, words, given=b"", variable="REFUSE_AT", program=PROGRAM):
        """Refuses each request in turn, until one is not made. Of each: its number, what the program did, and whether it met that."""
        for number in count(1):
            ran, met = self.refuse(number, words, given, variable, program)
            yield number, ran, met
            if not met:
                return


def front_written(example, ran, met, what, tally):
    """Notes whether the example's text is whole, or its front where memory ran out. The text then."""
    whole = ran.status == 0 and example.is_whole(ran.text) and ran.fault == ""
    front = ran.status == 4 and example.is_front(ran.text) and ran.fault == "fault: memory\n"
    tally.note((whole or front) if met else (ran.status == 0 and ran.text == example.text), f"{example.name}, {what}: {ran}")
    return ran.text if ran.status == 4 else None


def try_refused_memory(refuser, examples, tally):
    for example in examples:
        for workers in example.workers([1, 2, 8]):
            for variable in ("REFUSE_AT", "REFUSE_FROM"):
                what = f"workers {workers}, {variable}"
                fronts = set()
                for number, ran, met in refuser.refuse_each(example.words(workers), example.given, variable):
                    fronts.add(front_written(example, ran, met, f"{what}={number}", tally))
                # how often the workers of a run ask goes by how they take turns: requests near the last one are tried again
                for tries in range(RETRIES):
                    missed = set(example.fronts()[:-1]) - fronts
                    if not (example.has_run and missed):
                        break
                    again = max(1, number + 10 - tries % 40)
                    ran, met = refuser.refuse(again, example.words(workers), example.given, variable)
                    fronts.add(front_written(example, ran, met, f"{what}={again}", tally))
                missed = set(example.fronts()[:-1]) - fronts
                tally.note(not missed, f"{example.name}, {what}: never ended with {missed}")


def try_explanations_without_memory(refuser, examples, tally):
    """Lack of memory for an explanation leaves it out: the text, the status and the fault's line are as ever."""
    for example in examples:
        for number, ran, met in refuser.refuse_each([*example.words(), "--explain"], example.given):
            whole = ran.status == 0 and example.is_whole(ran.text)
            front = ran.status == 4 and example.is_front(ran.text) and "fault: memory" in ran.fault.splitlines()
            tally.note(whole or (met and front), f"{example.name} explained, request {number}: {ran}")


def try_checks_without_memory(refuser, examples, tally):
    """A check is written whole, with the status of its text, or not at all."""
    for example in dumps(examples):
        for words in (["check"], ["check", "--explain"]):
            for variable in ("REFUSE_AT", "REFUSE_FROM"):
                for number, ran, met in refuser.refuse_each(words, example.given, variable):
                    whole = (ran.status, ran.text) == (example.check_status(), example.check_text)
                    if whole and ran.fault:
                        whole = "--explain" in words and tells_why_unsafe(example, ran.fault)
                    tally.note(whole or (met and ran == NOTHING), f"{example.name}, {words}, {variable}={number}: {ran}")


def try_pictures_without_memory(refuser, examples, tally):
    """A picture is written whole, or not at all."""
    for example in dumps(examples):
        picture = run(["draw"], example.given).text
        for words in (["draw"], ["draw", "--explain"]):
            for number, ran, met in refuser.refuse_each(words, example.given):
                tally.note(ran == (0, picture, "") or (met and ran == NOTHING), f"{example.name}, {words}, request {number}: {ran}")


def try_histories_without_memory(refuser, examples, tally):
    """The picture of a history is written whole, or not at all; where a run gets no thread it is that of the other commands."""
    for example in scripts(examples):
        words = ["show", "--workers", "1"]
        shown = run(words, example.given).text
        for number, ran, met in refuser.refuse_each(words, example.given):
            whole = (ran.status, ran.fault) == (0, "") and (ran.text == shown or (example.has_run and ran.text.endswith("</svg>\n")))
            tally.note(whole or (met and ran == NOTHING), f"the history of {example.name}, request {number}: {ran}")


def try_faults_without_memory(refuser, _, tally):
    """A faulty input has its fault, or ends for lack of memory; nothing is printed of it."""
    for words, given, fault in faulty_inputs():
        for more in ([], ["--explain"]):
            for number, ran, met in refuser.refuse_each([*words, *more], given):
                told = ran.status, ran.fault.splitlines()[:1]
                well = told == (2, [f"fault: {fault}"]) or (met and told == (4, ["fault: memory"]))
                tally.note(ran.text == "" and well, f"{given.decode():.200}, {[*words, *more]}, request {number}: {ran}")


def try_older_files_without_memory(refuser, examples, tally):
    """Each request for memory that is refused leaves an older file, or the file has the whole text."""
    with tempfile.TemporaryDirectory() as room:
        older = Older(room)
        for example in examples:
            if example.has_run:
                continue
            for words, wanted in example.tasks():
                for number, ran, met in refuser.refuse_each([*words, "-o", older.path], example.given):
                    whole = ran == (wanted.status, "", "") and older.has(wanted.text)
                    none = ran == NOTHING and older.has(older.text)
                    tally.note(whole or (met and none), f"{example.name}, {words}, to an older file, request {number}: {ran}")


def try_tests_without_memory(refuser, _, tally):
    for test, wanted in TESTS_WITHOUT_MEMORY:
        told = ""
        for number, ran, _ in refuser.refuse_each([test], program=TOP / "crates/fbl_tests/out/fbl_tests_tests"):
            tally.note(ran.status == 0, f"{test}, request {number}: {ran}")
            told += ran.text + ran.fault
        tally.note(wanted in told, f"{test} never told {wanted}")
        tally.note(number > 2, f"{test} asked for memory {number - 1} times alone")


def refusals():
    """The parts of the work, each of which takes a refuser, the examples and the tally."""
    return (try_refused_memory, try_explanations_without_memory, try_checks_without_memory, try_pictures_without_memory,
            try_histories_without_memory, try_faults_without_memory, try_older_files_without_memory, try_tests_without_memory)
