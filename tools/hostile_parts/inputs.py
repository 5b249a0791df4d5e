"""The worked examples, and what the program is to do with them."""
import json

from program import EXAMPLES, run


class Example:
    """An input with the text that the program prints for it."""

    def __init__(self, path):
        self.name = path.stem
        self.given = path.read_bytes()
        self.text = path.with_suffix(".txt").read_text()
        self.value = json.loads(self.given)
        self.is_script = "commands" in self.value
        self.commands = [command[0] for command in self.value["commands"]] if self.is_script else []
        self.members = self.value["members"]
        self.has_run = "run" in self.commands
        self.check_text = None if self.is_script else path.with_suffix(".check.txt").read_text()

    def check_status(self):
        return 0 if self.check_text == "safe\n" else 1

    def words(self, workers=None):
        if not self.is_script:
            return ["audit"]
        return ["play"] if workers is None else ["play", "--workers", str(workers)]

    def workers(self, numbers):
        """The numbers of workers with which to try it: any does where nothing runs."""
        return numbers if self.has_run else [None]

    def tasks(self):
        """The words for each word that reads it, with what the program does. Its runs are by one worker."""
        more = ["--workers", "1"] if self.is_script else []
        for word in ["play", "show"] if self.is_script else ["audit", "check", "draw"]:
            yield [word, *more], run([word, *more], self.given)

    def fronts(self):
        """The text at the end of each command: a report has a line for each member and four more, each other command one."""
        lines = self.text.splitlines(keepends=True)
        done, fronts = 0, [""]
        for command in self.commands:
            done += self.members + 4 if command == "report" else 1
            fronts.append("".join(lines[:done]))
        if fronts[-1] != self.text and self.is_script:
            raise ValueError(f"{self.name}: the text doesn't end with the last command")
        return fronts

    def is_whole(self, text):
        """Whether this is the whole text, or that of a script whose one run was refused, which is written by hand."""
        return text == self.text or (self.has_run and text == self.text_without_threads())

    def text_without_threads(self):
        """The text where the run gets no thread: it is refused, and changes nothing for the commands behind it."""
        return (EXAMPLES / "without-threads" / f"{self.name}.txt").read_text()

    def is_front(self, text):
        """Whether this is what was printed when memory ran out: the text at a command's end; of an audit nothing."""
        return text in self.fronts() if self.is_script else text == ""


def worked_examples():
    return [Example(path) for path in sorted(EXAMPLES.glob("*.json")) if path.with_suffix(".txt").exists()]


def scripts(examples):
    return [example for example in examples if example.is_script]


def dumps(examples):
    return [example for example in examples if not example.is_script]


def faulty_inputs():
    """Each input with the words that read it and its fault."""
    for case in json.loads((EXAMPLES / "faults.json").read_text()):
        yield case["words"], case["input"].encode(), case["fault"]
