"""What passed, what failed and what was left, as each tool here counts it."""
import sys


class Tally:
    def __init__(self):
        self.passed = self.failed = self.skipped = 0

    def note(self, well, what):
        """Counts one thing; what failed is told."""
        if well:
            self.passed += 1
        else:
            self.failed += 1
            print(what, file=sys.stderr)

    def end(self):
        """Prints the last line, and answers the exit status."""
        print(f"{self.passed} passed, {self.failed} failed" + (f", {self.skipped} skipped" if self.skipped else ""))
        return 1 if self.failed or not self.passed else 0
