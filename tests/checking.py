"""How the checkers count: of all that one looks at, what is right and what is wrong."""
import sys
from pathlib import Path

ROOT = Path(__file__).resolve().parent.parent


class Check:
    """What was looked at so far."""

    def __init__(self):
        self.passed = self.failed = 0

    def __call__(self, good, complaint):
        """Counts one thing that was looked at, and prints the complaint where it isn't right."""
        if good:
            self.passed += 1
        else:
            self.failed += 1
            print(complaint, flush=True)

    def end(self):
        """Prints the counts as the last line, which .ci/run adds up; the status is 1 where one failed or there was none."""
        print(f"{self.passed} passed, {self.failed} failed")
        sys.exit(1 if self.failed or not self.passed else 0)
