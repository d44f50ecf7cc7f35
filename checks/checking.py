"""What a check says of what it looks at: what is wrong, a line each, and in the end how many passed and how many
failed."""
import sys


class Wrong(Exception):
    """What isn't as it has to be."""


def expect(is_so, what):
    """Ends a check that goes no further with the first thing that is wrong."""
    if not is_so:
        raise Wrong(what)


class Checker:
    """Counts what is as it has to be and what is not, and goes on."""

    def __init__(self, quiet=False):
        self.passed, self.failed, self.quiet = 0, 0, quiet

    def expect(self, is_so, what):
        self.passed, self.failed = self.passed + bool(is_so), self.failed + (not is_so)
        if not is_so and not self.quiet:
            print(f"WRONG {what}")

    def end(self):
        print(f"{self.passed} passed, {self.failed} failed")
        sys.exit(self.failed > 0)


def end(passed, wrong, about=""):
    """Ends a check that knows all that is wrong. `about` says what it looked at."""
    for line in wrong:
        print(f"WRONG {line}")
    print(f"{about}\n{passed} passed, {len(wrong)} failed" if about else f"{passed} passed, {len(wrong)} failed")
    sys.exit(bool(wrong))
