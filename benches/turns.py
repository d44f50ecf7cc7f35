"""What a piece of work takes of this program, and of another one beside it: the two take turns, and the best of each
counts."""
import re
import shutil
import subprocess
import sys
from dataclasses import dataclass

ENOUGH = 10  # seconds, behind which a program isn't run once more


@dataclass(frozen=True)
class Taken:
    """What this program took, and the other one, where there is one."""

    here: float
    beside: float = None

    def __mul__(self, factor):
        return Taken(self.here * factor, None if self.beside is None else self.beside * factor)

    def __truediv__(self, factor):
        return self * (1 / factor)

    def over(self, other):
        """How many times as much as something else took, of each program."""
        return Taken(self.here / other.here, None if self.beside is None else self.beside / other.beside)

    def ratio(self):
        """The one to the other; none where it can't be told."""
        return self.here / self.beside if self.beside else None


@dataclass(frozen=True)
class Work:
    """Commands over a capture: what goes before isn't measured. The first of them has an answer that is known."""

    path: object
    before: tuple
    lines: tuple
    answer: str


def best(programs, run, rounds):
    """The least of each value that a run gives, by program. A run gives several values, and the first one is its
    time."""
    values = [[] for _ in programs]
    for _ in range(rounds):
        for program, column in zip(programs, values):
            if sum(taken[0] for taken in column) < ENOUGH:
                column.append(run(program))
    least = [[min(each) for each in zip(*column)] for column in values]
    return [Taken(*each) for each in zip(*least)]


class NotCounted(Exception):
    """Why instructions can't be counted."""


class Counter:
    """Counts a program's instructions by perf, without those of the kernel."""

    def __init__(self, folder):
        self.perf, self.file = shutil.which("perf"), folder / "instructions"
        if not self.perf:
            raise NotCounted("there is no perf")
        self.run(["true"], b"")

    def run(self, words, given):
        """The instructions of a whole run."""
        counting = [self.perf, "stat", "-x,", "-e", "instructions:u", "-o", self.file, "--", *words]
        ran = subprocess.run(counting, input=given, stdout=subprocess.DEVNULL, stderr=subprocess.PIPE, check=False)
        found = re.search(r"^(\d+),[^,]*,instructions:u", self.file.read_text() if self.file.exists() else "", re.M)
        if ran.returncode or not found:
            raise NotCounted("perf counts no instructions on this machine")
        return int(found[1])

    def work(self, program, work):
        """The instructions of some commands: of a run with them, less those of a run without."""
        words, least, most = [program, "run", "--workers", "1", work.path], *(
            "".join(f"{line}\n" for line in lines).encode() for lines in (work.before, (*work.before, *work.lines))
        )
        return self.run(words, most) - self.run(words, least)


def counter(folder):
    """A counter, or none where perf can't count, which is said."""
    try:
        return Counter(folder)
    except NotCounted as fault:
        print(f"measure: no instructions: {fault}", file=sys.stderr)
        return None
