"""Runs the program and the plain ones in C beside it, takes their times and memory, and prints the figures."""
import os
import pathlib
import re
import subprocess
import sys
import time
from dataclasses import dataclass

HERE = pathlib.Path(__file__).resolve().parent
import turns
from framedbg_client.program import tried_program
from turns import Taken

PROGRAM = pathlib.Path(tried_program())
ROUNDS = int(os.environ.get("ROUNDS", "5"))
SCALE = int(os.environ.get("SCALE", "1"))
COMPILER = ["gcc", "-O3", "-march=x86-64-v2"]
MIB = 1 << 20


class Session:
    """A run of the program that is asked one command after another: what each takes of the processor (user and
    system, all threads), and of the clock."""

    def __init__(self, path, workers=1, program=PROGRAM):
        words = [program, "run", "--workers", str(workers), path]
        self.child = subprocess.Popen(words, stdin=subprocess.PIPE, stdout=subprocess.PIPE)
        self.ask(["pixel 0 0"])

    def __enter__(self):
        return self

    def __exit__(self, *_):
        self.child.communicate(b"quit\n")

    def processor(self):
        stat = pathlib.Path(f"/proc/{self.child.pid}/stat")
        while stat.read_text().rpartition(")")[2].split()[0] == "R":  # its clock is exact once it waits
            pass
        # the clock of another process, as clock_getcpuclockid names it
        return time.clock_gettime(~self.child.pid << 3 | 2)

    def ask(self, lines):
        """Seconds of the processor and of the clock that the commands took together."""
        # the last one tells that all are answered: no other one here has a reply that begins so
        text = "".join(f"{line}\n" for line in [*lines, "step 0"]).encode()
        begin, start = self.processor(), time.monotonic()
        self.child.stdin.write(text)
        self.child.stdin.flush()
        self.first, reply = None, b""
        for reply in self.child.stdout:
            self.first = self.first or reply.decode().strip()
            if reply.startswith(b"bad"):
                return self.processor() - begin, time.monotonic() - start
            if reply.startswith((b"stopped", b"refused")):
                break
        sys.exit(f"{lines[:2]} was not answered as it should: {reply.decode() if reply else 'the program ended'}")

    def memory(self):
        """The most bytes that it had until now."""
        status = pathlib.Path(f"/proc/{self.child.pid}/status").read_text()
        return int(re.search(r"VmHWM:\s*(\d+) kB", status)[1]) * 1024


@dataclass(frozen=True)
class Asked:
    """What is asked of a figure; a comparison with what isn't measured is not."""

    ratio: float = None  # at most so many times plain C
    most: float = None
    least: float = None
    times: float = None  # at least so many times less than the program beside

    def words(self, compared, unit, is_beside):
        found = [
            compared.beside and not is_beside and self.ratio and f"<= {self.ratio:g}",
            self.most and f"<= {self.most:g} {unit}",
            self.least and f">= {self.least:g} {unit}",
            compared.beside and is_beside and self.times and f"<= 1/{self.times:g}",
        ]
        return ", ".join(filter(None, found))

    def is_reached(self, compared, is_beside):
        factor = (
            None
            if compared.beside is None
            else 1 / self.times
            if is_beside and self.times
            else None
            if is_beside
            else self.ratio
        )
        return not (
            factor
            and compared.here > factor * compared.beside
            or self.most is not None
            and compared.here > self.most
            or self.least is not None
            and compared.here < self.least
        )


class Bench:
    def __init__(self, folder, markdown, beside=None, instructions=False):
        self.folder, self.markdown, self.figures = pathlib.Path(folder), markdown, {}
        self.programs = [PROGRAM, pathlib.Path(beside)] if beside else [PROGRAM]
        if not PROGRAM.exists():
            sys.exit(f"{PROGRAM} is missing: make program, or name another one by FRAMEDBG")
        if beside and not os.access(beside, os.X_OK):
            sys.exit(f"measure: {beside} is no program")
        self.counter = turns.counter(self.folder) if instructions else None
        if markdown:
            print(
                f"| Work | ratio | framedbg | {'beside it' if beside else 'plain C'} | asked |\n|---|---|---|---|---|"
            )

    def title(self, text):
        if not self.markdown:
            print(f"\n{text}\n  ratio              asked", flush=True)

    def figure(self, name, value, unit, plain=None, **asked):
        """A line: the ratio to plain C or to the other program first, then what is asked (as Asked has it), and what
        was measured."""
        taken, asked = value if isinstance(value, Taken) else Taken(value), Asked(**asked)
        self.figures[name] = taken.here, unit, plain
        is_beside = len(self.programs) > 1
        compared = taken if is_beside else Taken(taken.here, plain)
        ratio = (
            ""
            if compared.ratio() is None
            else f"{compared.ratio():.2f}"
            if compared.ratio() >= 0.1
            else short(compared.ratio())
        )
        other = "" if compared.beside is None else f"{short(compared.beside)} {unit}"
        words, reached = asked.words(compared, unit, is_beside), asked.is_reached(compared, is_beside)
        if self.markdown:
            print(
                f"| {name} | {ratio} | {short(taken.here)} {unit} | {other} | "
                f"{words}{'' if reached else ': not reached'} |",
                flush=True,
            )
        else:
            other = other and f", {'beside it' if is_beside else 'plain C'} {other}"
            print(
                f"{ratio:>7} {words + ('' if reached else ' !'):>18}  {name:64} {short(taken.here)} {unit}{other}",
                flush=True,
            )

    def scaled(self, count, multiple=1):
        """A count or a side, made smaller by SCALE to try the scripts."""
        return max(count // SCALE // multiple, 1) * multiple

    def capture(self, data, name="capture.json"):
        path = self.folder / name
        path.write_bytes(data)
        return path

    def built(self, name):
        """A program of C that stands here, compiled as it is wanted first."""
        if not (self.folder / name).exists():
            subprocess.run([*COMPILER, "-o", self.folder / name, HERE / f"{name}.c"], check=True)
        return self.folder / name

    def by_turns(self, run, rounds=ROUNDS):
        """The least of each value that a run of a program gives: each the best of several runs, this program's and
        the other one's by turns."""
        return turns.best(self.programs, run, rounds)

    def there_and_back(self, path, start, end, rounds=ROUNDS):
        """Processor seconds from a position forward to another, and back; each the best of several fresh runs with
        one worker."""

        def run(program):
            with Session(path, program=program) as session:
                session.ask([f"goto {start}"])
                return session.ask([f"goto {end}"])[0], session.ask([f"goto {start}"])[0]

        return self.by_turns(run, rounds)

    def best(self, work):
        """Processor seconds of some commands, with one worker."""

        def run(program):
            with Session(work.path, program=program) as session:
                session.ask(work.before)
                seconds = session.ask(work.lines)[0]
                if session.first != work.answer:
                    sys.exit(f"{work.lines[0]} was answered by {session.first}")
            return (seconds,)

        return self.by_turns(run)[0]

    def timed(self, name, work, unit="ms", **asked):
        """A figure of the time that some commands take; and one of their instructions, where these are counted.
        Gives the instructions, or else the time."""
        taken = self.best(work)
        self.figure(name, taken * {"s": 1, "ms": 1e3}[unit], unit, **asked)
        if self.counter:
            taken = Taken(*(self.counter.work(program, work) for program in self.programs))
            self.figure(f"{name}, instructions", taken / 1e6, "M", times=asked.get("times"))
        return taken

    def usage(self, words, output=subprocess.PIPE):
        """Status, processor seconds and most memory of a whole run, and what it printed and complained of."""
        path = self.folder / "usage.txt"
        run = subprocess.run(
            [self.built("usage"), path, *words],
            stdin=subprocess.DEVNULL,
            stdout=output,
            stderr=subprocess.PIPE,
            check=True,
        )
        status, seconds, kib = path.read_text().split()
        return int(status), float(seconds), int(kib) * 1024, (run.stdout or b"") + run.stderr

    def plain(self, scene, rounds=ROUNDS):
        """The same drawing by plain C: processor seconds forward and back, and the most memory."""
        path = self.capture(scene.numbers(), "triangles")
        runs = [self.usage([self.built("plain"), path]) for _ in range(rounds)]
        if any(status for status, *_ in runs):
            sys.exit("plain C failed")
        times = [[float(word) for word in printed.split()] for *_, printed in runs]
        return min(forward for forward, _ in times), min(back for _, back in times), runs[0][2]

    def plain_side_by_side(self, scene, number):
        """Seconds of the clock that so many processes of plain C take together to draw this scene there and back,
        each by itself."""
        words = [self.built("plain"), self.capture(scene.numbers(), "triangles")]
        clocks = []
        for _ in range(ROUNDS):
            start = time.monotonic()
            runs = [subprocess.Popen(words, stdout=subprocess.DEVNULL) for _ in range(number)]
            if any([run.wait() for run in runs]):
                sys.exit("plain C failed")
            clocks.append(time.monotonic() - start)
        return min(clocks)

    def same_image(self, name, scene, per_draw=1):
        """Plain C must draw what the program draws: else the two aren't to be compared."""
        shown, colours = self.folder / "shown", self.folder / "colours"
        with open(shown, "wb") as output:
            self.usage([PROGRAM, "image", self.capture(scene.capture(per_draw))], output)
        self.usage([self.built("plain"), self.capture(scene.numbers(), "triangles"), colours])
        if not shown.read_bytes().endswith(b"ENDHDR\n" + colours.read_bytes()):
            sys.exit(f"{name}: plain C and the program draw two different images")


def short(value):
    """Three digits that count."""
    return f"{value:,.0f}" if abs(value) >= 100 else f"{value:.3g}"
