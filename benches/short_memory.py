"""The part on memory that runs short: how far a session still gets after jumps that stopped, and how little address
space a jump needs."""
import os
import re
import resource
import subprocess
import sys

import scenes
from bench import MIB, PROGRAM, ROUNDS

WORKERS = [1, 4, 64]
ONE_ARENA = {"MALLOC_ARENA_MAX": "1"}
SMALL_STACK = 256 * 1024  # bytes, what `ulimit -s 256` gives each thread
FRUGAL = {"": ({}, None), ", one arena": (ONE_ARENA, None), ", one arena and small stacks": (ONE_ARENA, SMALL_STACK)}
MOST = 1 << 15  # MiB of address space
GOES_ON = 0.9  # of what is reached without a jump that stopped


class Limited:
    """Runs over one capture with so many workers, each under a limit on address space."""

    def __init__(self, path, workers, environment, stack):
        self.words = [PROGRAM, "run", "--workers", str(workers), path]
        self.environment = {**os.environ, **environment}
        self.stack = stack

    def run(self, lines, mib):
        """The position behind each reply, as far as the program answered; none where it didn't begin."""

        def limit():
            resource.setrlimit(resource.RLIMIT_AS, (mib * MIB, mib * MIB))
            if self.stack:
                resource.setrlimit(resource.RLIMIT_STACK, (self.stack, self.stack))

        text = "".join(f"{line}\n" for line in lines).encode()
        ran = subprocess.run(
            self.words, input=text, env=self.environment, capture_output=True, preexec_fn=limit, check=False
        )
        positions = [0]
        for reply in ran.stdout.decode().splitlines():
            moved = re.fullmatch(r"(?:at|stopped) (\d+)", reply)
            if not moved and not reply.startswith("refused"):
                sys.exit(f"{lines[0]} was answered by {reply}")
            positions.append(int(moved[1]) if moved else positions[-1])
        return positions[1:]

    def reached(self, lines, mib, worst=min):
        """Where the session stands at the end: of several runs the worst, since threads don't want memory in the
        same order twice."""
        return worst((self.run(lines, mib) or [0])[-1] for _ in range(min(ROUNDS, 3)))

    def further(self, lines, mib):
        """How much further the second of two moves comes, at the least."""
        return min(second - first for first, second in (self.run(lines, mib) or [0, 0] for _ in range(min(ROUNDS, 3))))

    def least(self, lines, position):
        """The least limit, in MiB, under which the session gets so far, to one in a hundred."""
        high = 4
        while self.reached(lines, high) < position:
            high *= 2
            if high > MOST:
                sys.exit(f"{lines[0]}: {position} is not reached under {MOST} MiB")
        low = high // 2
        while high - low > max(low // 100, 1):
            middle = (low + high) // 2
            low, high = (low, middle) if self.reached(lines, middle) >= position else (middle, high)
        return high


def going_on(bench):
    """clears under a limit on address space that is too small for them: reached by a jump and after it, beside
    reached by steps; least limits of one jump"""
    side, count = bench.scaled(640, 32), 60
    path = bench.capture(scenes.clears(side, side, count))
    steps, jump = ["step"] * count, [f"goto {count}"]
    for workers in WORKERS:
        for frugally, (environment, stack) in FRUGAL.items():
            limited = Limited(path, workers, environment, stack)
            name = f"{workers} {'worker' if workers == 1 else 'workers'}{frugally}"
            mib = limited.least(steps, count // 2)
            alone = limited.reached(steps, mib, max)
            bench.figure(f"{name}, {mib} MiB: reached by steps", alone, f"of {count}")
            for what, lines in [("a jump", jump), ("a jump and steps", jump + steps)]:
                bench.figure(
                    f"{name}, {mib} MiB: reached by {what}",
                    limited.reached(lines, mib) / alone,
                    "of that",
                    least=GOES_ON,
                )
            bench.figure(
                f"{name}, {mib} MiB: further by a second jump", limited.further(jump * 2, mib), "events", least=0
            )
            bench.figure(f"{name}: least address space of one jump to the end", limited.least(jump, count), "MiB")
            bench.figure(f"{name}: the same by steps", limited.least(steps, count), "MiB")
