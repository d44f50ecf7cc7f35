"""Proves and builds libraries of the repository, those beside each other that don't use one another.

`rt lib` locks a crate and all below it, and nearly all stand on fd_blend; so commands for several crates wait for each
other. Here the locks are taken once, as `rt all` does, and the lanes are those of `rt ci`: as many as processors and
memory carry, first the crate with the longest chain of others above it.
"""
import contextlib
import os
import threading
import time

from folders import TOP
import kit

LOGS = TOP / "out/build"
ENOUGH = 2.5e9  # bytes, which no check of a library here was seen to take; rt guesses more than twice as much for some
LONG = 0.75  # of the longest chain of crates


class NotBuilt(Exception):
    """Which crate wasn't built, and where to see why."""


@contextlib.contextmanager
def locked(crates):
    """Keeps other commands out of the crates' folders."""
    held = kit.rt().rtlib.lock(crates)
    try:
        yield
    finally:
        for it in held:
            os.close(it)


def lines(crate):
    return crate.count(b"\n")


def memory(crate):
    guess = kit.rt().need(crate)
    return min(guess, max(guess / 2, ENOUGH))


def long_chains(crates):
    """The names of the crates that are on a chain, of which each uses the one before, that has at least three quarters
    of the lines of the longest. Whatever is built beside them, they end last."""
    below, behind = {}, {crate.name: 0 for crate in crates}
    for crate in crates:  # behind those that it uses
        below[crate.name] = lines(crate) + max((below[low.name] for low in crate.below()), default=0)
    for crate in reversed(crates):
        for low in crate.below():
            behind[low.name] = max(behind[low.name], behind[crate.name] + lines(crate))
    most = max(below.values())
    return {name for name in below if below[name] + behind[name] >= LONG * most}


class Build:
    """A build of some libraries, and how far it is."""

    def __init__(self, crates, total):
        self.crates, self.total, self.done, self.failed = crates, total, 0, ""
        self.telling = threading.Lock()
        self.last = () if "RT_JOBS" in os.environ else long_chains(crates)

    def one(self, crate, jobs):
        """Builds the library of a crate, unless another couldn't be built. For those that end last rt chooses how many
        processors it takes, as for one alone."""
        if self.failed:
            return
        began = time.monotonic()
        with open(LOGS / f"{crate.name}.log", "w") as crate.out:
            try:
                kit.rt().rtlib.stop_on_links(crate.folder)
                status = crate.build_rlib([] if crate.name in self.last else ["--jobs", str(jobs)], anew=False)
            except SystemExit as fault:
                status = fault.code
        if status:
            self.failed = self.failed or f"{crate.name}: not built (status {status}); see out/build/{crate.name}.log"
        else:
            self.tell(crate.name, time.monotonic() - began)

    def tell(self, name, seconds):
        with self.telling:
            self.done += 1
            print(f"{self.done:2} of {self.total}  {name}: {seconds:.0f} s", flush=True)

    def run(self):
        rt = kit.rt()
        tasks = {}
        for crate in self.crates:

            def call(given, jobs, crate=crate):
                self.one(crate, jobs)

            waits = [(low.name, "proof") for low in crate.below()]
            tasks[crate.name, "proof"] = waits, lines(crate), memory(crate), call
        with locked(self.crates):
            rt.in_lanes(tasks)
        if self.failed:
            raise NotBuilt(self.failed)


def build(crates, more=0):
    """Builds these libraries, which hold each that they use. A line for each says its own time, and counts what
    comes after them too."""
    LOGS.mkdir(parents=True, exist_ok=True)
    kit.share_work()
    made = Build(crates, len(crates) + more)
    made.run()
    return made
