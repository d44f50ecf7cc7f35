"""Runs programs with checks/refuse.c in them, which counts their allocations and starts of threads, and refuses
those that it is told to."""
import os
import pathlib
import shutil
import subprocess

from folders import TOP

EXAMPLES = TOP / "examples"
KIT = pathlib.Path(os.path.realpath(shutil.which("rt"))).parent.parent


class Runner:
    """Builds the object with the kit's own clang, into a folder, and counts the runs."""

    def __init__(self, room):
        self.library, self.told, self.runs = room / "refuse.so", room / "told", 0
        clang = [KIT / "toolchain/bin/clang", "-fuse-ld=lld"]
        subprocess.run(
            [*clang, "-O2", "-shared", "-nostdlib", "-fPIC", "-o", self.library, TOP / "checks/refuse.c"], check=True
        )

    def run(self, words, given=b"", memory=None, threads=None):
        """What a run gave, and how many allocations and threads it asked for. A plan is a number, with a + all from
        there on, with a dot all until it writes."""
        plan = {
            "REFUSE_MEMORY": memory,
            "REFUSE_THREADS": threads,
            "REFUSE_TOLD": self.told,
            "LD_PRELOAD": self.library,
        }
        environment = {**os.environ, **{name: str(value) for name, value in plan.items() if value}}
        self.told.unlink(missing_ok=True)
        self.runs += 1
        ran = subprocess.run(words, input=given, env=environment, capture_output=True, timeout=120, check=False)
        asked, started = map(int, self.told.read_text().split()) if self.told.exists() else (0, 0)
        return ran, asked, started
