"""A checkout with a few tools, made-up crates, and a toolchain that is none (tests/made_up_kit.py)."""
import os
import pathlib
import shutil
import subprocess
import tempfile
import unittest

from folders import BUILD, CHECKS, TESTS

TOOLS = [BUILD / "build_program", BUILD / "kit.py", BUILD / "libraries.py", CHECKS / "try_edits", CHECKS / "editing"]
RT = """#!/bin/sh
case "$*" in
doc) echo {top}/START-HERE.md ;;
"run -- --version") echo "links $PWD" >> {top}/log; mkdir -p out; echo made > out/framedbg; cat status 2>/dev/null && exit 1; exit 0 ;;
*) exit 9 ;;
esac
"""


class Checkout(unittest.TestCase):
    """A test in a checkout of its own."""

    def setUp(self):
        folder = tempfile.TemporaryDirectory()
        self.addCleanup(folder.cleanup)
        self.top = pathlib.Path(folder.name)
        for tool in TOOLS:
            (shutil.copytree if tool.is_dir() else shutil.copy)(tool, self.place(f"{tool.parent.name}/{tool.name}"))
        for name in ("build", "checks"):
            shutil.copy(CHECKS / "folders.py", self.top / name)
        shutil.copy(TESTS / "made_up_kit.py", self.place("bin/rt"))
        self.write("KIT-ID", "made up\n")
        self.write("path/rt", RT.format(top=self.top)).chmod(0o755)

    def place(self, name):
        path = self.top / name
        path.parent.mkdir(parents=True, exist_ok=True)
        return path

    def write(self, name, text):
        self.place(name).write_text(text)
        return self.top / name

    def log(self):
        """What the toolchain did since this was asked last."""
        path = self.top / "log"
        lines = path.read_text().splitlines() if path.exists() else []
        path.unlink(missing_ok=True)
        return lines

    def ran(self, tool, *words):
        """The status of a tool, what it printed, and its errors."""
        mine = {"PATH": f"{self.top}/path:{os.environ['PATH']}", "XDG_CACHE_HOME": f"{self.top}/cache"}
        environment = {name: value for name, value in os.environ.items() if name != "RT_JOBS"} | mine
        done = subprocess.run(
            [self.top / tool, *words], env=environment, cwd="/", capture_output=True, text=True, timeout=60, check=False
        )
        return done.returncode, done.stdout.splitlines(), done.stderr
