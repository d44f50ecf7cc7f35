#!/usr/bin/env python3
"""test_check_gate: the gate's verdict is kept, and an edit that shows nothing fails it.

    tests/test_check_gate.py [TEST ..]
"""
import os
import pathlib
import subprocess
import tempfile
import unittest

from folders import CHECKS, FOLDERS, TOOLS, TOP

TOOL = CHECKS / "check_gate"
REFUSED = "must-fail fd_snap/tie_goes_up: refused, as it must be: ./proofs/snap/Answers.antt:3:1: error: 1 is not 0"
MISSING = REFUSED.replace(
    "be:",
    "be (only because a proof file names what the edit took away, so this says little of the contract: change a "
    "value and keep the names):",
)
BAD = "rt: must-fail fd_snap/tie_goes_up: BAD EDIT: an 'old:' text is in src/lib.rt 0 times, and not once"
LEFT = (
    "must-fail fd_snap/tie_goes_up: refused, as it must be: ./proofs/snap/Answers.antt:3:1: error: 2 "
    "declarations that depend on `first`, which was rejected, were not checked"
)
LAST = "198 passed, 0 failed"


class ChecksTheGate(unittest.TestCase):
    def setUp(self):
        folder = tempfile.TemporaryDirectory()
        self.addCleanup(folder.cleanup)
        self.folder = pathlib.Path(folder.name)

    def judged(self, *said, status=0):
        """The status, and what is printed, of a gate that says these lines."""
        gate = self.folder / "rt"
        gate.write_text(
            '#!/bin/sh\n[ "$*" = ci ] || exit 9\ncat <<"EOF"\n'
            + "".join(f"{line}\n" for line in said)
            + f"EOF\nexit {status}\n"
        )
        gate.chmod(0o755)
        path = f"{self.folder}:{os.environ['PATH']}"
        ran = subprocess.run([TOOL], env={**os.environ, "PATH": path}, capture_output=True, text=True, check=False)
        return ran.returncode, ran.stdout.splitlines()

    def test_a_gate_that_fails(self):
        self.assertEqual(self.judged(REFUSED, "197 passed, 1 failed", status=1), (1, [REFUSED, "197 passed, 1 failed"]))

    def test_an_edit_that_cannot_be_applied(self):
        self.assertEqual(self.judged(BAD, LAST), (1, [BAD, LAST, f"check_gate: it shows nothing: {BAD}"]))

    def test_an_edit_that_takes_a_name_away(self):
        self.assertEqual(
            self.judged(REFUSED, MISSING, LAST),
            (1, [REFUSED, MISSING, LAST, f"check_gate: it shows nothing: {MISSING}"]),
        )

    def test_an_edit_of_which_declarations_were_not_checked(self):
        self.assertEqual(self.judged(LEFT, LAST), (1, [LEFT, LAST, f"check_gate: it shows nothing: {LEFT}"]))


class TheRepository(unittest.TestCase):
    """What the gate asks of the whole repository."""

    def test_no_links(self):
        """`rt ci` takes none below a folder of the top."""
        links = [
            path.relative_to(TOP)
            for entry in TOP.iterdir()
            if entry.name not in (".git", "out") and not entry.is_symlink()
            for path in entry.rglob("*")
            if path.is_symlink()
        ]
        self.assertEqual(links, [])

    def test_each_folder_finds_the_others(self):
        self.assertEqual(
            {(folder / "folders.py").read_text() for folder in FOLDERS if folder != TOOLS},
            {(CHECKS / "folders.py").read_text()},
        )


if __name__ == "__main__":
    unittest.main()
