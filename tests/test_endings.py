#!/usr/bin/env python3
"""test_endings: tries how the tools write and end: on a full disk, without standard output, and when Ctrl-C comes
early.

    tests/test_endings.py [TEST ..]

FRAMEDBG names another program.
"""
import os
import pty
import select
import signal
import stat
import subprocess
import sys
import time
import types
import unittest
from unittest import mock

import folders

import passed_over
from blame_testing import PROGRAM, Folder, box, capture, clear, pam
from folders import TOOLS
from full_disk import LACKING, OF_NULL, full_device, made_device

from writing import files

ALL = (
    "fdb",
    "framedbg-blame",
    "framedbg-night",
    "view",
    "explain",
    "mesh_to_capture",
    "renderdoc_to_capture",
    "apitrace_to_capture",
    "take_frame",
    "pam_to_png",
    "framedbg-driver",
)
BEFORE = f"import sys\nsys.path.insert(0, {str(TOOLS)!r})\nfrom writing.ending import ends_as\n"
SKY, RED = (10, 20, 30, 255), (200, 40, 30, 255)
OBJ = "v 0 0 0\nv 1 0 0\nv 0 1 0\nf 1 2 3\n"
WAITS = "import os, time\nopen(os.environ['BEGUN'], 'w').close()\ntime.sleep(60)\n"  # a module whose import takes long


def status_of(words):
    """That of what can't be written: framedbg-driver's 3 says that there is no driver."""
    return 4 if words[0] == "framedbg-driver" else 3


class Tools(Folder):
    """Each tool as a program of its own."""

    def commands(self):
        """Commands that write something, each with what it reads."""
        wrong, right = capture([clear(*SKY), box(2, 2, 14, 12, RED)]), capture([clear(*SKY)])
        wrong, picture, mesh = (
            self.written("wrong.json", wrong),
            self.written("wanted.pam", pam(right)),
            self.written("mesh.obj", OBJ),
        )
        (self.folder / "captures").mkdir()
        self.written("captures/a.json", right)
        self.written("captures/a.pam", pam(right))
        large = capture([clear(*SKY)], 400, 300)
        return [
            (["fdb", wrong, "--batch", "--program", PROGRAM], b"l\nsave kept.png\n"),
            (["framedbg-blame", wrong, picture, "--program", PROGRAM], b""),
            (["framedbg-night", str(self.folder / "captures"), "--program", PROGRAM], b""),
            (["explain", wrong], b""),
            (["mesh_to_capture", mesh], b""),
            (["pam_to_png"], pam(large)),
            (["view", wrong, "--no-browser", "--program", PROGRAM], b""),
            (["framedbg-driver", "try", "--features"], b""),
            *(([tool, "--help"], b"") for tool in ALL),
        ]

    def ran(self, words, given, out, closing=""):
        """Its status and what it said; the shell may close something of it."""
        words = ["sh", "-c", f'exec "$@" {closing}', "sh", sys.executable, str(TOOLS / words[0]), *words[1:]]
        ran = subprocess.run(
            words, input=given, stdout=out, stderr=subprocess.PIPE, timeout=60, check=False, cwd=self.folder
        )
        return ran.returncode, ran.stderr.decode()

    def test_a_full_disk(self):
        with full_device() as full:
            if not full:
                self.skipTest(LACKING)
            for words, given in self.commands():
                with self.subTest(words[0]), open(full, "wb") as out:
                    told = f"{words[0]}: standard output: No space left on device\n"
                    self.assertEqual(self.ran(words, given, out), (status_of(words), told))

    def test_standard_output_that_is_closed(self):
        for words, given in self.commands():
            with self.subTest(words[0]):
                told = f"{words[0]}: standard output: it is closed\n"
                self.assertEqual(self.ran(words, given, subprocess.DEVNULL, ">&-"), (status_of(words), told))

    def test_what_else_is_closed(self):
        """Without standard input there is none to read; without standard error nothing is told, and the status is
        the same."""
        wrong = self.written("wrong.json", capture([clear(*SKY)]))
        fdb = ["fdb", wrong, "--batch", "--program", PROGRAM]
        for closing, words, wanted in (
            ("<&-", fdb, 0),
            ("2>&-", fdb, 0),
            ("2>&-", ["explain", self.written("bad.json", "[]")], 2),
            ("2>&-", ["explain", "nothing"], 3),
        ):
            with self.subTest(words[0], closing=closing):
                self.assertEqual(self.ran(words, b"", subprocess.DEVNULL, closing)[0], wanted)

    def test_a_reader_that_goes(self):
        ours, theirs = os.pipe()
        os.close(ours)
        with open(theirs, "wb") as out:
            for words, given in self.commands():
                with self.subTest(words[0]):
                    self.assertEqual(self.ran(words, given, out), (status_of(words), ""))

    def test_an_early_interrupt(self):
        """While the tool's modules are read."""
        stubs = self.folder / "stubs"
        stubs.mkdir()
        (stubs / "argparse.py").write_text(WAITS)
        begun = self.folder / "begun"
        signal.signal(signal.SIGINT, signal.default_int_handler)  # what is ignored here would be there too
        for tool in ALL:
            with self.subTest(tool):
                begun.unlink(missing_ok=True)
                with subprocess.Popen(
                    [sys.executable, TOOLS / tool, "x"],
                    stdin=subprocess.DEVNULL,
                    stdout=subprocess.PIPE,
                    stderr=subprocess.PIPE,
                    env={**os.environ, "PYTHONPATH": str(stubs), "BEGUN": str(begun)},
                ) as run:
                    while not begun.exists() and run.poll() is None:
                        time.sleep(0.01)
                    run.send_signal(signal.SIGINT)
                    out, errors = run.communicate(timeout=30)
                self.assertEqual((run.returncode, out, errors.decode()), (130, b"", f"{tool}: interrupted\n"))

    def test_an_old_python(self):
        """One line, before anything is read that it can't."""
        for tool in ALL:
            script = (
                f"import runpy, sys\nsys.version_info, sys.argv = (3, 9, 2, 'final', 0), [{tool!r}]\n"
                f"runpy.run_path({str(TOOLS / tool)!r}, run_name='__main__')"
            )
            ran = subprocess.run(
                [sys.executable, "-c", script], capture_output=True, text=True, timeout=60, check=False
            )
            self.assertEqual(
                (ran.returncode, ran.stderr), (1, f"{tool}: Python 3.10 or newer is wanted, and this is 3.9\n"), tool
            )


class Endings(unittest.TestCase):
    """What a tool's function comes to."""

    def status(self, body, closing=""):
        script = f"{BEFORE}{body}\nends_as('tool', main)"
        ran = subprocess.run(
            ["sh", "-c", f'exec "$@" {closing}', "sh", sys.executable, "-c", script],
            capture_output=True,
            text=True,
            timeout=60,
            check=False,
        )
        return ran.returncode, ran.stdout, ran.stderr

    def test_statuses(self):
        for body, wanted in (
            ("print('a')", (0, "a\n", "")),
            ("return 4", (4, "", "")),
            ("sys.exit('tool: why')", (1, "", "tool: why\n")),
            ("sys.exit(2)", (2, "", "")),
            ("sys.exit()", (0, "", "")),
            ("raise KeyboardInterrupt", (130, "", "tool: interrupted\n")),
        ):
            self.assertEqual(self.status(f"def main(): {body}"), wanted, body)

    def test_a_fault_of_the_tool_itself(self):
        """It is no fault of what is written: Python tells it."""
        status, _, errors = self.status("def main(): open('/nowhere/at/all')")
        self.assertEqual((status, "Traceback" in errors), (1, True))

    def test_nothing_takes_the_place_of_what_is_closed(self):
        told = self.status("def main():\n    with open('/dev/zero') as file: print(file.fileno() > 2)", "<&- 2>&-")
        self.assertEqual(told, (0, "True\n", ""))

    def test_a_terminal_is_told_line_by_line(self):
        ours, theirs = pty.openpty()
        script = f"{BEFORE}def main():\n    print('a')\n    sys.stdin.read()\nends_as('tool', main)"
        with subprocess.Popen([sys.executable, "-c", script], stdin=subprocess.PIPE, stdout=theirs) as run:
            os.close(theirs)
            shown = os.read(ours, 64) if select.select([ours], [], [], 20)[0] else b""
            run.communicate(timeout=60)
        self.assertEqual(shown, b"a\r\n")
        os.close(ours)


class Files(Folder):
    def test_whole_or_not_at_all(self):
        path = self.folder / "a"
        files.keep(path, b"one")
        self.assertEqual(stat.S_IMODE(path.stat().st_mode), 0o666 & ~files.umask())
        files.keep(path, b"two")
        with mock.patch.object(files.os, "replace", side_effect=OSError), self.assertRaises(OSError):
            files.keep(path, b"three")
        self.assertEqual((path.read_bytes(), list(self.folder.iterdir())), (b"two", [path]))

    def test_links_stay(self):
        there, path, ahead = self.folder / "there", self.folder / "link", self.folder / "ahead"
        there.write_bytes(b"one")
        path.symlink_to("there")
        ahead.symlink_to("to be")
        files.keep(path, b"two")
        files.keep(ahead, b"three")
        self.assertTrue(path.is_symlink() and ahead.is_symlink() and not there.is_symlink())
        self.assertEqual((there.read_bytes(), (self.folder / "to be").read_bytes()), (b"two", b"three"))

    def test_pipes_and_devices_stay(self):
        pipe, link = self.folder / "pipe", self.folder / "null"
        os.mkfifo(pipe)
        link.symlink_to(self.enterContext(made_device(OF_NULL)) or self.skipTest(LACKING))
        with subprocess.Popen(["wc", "-c", pipe], stdout=subprocess.PIPE) as reader:
            try:
                files.keep(pipe, b"a" * 200_000)
                counted = reader.communicate(timeout=20)[0].split()[0]
            finally:
                reader.kill()  # who waits for what never comes
        self.assertEqual(counted, b"200000")
        kept = bytearray()
        files.write_all(types.SimpleNamespace(write=lambda rest: kept.extend(rest[:3]) or len(rest[:3])), b"abcdefgh")
        self.assertEqual(kept, b"abcdefgh")
        files.keep(link, b"a")
        self.assertTrue(stat.S_ISFIFO(pipe.stat().st_mode) and stat.S_ISCHR(link.stat().st_mode) and link.is_symlink())

    def test_a_full_disk(self):
        with full_device() as full:
            if not full:
                self.skipTest(LACKING)
            with self.assertRaises(OSError):
                files.keep(full, b"a")
            self.assertTrue(stat.S_ISCHR(os.stat(full).st_mode))


if __name__ == "__main__":
    passed_over.run_tests("test_endings")
