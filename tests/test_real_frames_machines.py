"""The converter of RenderDoc's frames without RenderDoc: names, displays, and what the command line says."""
import os
import pathlib
import stat
import subprocess
import sys
import tempfile
import unittest
from unittest import mock

from folders import CHECKS, TOOLS

from real_frames import module
from real_frames.display import Display
from real_frames.fault import Fault
from real_frames.names import printable


class Names(unittest.TestCase):
    def test_nothing_steers_a_terminal(self):
        self.assertEqual(printable("a\x1b[2J\u202eb\n é"), "a?[2J?b? é")
        self.assertEqual(len(printable("x" * 5000)), 200)


class Machines(unittest.TestCase):
    """What the tools need of the machine."""

    def setUp(self):
        folder = tempfile.TemporaryDirectory()
        self.addCleanup(folder.cleanup)
        self.folder = pathlib.Path(folder.name)

    def xvfb(self, script):
        """A program in the place of Xvfb."""
        path = self.folder / "Xvfb"
        path.write_text("#!/bin/sh\n" + script)
        path.chmod(path.stat().st_mode | stat.S_IXUSR)
        return mock.patch.dict(os.environ, {"PATH": f"{self.folder}:/usr/bin:/bin", "DISPLAY": ""})

    def test_a_screen_of_one_s_own_is_ended(self):
        with self.xvfb('echo 93 >&$2\nexec sleep 600\n'), Display() as display:
            self.assertEqual(os.environ["DISPLAY"], ":93")
            display.__exit__()
            self.assertIsNotNone(display.process.returncode)
            self.assertNotIn("DISPLAY", os.environ)

    def test_a_screen_that_is_there_is_taken(self):
        with mock.patch.dict(os.environ, {"DISPLAY": ":5"}), Display() as display:
            self.assertIsNone(display.process)
            self.assertEqual(os.environ["DISPLAY"], ":5")

    def test_an_xvfb_that_fails(self):
        with self.xvfb("exit 1\n"), self.assertRaisesRegex(Fault, "Xvfb wasn't up"):
            Display().__enter__()

    def test_no_xvfb(self):
        with mock.patch.dict(os.environ, {"PATH": str(self.folder), "DISPLAY": ""}), self.assertRaisesRegex(
            Fault, "apt install xvfb"
        ):
            Display().__enter__()

    def test_no_module(self):
        with mock.patch.object(module, "is_here", lambda: False), mock.patch.object(
            module, "SYSTEM_S_PYTHON", str(self.folder / "python3")
        ):
            self.assertFalse(module.run_by_its_python())

    def test_an_end_by_a_driver_is_told(self):
        for how, wanted in (
            (
                "os.kill(os.getpid(), 11)",
                (1, "", "tool: RenderDoc or the driver ended the process by SIGSEGV; try again\n"),
            ),
            ("print('made')", (0, "made\n", "")),
            ("sys.exit('tool: why')", (1, "", "tool: why\n")),
            ("sys.exit(2)", (2, "", "")),
            ("open('/dev/full', 'w').write('a' * 99999)", (1, "", "tool: [Errno 28] No space left on device\n")),
        ):
            script = (
                f"import os, sys\nsys.path.insert(0, "
                f"{str(pathlib.Path(module.__file__).parent.parent)!r})\nfrom real_frames import "
                f"module\nmodule.guarded('tool', lambda: {how})"
            )
            told = subprocess.run([sys.executable, "-c", script], capture_output=True, text=True)
            self.assertEqual((told.returncode, told.stdout, told.stderr), wanted)

    def test_no_orphan(self):
        """The process of the tool itself ends with the one that guards it: the other end of its pipe is closed then."""
        script = (
            f"import sys, time\nsys.path.insert(0, {str(pathlib.Path(module.__file__).parent.parent)!r})\nfrom "
            f"real_frames import module\n"
        )
        script += (
            "def main():\n    print('here', flush=True)\n    time.sleep(20)\n    print('late', "
            "flush=True)\nmodule.guarded('tool', main)"
        )
        with subprocess.Popen([sys.executable, "-c", script], stdout=subprocess.PIPE) as process:
            self.assertEqual(process.stdout.readline(), b"here\n")
            process.kill()
            self.assertEqual(process.stdout.read(), b"")

    def test_help_and_wrong_words(self):
        for tool in (
            TOOLS / "renderdoc_to_capture",
            TOOLS / "take_frame",
            CHECKS / "compare_coverage",
            CHECKS / "compare_history",
            CHECKS / "compare_pictures",
        ):
            told = subprocess.run([sys.executable, tool, "--help"], capture_output=True, text=True)
            self.assertEqual((told.returncode, told.stderr), (0, ""), tool)
            self.assertTrue(told.stdout.startswith(f"usage: {tool.name}"), tool)
        for words in (
            ["renderdoc_to_capture", "--draws", "9..3", "a.rdc"],
            ["renderdoc_to_capture", "--draws", "9", "a.rdc"],
            ["take_frame", "--seconds", "-1", "true"],
            ["take_frame", "--set", "NAME", "true"],
        ):
            told = subprocess.run([sys.executable, TOOLS / words[0], *words[1:]], capture_output=True, text=True)
            self.assertEqual(told.returncode, 2, words)
            self.assertNotIn("Traceback", told.stderr)


if __name__ == "__main__":
    unittest.main()
