#!/usr/bin/env python3
"""test_wrong_versions: a list of wrong versions tells of each whether it was seen, in its order, and fails where one
wasn't or can't be tried.

    tests/test_wrong_versions.py [TEST ..]
"""
import os
import pathlib
import re
import shutil
import subprocess
import sys
import tempfile
import unittest

from folders import CHECKS, TESTS, TOP, WRONG

# A tool, what tries it, and a list of its wrong versions
TOOL = "ONE, TWO = 1, 2\nNAP = 0\n"
TRIED = """
import os, unittest
import folders
import passed_over, tool

class Tool(unittest.TestCase):
    def test_numbers(self):
        self.assertEqual((tool.ONE, tool.TWO), (1, 2))

    def test_own_file(self):
        self.assertNotEqual((os.stat(tool.__file__).st_mtime, os.access(tool.__file__, os.X_OK)), (0, True))

    @unittest.skipIf(tool.ONE != 1, "no moon")
    def test_by_moonlight(self):
        pass

class Never(unittest.TestCase):
    def test_never(self):
        self.fail("never")

for number in range(8):
    setattr(Never, f"test_{number}", lambda self: self.assertEqual(tool.ONE, 1))

class Once(unittest.TestCase):
    def test_once(self):
        mark = folders.TOP / "marks/once"
        is_there, _ = mark.exists(), mark.touch()
        self.assertEqual((is_there, tool.ONE), (True, 1))

class Set(unittest.TestCase):
    @classmethod
    def setUpClass(cls):
        assert tool.ONE == 1

    def test_set(self):
        self.assertEqual(tool.TWO, 2)

if __name__ == "__main__":
    passed_over.run_tests("test_tool")
"""
LIST = """#!/usr/bin/env python3
\"\"\"tool_mutations: wrong versions of a tool.\"\"\"
import folders
from wrong_versions import Version, try_all

try_all(__doc__, [Version(name, "tools/tool.py", text, instead, "test_tool.py", *more) for name, text, instead, *more in [{lines}]])
"""
ONE, TWO = ("one", "ONE, TWO = 1", "ONE, TWO = 0", "Tool.test_numbers"), (
    "two",
    "TWO = 1, 2",
    "TWO = 1, 3",
    "Tool.test_numbers",
)
SAME = ("same", "NAP = 0", "NAP = -0", "Tool.test_numbers")


class Lists(unittest.TestCase):
    def setUp(self):
        folder = tempfile.TemporaryDirectory()
        self.addCleanup(folder.cleanup)
        self.top = pathlib.Path(folder.name)
        self.tools, self.wrong = self.top / "tools", self.top / "tests/wrong"
        for folder in ("checks", "tests/wrong", "tools"):
            (self.top / folder).mkdir(parents=True)
        own = [CHECKS / "folders.py", CHECKS / "passed_over.py", TESTS / "folders.py"]
        for file in [*own, *(WRONG / name for name in ("folders.py", "wrong_copies.py", "wrong_versions.py"))]:
            shutil.copy(file, self.top / file.relative_to(TOP), follow_symlinks=False)
        for name, text in (("tools/tool.py", TOOL), ("tests/test_tool.py", TRIED)):
            (self.top / name).write_text(text)
        (self.tools / "tool.py").chmod(0o755)

    def ran(self, *lines, words=(), ci=None):
        """Of a list of these lines the status, what it says (but for its minutes), and its errors."""
        (self.wrong / "tool_mutations.py").write_text(LIST.format(lines="".join(f"{line!r}, " for line in lines)))
        environment = {name: value for name, value in os.environ.items() if name != "CI"} | ({"CI": ci} if ci else {})
        run = subprocess.run(
            [sys.executable, self.wrong / "tool_mutations.py", *words],
            env=environment,
            capture_output=True,
            text=True,
            timeout=120,
            check=False,
        )
        return run.returncode, re.sub(r"in \d+\.\d minutes", "in N minutes", run.stdout).splitlines(), run.stderr

    def end(self, seen, of, at_once=2 * len(os.sched_getaffinity(0))):
        return f"tool_mutations: {seen} of {of} wrong versions were seen, in N minutes, {at_once} at once"

    def test_all_are_seen(self):
        self.assertEqual(self.ran(ONE, TWO), (0, ["one: seen", "two: seen", self.end(2, 2)], ""))
        self.assertEqual((self.tools / "tool.py").read_text(), TOOL)

    def test_one_is_missed(self):
        for lines in ((ONE, SAME, TWO), (SAME, ONE), (ONE, SAME)):
            said = [f"{name}: {'MISSED' if name == 'same' else 'seen'}" for name, *_ in lines] + [
                self.end(len(lines) - 1, len(lines))
            ]
            self.assertEqual(self.ran(*lines), (1, said, "tool_mutations: not seen: same\n"))

    def test_what_breaks_off_is_not_seen(self):
        """Before the tests, or before the first of a class. What the run said is told."""
        for line, why in (
            (("odd", "NAP = 0", "NAP = ", "Tool.test_numbers"), "SyntaxError"),
            (("set", *ONE[1:3], "Set.test_set"), "AssertionError"),
        ):
            status, said, errors = self.ran(line, TWO)
            self.assertEqual(
                (status, said[0], said[-2:], errors),
                (1, f"{line[0]}: BROKEN", ["two: seen", self.end(1, 2)], f"tool_mutations: not seen: {line[0]}\n"),
            )
            self.assertIn(why, "\n".join(said))

    def test_what_fails_as_it_is(self):
        """Then nothing says anything of a wrong version. Tests of a class are run eight at a time."""
        for before in (0, 8):
            lines = [(f"one {number}", *ONE[1:3], f"Never.test_{number}") for number in range(before)]
            status, said, errors = self.ran(*lines, (*ONE[:3], "Never.test_never"), TWO)
            self.assertEqual((status, said), (1, []))
            self.assertIn("tool_mutations: Never of test_tool.py fails on what is there as it is", errors)

    def test_what_fails_once_as_it_is(self):
        """A machine may be late once."""
        (self.top / "marks").mkdir()
        self.assertEqual(
            self.ran((*ONE[:3], "Once.test_once"), words=["--at-once", "1"])[1], ["one: seen", self.end(1, 1, 1)]
        )

    def test_what_is_stale_stops_it_at_once(self):
        for line, why in (
            (("none", "THREE", "FOUR", ONE[3]), "its text stands 0 times in tools/tool.py"),
            (("many", "O", "o", ONE[3]), "its text stands 2 times in tools/tool.py"),
            (("moon", *ONE[1:3], "Tool.test_moon"), "there is no test Tool.test_moon"),
            (("class", *ONE[1:3], "Tools"), "there is no test Tools"),
        ):
            self.assertEqual(
                self.ran(ONE, line, TWO), (1, [f"{line[0]}: {why}"], "tool_mutations: 1 of 3 can't be tried\n")
            )
            self.assertEqual(
                self.ran(ONE, line, TWO, words=["--list"])[:2],
                (1, ["one: can be tried", f"{line[0]}: {why}", "two: can be tried"]),
            )
        self.assertEqual(self.ran(ONE, TWO, words=["--list"]), (0, ["one: can be tried", "two: can be tried"], ""))

    def test_words(self):
        self.assertEqual(
            self.ran(ONE, SAME, TWO, words=["tw", "on"])[:2], (0, ["one: seen", "two: seen", self.end(2, 2)])
        )
        self.assertEqual(
            self.ran(ONE, words=["moon"]), (1, [], "tool_mutations: none has one of these words in its name\n")
        )
        for words, status in ((["--help"], 0), (["--frob"], 2), (["--at-once", "0"], 2)):
            self.assertEqual(self.ran(ONE, words=words)[0], status)

    def test_what_is_not_there_is_passed_over(self):
        """What a line says, and what its test does. In a copy nothing is noted for the repository."""
        for line, why in (
            ((*ONE, "no sun"), "no sun"),
            ((*ONE[:3], "Tool.test_by_moonlight"), "their tests were skipped"),
        ):
            status, said, errors = self.ran(line, TWO)
            self.assertEqual(
                (status, sorted(said), errors),
                (
                    0,
                    sorted(
                        [
                            "one: skipped",
                            "two: seen",
                            self.end(1, 2),
                            f"passed over: tool_mutations, 1 wrong versions: {why}",
                        ]
                    ),
                    "",
                ),
            )
            self.assertEqual((self.top / "out/passed_over").read_text(), f"tool_mutations, 1 wrong versions: {why}\n")
            (self.top / "out/passed_over").unlink()
            self.assertEqual(self.ran(line, TWO, ci="true")[0], 1)

    def test_what_a_test_meets(self):
        """A file that may be run as before, older than whatever was compiled."""
        self.assertEqual(self.ran((*SAME[:3], "Tool.test_own_file"))[1], ["same: seen", self.end(1, 1)])


if __name__ == "__main__":
    unittest.main()
