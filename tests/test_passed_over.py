#!/usr/bin/env python3
"""test_passed_over: what is passed over is said, listed, and a failure where CI=true.

    tests/test_passed_over.py [TEST ..]
"""
import os
import pathlib
import shutil
import subprocess
import sys
import tempfile
import unittest

from folders import CHECKS

TOOL = CHECKS / "passed_over.py"
TESTS = """
import unittest
import passed_over

class Some(unittest.TestCase):
    def test_good(self):
        pass

    def test_other(self):
        self.assertTrue({holds})

    @unittest.skipIf({skips}, "no moon")
    def test_by_moonlight(self):
        pass

    @unittest.skipIf({skips}, "no moon")
    def test_at_high_tide(self):
        pass

passed_over.run_tests("some")
"""


class PassedOver(unittest.TestCase):
    def setUp(self):
        folder = tempfile.TemporaryDirectory()
        self.addCleanup(folder.cleanup)
        self.checks = pathlib.Path(folder.name) / "checks"
        self.checks.mkdir()
        shutil.copy(TOOL, self.checks)

    def ran(self, file, *words, ci=None):
        environment = {name: value for name, value in os.environ.items() if name != "CI"} | ({"CI": ci} if ci else {})
        ran = subprocess.run(
            [sys.executable, self.checks / file, *words], env=environment, capture_output=True, text=True, check=False
        )
        return ran.returncode, ran.stdout

    def some(self, holds, skips):
        (self.checks / "tests.py").write_text(TESTS.format(holds=holds, skips=skips))

    def listed(self):
        return self.ran("passed_over.py", "--list")[1].splitlines()

    def test_it_is_said_and_listed(self):
        self.assertEqual(self.listed(), ["nothing was passed over"])
        for what in ("stars", "planets"):
            self.assertEqual(
                self.ran("passed_over.py", what, "no telescope"), (0, f"passed over: {what}: no telescope\n")
            )
        self.assertEqual(self.listed(), ["2 passed over", "  stars: no telescope", "  planets: no telescope"])
        self.ran("passed_over.py", "--begin")
        self.assertEqual(self.listed(), ["nothing was passed over"])

    def test_it_fails_where_nobody_looks(self):
        self.assertEqual(self.ran("passed_over.py", "stars", "no telescope", ci="true"), (1, ""))
        self.assertEqual(self.ran("passed_over.py", "stars", "no telescope", ci="false")[0], 0)

    def test_words(self):
        for words in ([], ["stars"], ["a", "b", "c"], ["--frob"]):
            self.assertEqual(self.ran("passed_over.py", *words)[0], 1, words)
        self.assertEqual(self.ran("passed_over.py", "--help")[0], 0)

    def test_tests_that_ran_are_counted(self):
        self.some(holds=True, skips=False)
        self.assertEqual(self.ran("tests.py", ci="true"), (0, "some: 4 tests ran, 0 didn't\n"))
        self.some(holds=False, skips=False)
        self.assertEqual(self.ran("tests.py"), (1, "some: 4 tests ran, 0 didn't\n"))

    def test_tests_that_did_not_run_are_told(self):
        self.some(holds=True, skips=True)
        self.assertEqual(
            self.ran("tests.py"), (0, "some: 2 tests ran, 2 didn't\npassed over: some, 2 tests: no moon\n")
        )
        self.assertEqual(self.listed(), ["1 passed over", "  some, 2 tests: no moon"])
        self.assertEqual(self.ran("tests.py", ci="true"), (1, "some: 2 tests ran, 2 didn't\n"))
        self.some(holds=False, skips=True)
        self.assertEqual(self.ran("tests.py")[0], 1)


if __name__ == "__main__":
    unittest.main()
