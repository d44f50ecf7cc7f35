#!/usr/bin/env python3
"""test_run_tests: no part of make test is passed over, none that fails is taken for one that passed, and what they
pass over is told.

    tests/test_run_tests.py [TEST ..]
"""
import os
import pathlib
import re
import runpy
import shutil
import signal
import subprocess
import sys
import tempfile
import time
import unittest

from folders import CHECKS, TESTS, TOP

NOTES = "checks/passed_over.py stars clouds"
MINUTES = "== minutes, and those of processors"


def setUpModule():
    """All processors, where this is run beside others on one of them."""
    os.sched_setaffinity(0, range(os.cpu_count()))


class RunsTests(unittest.TestCase):
    def setUp(self):
        folder = tempfile.TemporaryDirectory()
        self.addCleanup(folder.cleanup)
        self.checks = pathlib.Path(folder.name) / "checks"
        self.checks.mkdir()
        for name in ("run_tests", "passed_over.py"):
            shutil.copy(CHECKS / name, self.checks)

    def ran(self, *lines, words=(), ci=None):
        """Its status, what it prints, with N in the place of minutes, and its errors."""
        (self.checks / "test_parts.txt").write_text("# a list\n\n" + "".join(f"{line}\n" for line in lines))
        environment = {name: value for name, value in os.environ.items() if name != "CI"} | ({"CI": ci} if ci else {})
        done = subprocess.run(
            [self.checks / "run_tests", *words], env=environment, capture_output=True, text=True, check=False
        )
        said = re.sub(r"^ +\d+\.\d +\d+\.\d  ", "N  ", done.stdout, flags=re.M)
        return done.returncode, said.splitlines(), done.stderr

    def test_the_first_that_fails_is_the_last(self):
        for after in ("echo after", "\necho after", "\n| echo after"):
            status, said, errors = self.ran("true", "false", after)
            self.assertEqual(
                (status, said, errors),
                (
                    1,
                    [
                        "== true",
                        "== false",
                        MINUTES,
                        "N  true",
                        "N  false  FAILED",
                        "N  in all",
                        "nothing was passed over",
                    ],
                    "false: status 1\n",
                ),
            )

    def test_a_command_that_is_not_there(self):
        status, said, errors = self.ran("nowhere to be found", "echo after")
        self.assertRegex(said[1], "^nice: .nowhere.: No such file or directory$")
        self.assertEqual((status, errors), (1, "nowhere to be found: status 127\n"))
        for sign in "|&":
            status, said, errors = self.ran(f"{sign} nowhere", "\necho after")
            self.assertRegex(said[1], "^(taskset|nice): .*: No such file or directory$")
            self.assertEqual((status, said[2], errors), (1, "run_tests: nowhere: FAILED", "nowhere: status 127\n"))

    def test_an_interrupt_is_heard_in_the_background(self):
        """There a shell has it ignored, and what a part starts would ignore it too."""
        part = self.checks / "tells"
        part.write_text("import signal\nprint(signal.getsignal(signal.SIGINT))\n")
        self.addCleanup(signal.signal, signal.SIGINT, signal.signal(signal.SIGINT, signal.SIG_IGN))
        self.assertIn("default_int_handler", self.ran(f"python3 {part}")[1][1])

    def test_an_interrupt_ends_what_runs(self):
        """Beside others too."""
        part = self.part("long", "echo $$ > begun", "mv begun number", "exec sleep 60")
        for sign, more in (("", ""), ("| ", f"run_tests: {part}: FAILED\n"), ("& ", f"run_tests: {part}: FAILED\n")):
            self.interrupt(f"{sign}{part}\n\necho after\n", f"== {part}\n{more}")

    def interrupt(self, lines, wanted):
        """Interrupts a list once its part has told its number."""
        (self.checks / "test_parts.txt").write_text(lines)
        number = self.checks / "number"
        number.unlink(missing_ok=True)
        with subprocess.Popen([self.checks / "run_tests"], stdout=subprocess.PIPE, text=True) as run:
            until = time.monotonic() + 30
            while not number.exists() and time.monotonic() < until:
                time.sleep(0.1)
            run.send_signal(signal.SIGINT)
            said = run.communicate(timeout=30)[0]
        self.assertEqual((run.returncode, said), (130, wanted))
        with self.assertRaises(ProcessLookupError):
            while time.monotonic() < until:
                os.kill(int(number.read_text()), 0)
                time.sleep(0.1)

    def test_what_was_passed_over_is_listed_last(self):
        for _ in range(2):  # what was passed over before is forgotten
            self.assertEqual(self.ran(NOTES, "true")[1][-2:], ["1 passed over", "  stars: clouds"])
        status, said, _ = self.ran(NOTES, "true", ci="true")
        self.assertEqual((status, said[-3:]), (1, [f"N  {NOTES}  FAILED", "N  in all", "nothing was passed over"]))

    def part(self, name, *lines):
        """A part of its own, a script that finds itself in checks/."""
        path = self.checks / name
        path.write_text("\n".join(["#!/bin/sh", f"cd {self.checks}", *lines, ""]))
        path.chmod(0o755)
        return str(path)

    def meeting(self, first="0 0", second="0 0"):
        """Two parts, of which neither ends before the other has begun. Each then takes the seconds, and ends with the
        status, that it is given."""
        part = self.part(
            "meets",
            "touch is_$1",
            "for i in $(seq 200); do [ -e is_$2 ] && echo met && sleep $3 && exit $4; sleep 0.1; done",
        )
        for name in ("one", "other"):
            (self.checks / f"is_{name}").unlink(missing_ok=True)
        return f"{part} one other {first}", f"{part} other one {second}"

    def test_one_beside_another_fails(self):
        """The other ends, and no more is run."""
        first, second = self.meeting("0 1", "1 0")
        status, said, errors = self.ran(f"| {first}", "| echo more", second, "echo other", "", "echo after")
        self.assertEqual((status, errors), (1, f"{first}: status 1\n"))
        self.assertEqual(
            sorted(said[:5]), sorted([f"== {first}", f"== {second}", "met", "met", f"run_tests: {first}: FAILED"])
        )
        self.assertEqual(said[5], MINUTES)

    def test_the_other_fails(self):
        first, second = self.meeting("1 0", "0 1")
        status, said, errors = self.ran(f"| {first}", "| echo more", second, "", "echo after")
        self.assertEqual((status, errors), (1, f"{second}: status 1\n"))
        self.assertEqual(sorted(said[:4]), sorted([f"== {first}", f"== {second}", "met", "met"]))
        self.assertEqual(said[4], MINUTES)

    @unittest.skipIf(os.cpu_count() == 1, "there is one processor")
    def test_as_many_as_there_are_processors(self):
        """Once there is nothing that takes all of them."""
        for alone in ("true", ""):
            status, said, _ = self.ran(alone, *(f"| {part}" for part in self.meeting()))
            self.assertEqual((status, said.count("met")), (0, 2))

    def test_one_beside_another(self):
        """In turn, however many processors there are, as long as one takes all."""
        slow, waits = self.part("slow", "sleep 0.5"), self.part("waits", "while [ ! -e two ]; do sleep 0.1; done")
        status, said, _ = self.ran(f"| {slow}", f"| touch {self.checks}/two", waits)
        self.assertEqual((status, said[:4]), (0, [f"== {waits}", f"== {slow}", f"== touch {self.checks}/two", MINUTES]))

    def test_one_that_waits(self):
        """It is run beside those of both other kinds, and after another that waits."""
        slow = self.part("slow", "sleep 0.5", "touch one")
        waits = self.part("waits", "for i in $(seq 100); do [ -e one ] && exit; sleep 0.1; done; exit 1")
        status, said, _ = self.ran(waits, f"| {waits}", f"& {slow}", "& echo two")
        self.assertEqual((status, said[0]), (0, f"== {waits}"))
        self.assertLess(said.index(f"== {slow}"), said.index("== echo two"))
        self.assertEqual(said.count("== echo two"), 1)

    def test_one_that_waits_fails(self):
        """The other ends, and no more is run."""
        first, second = self.meeting("0 1", "1 0")
        status, said, errors = self.ran(f"& {first}", "& echo more", second, "echo other", "", "echo after")
        self.assertEqual((status, errors), (1, f"{first}: status 1\n"))
        self.assertIn(f"run_tests: {first}: FAILED", said)
        self.assertEqual([line for line in said if line.startswith("== echo")], [])

    def test_processors(self):
        """How many each kind may take."""
        for sign, count in (("", len(os.sched_getaffinity(0))), ("& ", len(os.sched_getaffinity(0))), ("| ", 1)):
            self.assertEqual(self.ran(f"{sign}nproc")[1][1], str(count), sign)

    def test_who_goes_first(self):
        """What is run beside others isn't late by them."""
        for sign, niceness in (("", "19"), ("& ", "5"), ("| ", "0")):
            self.assertEqual(self.ran(f"{sign}nice")[1][1], niceness, sign)

    def test_paragraphs(self):
        """Each begins when the one before has ended, and comments are none of them."""
        slow = self.part("slow", "sleep 0.5")
        status, said, _ = self.ran(f"| {slow}", "", "# two", "echo two", "", "", "| echo three")
        self.assertEqual(
            (status, said[:6]), (0, [f"== {slow}", "== echo two", "two", "== echo three", "three", MINUTES])
        )

    def test_quick(self):
        lines = ("echo one", "-  echo two", "|- echo four", "&- echo five")
        self.assertEqual(self.ran(*lines, words=["--quick"])[1][:3], ["== echo one", "one", MINUTES])
        self.assertEqual(len(self.ran(*lines)[1]), 6 + 9)

    def test_words(self):
        self.assertEqual(self.ran("echo one", "echo two", words=["two"])[1][:2], ["== echo two", "two"])
        self.assertEqual(self.ran("echo one", words=["three"])[0], 1)
        self.assertEqual(self.ran("echo one", words=["--frob"])[0], 2)
        self.assertEqual(self.ran("echo one", words=["--help"])[0], 0)

    def test_processors_are_counted(self):
        """Of what a part starts too."""
        busy = f"{sys.executable} -c 'import time\nwhile time.process_time() < 0.5: pass'; true"
        ended = runpy.run_path(str(CHECKS / "run_tests"))["run"](["sh", "-c", busy], subprocess.DEVNULL)
        self.assertEqual((ended.status, 0.5 < ended.used < 30), (0, True), ended)

    def test_each_part_is_there(self):
        """Each check and test is a part, or belongs to one, and each part can be run."""
        lines = (CHECKS / "test_parts.txt").read_text()
        made = (TOP / "Makefile").read_text()
        for path in sorted([*CHECKS.glob("check_*"), *TESTS.glob("test_*.py")]):
            if os.access(path, os.X_OK):
                is_part = re.search(
                    rf"^(?:\t|[|& -]+)?{re.escape(path.relative_to(TOP).as_posix())}\b", lines + made, re.M
                )
                self.assertTrue(is_part, f"{path.name} is no part of make test")
        for line in [line.lstrip("|&- ") for line in lines.splitlines()]:
            if line.startswith(("checks/", "tests/")):
                self.assertTrue(os.access(TOP / line.split()[0], os.X_OK), line)


if __name__ == "__main__":
    unittest.main()
