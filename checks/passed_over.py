#!/usr/bin/env python3
"""passed_over: what checks pass over because something isn't there, so that nobody takes it for checked.

    checks/passed_over.py WHAT WHY     a check says what it passes over; with CI=true in the environment that is a
    failure
    checks/passed_over.py --begin      forgets what was passed over
    checks/passed_over.py --list       says what was passed over since then
"""
import collections
import os
import pathlib
import sys
import unittest

NOTED = pathlib.Path(__file__).resolve().parent.parent / "out/passed_over"


def is_failure():
    return os.environ.get("CI") == "true"


def note(what, why):
    """Says what is passed over, and keeps it for the list. With CI=true the check ends here."""
    line = f"{what}: {why}"
    if is_failure():
        sys.exit(f"passed over, which is a failure where CI=true: {line}")
    print(f"passed over: {line}", flush=True)
    NOTED.parent.mkdir(exist_ok=True)
    with open(NOTED, "a") as file:
        file.write(f"{line}\n")


class Result(unittest.TextTestResult):
    """Counts the tests that passed: those that were skipped did not run."""

    passed = 0

    def addSuccess(self, test):
        super().addSuccess(test)
        self.passed += 1


class Runner(unittest.TextTestRunner):
    resultclass = Result


def run_tests(what):
    """Runs the tests that the words name, or all of this program's, says how many ran, and notes those that were
    skipped."""
    ran = unittest.main(module="__main__", exit=False, testRunner=Runner).result
    print(
        f"{what}: {ran.passed + len(ran.failures) + len(ran.errors)} tests ran, {len(ran.skipped)} didn't", flush=True
    )
    for why, count in collections.Counter(why for _, why in ran.skipped).items():
        note(f"{what}, {count} tests", why)
    sys.exit(not ran.wasSuccessful())


def listed():
    lines = NOTED.read_text().splitlines() if NOTED.exists() else []
    print(f"{len(lines)} passed over" if lines else "nothing was passed over")
    for line in lines:
        print(f"  {line}")


def main():
    match sys.argv[1:]:
        case ["--begin"]:
            NOTED.unlink(missing_ok=True)
        case ["--list"]:
            listed()
        case [what, why]:
            note(what, why)
        case _:
            print(__doc__.rstrip())
            sys.exit(sys.argv[1:] not in (["--help"], ["-h"]))


if __name__ == "__main__":
    main()
