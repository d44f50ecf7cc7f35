"""Wrong versions of what a check looks at: a check that lets one pass checks nothing.

A check tries its own by all_seen. Those of the tools stand in lists, such as tests/wrong/gate_mutations.py, which
try_all goes through.
"""
import argparse
import collections
import concurrent.futures
import importlib
import os
import pathlib
import sys
import time
import unittest
from typing import NamedTuple

import passed_over
import wrong_copies

TOP = wrong_copies.TOP
AS_IT_IS = ("MISSED", "skipped")  # what tests say where nothing is wrong
TOGETHER = 8  # tests of a class that are run together on what is there
EACH = 2  # versions that are tried at once, for each processor: some of them wait for what doesn't come


def exchanged(text, old, new):
    """The text with a piece of it exchanged, which stands there."""
    if old not in text:
        sys.exit(f"a wrong version wants {old!r}, which isn't there")
    return text.replace(old, new, 1)


def all_seen(check, versions):
    """Tries a check on wrong versions by name, each with a call that says whether it was seen. Ends the check where
    one wasn't."""
    unseen = [name for name, is_seen in versions.items() if not is_seen()]
    if unseen:
        sys.exit(f"{check}: not seen: {'; '.join(unseen)}\n0 passed, {len(unseen)} failed")
    print(f"{check}: {len(versions)} wrong versions were seen", flush=True)


class Version(NamedTuple):
    """A line of a list."""

    name: str
    file: str  # from the top of the repository
    text: str  # which stands there once
    instead: str
    tests: str  # a file of tests/
    test: str  # of that file, which has to fail
    missing: str = ""  # why it can't be tried here

    def fault(self):
        """What of it is stale, or nothing."""
        count, loader = (TOP / self.file).read_text().count(self.text), unittest.TestLoader()
        try:
            loader.loadTestsFromName(self.test, importlib.import_module(self.tests.removesuffix(".py")))
            is_there = not loader.errors
        except TypeError:  # a name that is none of a test
            is_there = False
        return "; ".join(
            [f"its text stands {count} times in {self.file}"] * (count != 1)
            + [f"there is no test {self.test}"] * (not is_there)
        )

    def tried(self, more):
        """The verdict of its test, and what that said."""
        if self.missing:
            return "skipped", ""
        return wrong_copies.tried(
            self.tests,
            [self.test],
            more,
            (self.file, exchanged((TOP / self.file).read_text(), self.text, self.instead)),
        )


class List:
    """Wrong versions that are tried, several at once. Their tests, and not those of what is there, meet more
    variables."""

    def __init__(self, tool, versions, more):
        self.tool, self.versions, self.more = tool, versions, more

    def stale(self, is_told):
        """How many can't be tried. These are told, or all."""
        faults = [version.fault() for version in self.versions]
        for version, fault in zip(self.versions, faults):
            if fault or is_told:
                print(f"{version.name}: {fault or 'can be tried'}")
        return len(faults) - faults.count("")

    def pass_over(self, reasons):
        for why, count in collections.Counter(reasons).items():
            passed_over.note(f"{self.tool}, {count} wrong versions", why)

    def groups(self):
        """The tests, each group with its file: some of a class, which are run together."""
        classes = collections.defaultdict(dict)
        for version in self.versions:
            if not version.missing:
                classes[version.tests, version.test.partition(".")[0]][version.test] = True
        for (file, _), tests in classes.items():
            yield from ((file, [*tests][at : at + TOGETHER]) for at in range(0, len(tests), TOGETHER))

    @staticmethod
    def whole(group):
        """The verdict of tests on what is there. What fails is run once more, as a busy machine may be late."""
        found = wrong_copies.tried(*group, {})
        return found if found[0] in AS_IT_IS else wrong_copies.tried(*group, {})

    def check_whole(self, groups, runs):
        """Ends it where a test fails on what is there."""
        for (file, tests), (found, said) in zip(groups, runs):
            if found not in AS_IT_IS:
                name = tests[0].partition(".")[0]
                sys.exit(f"{said}{self.tool}: {name} of {file} fails on what is there as it is")

    def told(self, runs):
        """The verdicts in the order of the list, told one by one."""
        for version, (found, said) in zip(self.versions, runs):
            print(f"{version.name}: {found}\n{said if found == 'BROKEN' else ''}", end="", flush=True)
            yield version, found

    def tried(self, at_once):
        """What wasn't seen."""
        self.pass_over(version.missing for version in self.versions if version.missing)
        began = time.monotonic()
        with concurrent.futures.ThreadPoolExecutor(at_once) as pool:
            try:
                groups = [*self.groups()]
                whole = pool.map(self.whole, groups)
                runs = pool.map(lambda version: version.tried(self.more), self.versions)
                self.check_whole(groups, whole)
                verdicts = list(self.told(runs))
            except BaseException:  # nobody waits for those that have begun; the others don't begin
                pool.shutdown(wait=False, cancel_futures=True)
                wrong_copies.end_all()
                raise
        seen = sum(found == "seen" for _, found in verdicts)
        print(
            f"{self.tool}: {seen} of {len(verdicts)} wrong versions were seen, in "
            f"{(time.monotonic() - began) / 60:.1f} minutes, {at_once} at once",
            flush=True,
        )
        self.pass_over(
            "their tests were skipped" for version, found in verdicts if found == "skipped" and not version.missing
        )
        return [version.name for version, found in verdicts if found in ("MISSED", "BROKEN")]


def at_least_one(word):
    if int(word) < 1:
        raise ValueError
    return int(word)


def try_all(about, versions, more=None):
    """What a list does, by the words of its command line."""
    asked, tool = (
        argparse.ArgumentParser(description=about, formatter_class=argparse.RawDescriptionHelpFormatter),
        pathlib.Path(sys.argv[0]).stem,
    )
    asked.add_argument(
        "words", metavar="WORD", nargs="*", help="tried is what has one of them in its name; without any, all"
    )
    asked.add_argument(
        "--list",
        action="store_true",
        help="name them, and say which text doesn't stand once in its file, or which test there isn't",
    )
    asked.add_argument(
        "--at-once",
        type=at_least_one,
        default=EACH * len(os.sched_getaffinity(0)),
        metavar="N",
        help="how many are tried at once [%(default)s]",
    )
    given = asked.parse_args()
    wanted = List(
        tool,
        [version for version in versions if not given.words or any(word in version.name for word in given.words)],
        more or {},
    )
    if not wanted.versions:
        sys.exit(f"{tool}: none has one of these words in its name")
    stale = wanted.stale(given.list)
    if stale or given.list:
        sys.exit(f"{tool}: {stale} of {len(wanted.versions)} can't be tried" if stale else 0)
    try:
        unseen = wanted.tried(given.at_once)
    except KeyboardInterrupt:
        sys.exit(130)
    sys.exit(f"{tool}: not seen: {'; '.join(unseen)}" if unseen else 0)
