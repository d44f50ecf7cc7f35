#!/usr/bin/env python3
"""test_browser: a browser of the tests starts where one of its tries doesn't, and says why where none does.

    tests/test_browser.py [TEST ..]
"""
import os
import pathlib
import shutil
import tempfile
import unittest
from unittest import mock

import folders

import browser
import passed_over

# Notes each of its starts, and ends at the first ones as a driver does that finds its port taken
LATE = """#!/bin/sh
echo >> "{here}/starts"
[ "$(wc -l < "{here}/starts")" -gt {late} ] || {{ echo "no port is free" >&2; exit 1; }}
exec "{program}" "$@"
"""


@unittest.skipUnless(
    browser.is_installed() and browser.Firefox.installed(), "no Chromium with chromedriver, or no Firefox"
)
class Starts(unittest.TestCase):
    def setUp(self):
        folder = tempfile.TemporaryDirectory()
        self.addCleanup(folder.cleanup)
        self.here = pathlib.Path(folder.name)

    def starts(self, kind, name, late):
        """How often it had to be started until a page was shown."""
        file = self.here / name
        file.write_text(LATE.format(here=self.here, program=shutil.which(name), late=late))
        file.chmod(0o755)
        try:
            with mock.patch.dict(os.environ, PATH=f"{self.here}:{os.environ['PATH']}"):
                started = kind()
            self.addCleanup(started.close)
            started.open("about:blank")
            self.assertEqual(started.run("return location.href"), "about:blank")
        finally:
            self.count = len((self.here / "starts").read_text().splitlines())
        return self.count

    def test_chromium(self):
        self.assertEqual(self.starts(browser.Browser, "chromedriver", 2), 3)

    def test_none_starts(self):
        with self.assertRaisesRegex(AssertionError, "chromedriver ended: no port is free"):
            self.starts(browser.Browser, "chromedriver", 99)
        self.assertEqual(self.count, browser.Browser.TRIES)


if __name__ == "__main__":
    passed_over.run_tests("test_browser")
