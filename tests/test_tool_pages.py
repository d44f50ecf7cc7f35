#!/usr/bin/env python3
"""test_tool_pages: the man pages and completions of the viewer and of explain say what their --help says, and each
tool that is installed with a page has both.

    tests/test_tool_pages.py [TEST ..]
"""
import importlib.machinery
import importlib.util
import os
import re
import subprocess
import sys
import unittest
from unittest import mock

import folders

from folders import TOOLS, TOP

SHARE = TOP / "share"
TOLD = {
    "framedbg-view": ("view", "CAPTURE"),
    "framedbg-explain": ("explain", "CAPTURE"),
}  # by the installed name: the tool, and its word
VERSION = re.compile(r'^\.TH \S+ 1 "" "(framedbg [\d.]+)"', re.M)


def help_of(tool):
    """(an option or the word, what --help says of it)."""
    told = subprocess.run(
        [sys.executable, TOOLS / tool, "--help"],
        capture_output=True,
        text=True,
        check=True,
        env=os.environ | {"COLUMNS": "300"},
    ).stdout
    rows = re.findall(r"^  (--?[\w-]+|[A-Z]+)\b.*?\s{2,}(\S.*)$", told, re.M)
    return [(option, " ".join(text.split())) for option, text in rows if not option.startswith("-h")]


def page(name):
    return (SHARE / f"{name}.1").read_text().replace("\\-", "-").replace("\\&", "")


def installed():
    loader = importlib.machinery.SourceFileLoader("install", str(TOP / "build/install"))
    module = importlib.util.module_from_spec(importlib.util.spec_from_loader("install", loader))
    sys.path.insert(0, str(TOP / "build"))
    loader.exec_module(module)
    return module


class Pages(unittest.TestCase):
    def test_man_pages(self):
        for name, (tool, _) in TOLD.items():
            flat = " ".join(re.sub(r"^\.\w+ ?", "", page(name), flags=re.M).replace('"', "").split())
            self.assertEqual(
                [text for row in help_of(tool) for text in row if text not in flat],
                [],
                f"share/{name}.1 leaves these out",
            )
            self.assertEqual(
                set(re.findall(r"(?<![\w-])--[a-z-]+", flat)),
                {option for option, _ in help_of(tool) if option.startswith("--")} | {"--help"},
            )
            self.assertEqual(VERSION.search(page(name))[1], VERSION.search(page("framedbg"))[1])

    def test_what_a_failure_says(self):
        """A page that leaves all out is told in lines that can be read."""
        with mock.patch.object(sys.modules[__name__], "page", lambda _: ".TH A\n"):
            result = unittest.TestResult()
            Pages("test_man_pages").run(result)
        [(_, said)] = result.failures
        self.assertIn("share/framedbg-view.1 leaves these out", said)
        self.assertLess(max(map(len, said.splitlines())), 200)

    def test_completions(self):
        for name, (tool, _) in TOLD.items():
            wanted = {option for option, _ in help_of(tool) if option.startswith("--")} | {"--help"}
            for file in (f"{name}.bash", f"_{name}", f"{name}.fish"):
                text = (SHARE / file).read_text()
                named = set(re.findall(r"(?<![\w-])(--[a-z-]+)", text)) | {
                    f"--{option}" for option in re.findall(r" -l ([\w-]+)", text)
                }
                self.assertEqual(named, wanted, file)

    def test_bash_completes(self):
        for name, function, typed, completed in (
            ("framedbg-view", "_framedbg_view", "--po", "--port"),
            ("framedbg-explain", "_framedbg_explain", "--he", "--help"),
        ):
            script = (
                f'source {SHARE / name}.bash; COMP_WORDS=({name} {typed}); COMP_CWORD=1; {function}; echo '
                f'"${{COMPREPLY[*]}}"'
            )
            self.assertEqual(
                subprocess.run(["bash", "-c", script], capture_output=True, text=True, check=True).stdout,
                f"{completed}\n",
            )

    def test_each_page_is_installed(self):
        """Of each man page of share/ that and three completions."""
        places = set(installed().wanted())
        for path in SHARE.glob("*.1"):
            name = path.stem
            self.assertEqual(
                {
                    f"share/man/man1/{name}.1",
                    f"share/bash-completion/completions/{name}",
                    f"share/zsh/site-functions/_{name}",
                    f"share/fish/vendor_completions.d/{name}.fish",
                }
                - places,
                set(),
                name,
            )


class Made(unittest.TestCase):
    def test_help(self):
        """`make help` tells each target for users, and runs nothing else."""
        told = subprocess.run(
            ["make", "--no-print-directory", "help"], cwd=TOP, capture_output=True, text=True, check=True
        ).stdout
        named = set(re.findall(r"^make ([\w-]+)  ", told, re.M))
        self.assertTrue({"try", "demo", "view", "page", "release", "test", "bench", "install", "help"} <= named, named)
        self.assertEqual(
            named - set(re.findall(r"^\.PHONY: (.*)$", (TOP / "Makefile").read_text(), re.M)[0].split()), set()
        )


if __name__ == "__main__":
    unittest.main()
