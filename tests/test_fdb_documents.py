"""The sessions of fdb that the documents show, typed at a terminal without colours; what they count; the man page
and the completions."""
import contextlib
import io
import re
import subprocess
import unittest

import folders

from fdb_testing import EXAMPLES, HUNTS, PROGRAM, ROOT, Terminal, launched

from debugger import command_line
from debugger.words import OWN, WORDS

SHOWN = re.compile(r"^```text\n\$ fdb (\S+)\n(.*?)^```$", re.M | re.S)
PROMPT = re.compile(r"^\(\d+/\d+\) (.*)$")


def sessions():
    for page in sorted((ROOT / "docs").glob("*.md")):
        for capture, block in SHOWN.findall(page.read_text()):
            yield page.name, capture, block


def typed(block):
    return [line[1] for line in map(PROMPT.match, block.splitlines()) if line]


class Sessions(unittest.TestCase):
    def test_each(self):
        pages = set()
        for page, capture, block in sessions():
            pages.add(page)
            with Terminal(ROOT / capture, size=(24, 200), NO_COLOR="1") as terminal:
                shown = terminal.until(re.compile(r"\(\d+/\d+\) $"))
                for line in typed(block):
                    terminal.type(line + "\n")
                    shown += terminal.until("\n")
                    if line != "q":
                        shown += terminal.until(re.compile(r"\(\d+/\d+\) $"))
                self.assertEqual(terminal.ended(), 0, page)
            self.assertEqual(shown.replace("\r", ""), block, page)
        self.assertEqual(pages, {"GUIDE.md", "HUNTS.md"})


class Counts(unittest.TestCase):
    """docs/HUNTS.md says how many lines each hunt takes in a plain session and in fdb."""

    def lines(self, path):
        return [
            line
            for line in path.read_text().splitlines()
            if not line.startswith(("#", "expect")) and line not in ("quit", "q")
        ]

    def test_lines(self):
        page = (ROOT / "docs/HUNTS.md").read_text()
        told = {
            name: (int(plain), int(ours))
            for name, plain, ours in re.findall(r"^\| `(\w+)` \| (\d+) \| (\d+) \|$", page, re.M)
        }
        names = ["house", *(path.stem.removesuffix("_find") for path in HUNTS.glob("*_find.session"))]
        self.assertEqual(sorted(told), sorted(names))
        for name in names:
            start = (EXAMPLES if name == "house" else HUNTS) / f"{name}_find"
            counted = len(self.lines(start.with_suffix(".session"))), len(self.lines(start.with_suffix(".fdb")))
            self.assertEqual(told[name], counted, name)
            self.assertLess(counted[1], counted[0], name)


class Pages(unittest.TestCase):
    def test_man_page(self):
        page = (ROOT / "share/fdb.1").read_text().replace("\\-", "-").replace("\\&", "").replace("\\e", "\\")
        flat = " ".join(re.sub(r"^\.\w+ ?", "", page, flags=re.M).replace('"', "").split())
        wanted = [text for word in WORDS.listed for text in (word.usage, word.short, word.long, *word.also)]
        self.assertEqual(
            [text for text in [*wanted, *OWN, *options()] if " ".join(text.split()) not in flat],
            [],
            "share/fdb.1 leaves these out",
        )
        version = re.compile(r'^\.TH \w+ 1 "" "(framedbg [\d.]+)"', re.M)
        self.assertEqual(version.search(page)[1], version.search((ROOT / "share/framedbg.1").read_text())[1])

    def test_two_captures(self):
        """What the man page shows of --diff."""
        shown = re.search(r"^  \$ fdb \\-\\-diff (\S+) (\S+)\n((?:  .*\n)+)", (ROOT / "share/fdb.1").read_text(), re.M)
        self.assertEqual(
            launched("--diff", HUNTS / shown[1], HUNTS / shown[2], "--program", PROGRAM)[:2],
            (1, re.sub("^  ", "", shown[3], flags=re.M)),
        )

    def test_completions(self):
        for name in ("fdb.bash", "_fdb", "fdb.fish"):
            text = (ROOT / "share" / name).read_text()
            named = {f"--{option}" for option in re.findall(r"(?<![\w-])--(\w+)", text)} | {
                f"--{option}" for option in re.findall(r" -l (\w+)", text)
            }
            self.assertEqual(named, {option for option in options() if option.startswith("--")}, name)
            self.assertTrue("-x" in text or "-s x" in text, name)

    def test_bash_completes(self):
        script = (
            f'source {ROOT / "share/fdb.bash"}; COMP_WORDS=(fdb --b); COMP_CWORD=1; _fdb; echo "${{COMPREPLY[*]}}"; '
            'COMP_WORDS=(fdb --workers 6); COMP_CWORD=2; _fdb; echo "${COMPREPLY[*]}"'
        )
        self.assertEqual(
            subprocess.run(["bash", "-c", script], capture_output=True, text=True, check=True).stdout, "--batch\n64\n"
        )


def options():
    told = io.StringIO()
    with contextlib.redirect_stdout(told), contextlib.suppress(SystemExit):
        command_line.words(["--help"])
    return set(re.findall(r"(?<![\w-])(--?\w+)", told.getvalue().partition("options:")[2])) | {"--help"}


if __name__ == "__main__":
    unittest.main()
