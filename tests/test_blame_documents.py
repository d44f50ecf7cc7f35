"""What the documents show of blame: each command of docs/BLAME.md, what docs/HUNTS.md says of each hunt, the man
pages and the completions."""
import contextlib
import io
import json
import os
import pathlib
import re
import subprocess
import sys
import tempfile
import unittest

import folders

import slurm_testing
from blame_testing import HUNTS, NAMES, PROGRAM, ROOT, TOOLS, Folder, hunt_picture, value_of

from blaming import command_line
from blaming.kinds import KINDS
from nights import command_line as night_words

BLOCK = re.compile(r"^(<!-- on Slurm -->\n)?```text\n(\$ .*?)^```$", re.M | re.S)
PAGE = (ROOT / "docs/BLAME.md").read_text()


def commands(block):
    """(command, the lines that it says) of each in a block."""
    return [
        (part.partition("\n")[0], part.partition("\n")[2].splitlines())
        for part in re.split(r"^\$ ", block, flags=re.M)[1:]
    ]


class Replayed(unittest.TestCase):
    """A user's folder, in which the commands are typed one after the other."""

    def setUp(self):
        self.room = pathlib.Path(self.enterContext(tempfile.TemporaryDirectory()))
        (self.room / "bin").mkdir()
        for name, what in (
            ("framedbg", PROGRAM),
            ("framedbg-blame", TOOLS / "framedbg-blame"),
            ("framedbg-night", TOOLS / "framedbg-night"),
            ("python3", sys.executable),
        ):
            (self.room / "bin" / name).symlink_to(what)
        (self.room / "examples").symlink_to(ROOT / "examples")
        self.environment = {**os.environ, "PATH": f"{self.room / 'bin'}:{os.environ['PATH']}"}

    def typed(self, command):
        ran = subprocess.run(
            ["bash", "-c", command],
            cwd=self.room,
            env=self.environment,
            capture_output=True,
            text=True,
            timeout=300,
            check=False,
        )
        self.assertEqual(ran.stderr, "", command)
        return ran.stdout.splitlines()

    def replay(self, on_slurm):
        count = 0
        for slurm, block in BLOCK.findall(PAGE):
            for command, lines in commands(block):
                if not slurm or on_slurm:
                    count += 1
                    self.assertEqual(self.typed(command), lines, command)
        return count

    def test_each_command(self):
        self.assertGreaterEqual(self.replay(False), 10)

    @unittest.skipIf(slurm_testing.missing(), slurm_testing.missing())
    def test_the_night_on_a_cluster(self):
        room = self.enterContext(tempfile.TemporaryDirectory(prefix="slurm-"))
        self.environment["SLURM_CONF"] = self.enterContext(slurm_testing.Slurm(room)).environment["SLURM_CONF"]
        self.assertGreaterEqual(self.replay(True), 11)


class HuntsTold(Folder):
    def test_what_blame_says(self):
        rows = re.findall(
            r"^\| `(\w+)` \| ([\d,]+) \| (\d+) \| (.+?) \| (\d+) \|$", (ROOT / "docs/HUNTS.md").read_text(), re.M
        )
        self.assertEqual([row[0] for row in rows], list(NAMES))
        for name, differ, event, change, left in rows:
            value = value_of(self.found(json.loads((HUNTS / f"{name}.json").read_text()), hunt_picture(name)))
            best = value["changes"][0]
            self.assertEqual(
                (
                    f"{value['differ']:,}",
                    str(value["suspects"][0]["event"]),
                    f"event {best['event']}, {best['change']}",
                    str(best["differ"]),
                ),
                (differ, event, change, left),
                name,
            )


class Pages(unittest.TestCase):
    tools = (("framedbg-blame", command_line), ("framedbg-night", night_words))

    def test_kinds(self):
        """The page has each kind of the table, in its order."""
        rows = re.findall(r"^\| ([a-z][a-z ]+) \| [^|]+ \|$", PAGE.partition("| Kind | What is changed |")[2], re.M)
        self.assertEqual(sorted(rows), sorted(kind.name for kind in KINDS))

    def test_the_readme(self):
        """What its first screen shows of blame is what the page's first session has of these lines, which is
        replayed."""
        shown = re.search(
            r"\| grep -E '\^\(who\|mends\|sure\)'\n(.*?)^```", (ROOT / "README.md").read_text(), re.M | re.S
        )[1]
        session = PAGE.partition("$ framedbg-blame examples/hunts/chain.json wanted.pam")[2].partition("```")[0]
        self.assertEqual(shown.splitlines(), re.findall(r"^(?:who|mends|sure) .*$", session, re.M))

    def test_statuses(self):
        """--help, the page and the man page say the same of them."""
        cells = {status: row for status, *row in re.findall(r"^\| (\d) \| ([^|]+) \| ([^|]+) \|$", PAGE, re.M)}
        for column, (tool, words) in enumerate(self.tools):
            said = dict(
                re.findall(
                    r"(\d+) (.*?)(?=, \d+ |$)", " ".join(words.__doc__.split()).partition("Statuses: ")[2].rstrip(".")
                )
            )
            self.assertEqual(said, dict(re.findall(r"^\.B (\d+)\n(.+)$", self.man(tool), re.M)))
            for status, what in said.items():
                if status not in ("5", "130"):
                    self.assertEqual(cells[status][column].replace("the same", cells[status][0]), what, (tool, status))

    def test_man_pages(self):
        for tool, words in self.tools:
            flat = " ".join(re.sub(r"^\.\w+ ?", "", self.man(tool), flags=re.M).replace('"', "").split())
            wanted = [some for option, text in options(words) for some in (f"{option} ", text)]
            self.assertEqual([text for text in wanted if text not in flat], [], f"share/{tool}.1 leaves these out")
            version = re.compile(r'^\.TH \S+ 1 "" "(framedbg [\d.]+)"', re.M)
            self.assertEqual(version.search(self.man(tool))[1], version.search(self.man("framedbg"))[1])

    def man(self, tool):
        return (ROOT / f"share/{tool}.1").read_text().replace("\\-", "-").replace("\\&", "").replace("\\e", "\\")

    def test_completions(self):
        for tool, words in self.tools:
            wanted = {option for option, _ in options(words) if option.startswith("--")} | {"--help"}
            for name in (f"{tool}.bash", f"_{tool}", f"{tool}.fish"):
                text = (ROOT / "share" / name).read_text()
                named = set(re.findall(r"(?<![\w-])(--[a-z-]+)", text)) | {
                    f"--{option}" for option in re.findall(r" -l ([\w-]+)", text)
                }
                self.assertEqual(named, wanted, name)

    def test_bash_completes(self):
        for tool, function in (("framedbg-blame", "_framedbg_blame"), ("framedbg-night", "_framedbg_night")):
            script = (
                f'source {ROOT / "share" / tool}.bash; COMP_WORDS=({tool} --to); COMP_CWORD=1; {function}; echo '
                f'"${{COMPREPLY[*]}}"; '
                f'COMP_WORDS=({tool} --processes 6); COMP_CWORD=2; {function}; echo "${{COMPREPLY[*]}}"'
            )
            self.assertEqual(
                subprocess.run(["bash", "-c", script], capture_output=True, text=True, check=True).stdout,
                "--tolerance\n64\n",
            )


def options(words):
    """(an option or a word, what --help says of it)."""
    told = io.StringIO()
    with contextlib.redirect_stdout(told), contextlib.suppress(SystemExit):
        os.environ["COLUMNS"] = "300"
        words.words(["--help"])
    rows = re.findall(r"^  (--?[\w-]+|[A-Z]+)\b.*?\s{2,}(\S.*)$", told.getvalue(), re.M)
    return [(option, " ".join(text.split())) for option, text in rows if not option.startswith("-h")]


if __name__ == "__main__":
    unittest.main()
