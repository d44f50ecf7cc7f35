"""What the documents show of framedbg-driver: each command of docs/DRIVERS.md, its tables, the man page and the
completions."""
import contextlib
import io
import os
import pathlib
import re
import subprocess
import sys
import tempfile
import unittest
from unittest import mock

import folders
from folders import TOOLS, TOP as ROOT

from driver_testing import FOUND, PROGRAM, environment, missing

from driving import command_line, features, plants
from driving.kinds import Kind

PAGE = (ROOT / "docs/DRIVERS.md").read_text()
BLOCK = re.compile(r"^```text\n(\$ .*?)^```$", re.M | re.S)
COMMANDS = ("draw", "compare", "try", "reduce", "rules")
# what is another on each machine and at each time
VARYING = [
    (r"\d+(\.\d)? s\b", "S s"),
    (r"Mesa [\d.]+\S*", "Mesa"),
    (r"\(LLVM .*?\)", "(LLVM)"),
    (r"^(softpipe|llvmpipe \(LLVM\)), \d\.\d ", r"\1, "),
    (r"(driver  (?:softpipe|llvmpipe \(LLVM\))), \d\.\d ", r"\1, "),
    (r"\d+ captures tried", "N captures tried"),
]


def settled(lines):
    """Lines without what varies."""
    for pattern, instead in VARYING:
        lines = [re.sub(pattern, instead, line) for line in lines]
    return lines


def helped(*words):
    """What --help says, a line an option."""
    told = io.StringIO()
    with mock.patch.dict(os.environ, COLUMNS="400"), contextlib.redirect_stdout(told), contextlib.suppress(SystemExit):
        command_line.words([*words, "--help"])
    return told.getvalue()


def options():
    """(an option, what --help says of it, the command) of each."""
    for command in COMMANDS:
        for option, text in re.findall(r"^  (--[\w-]+)\b.*?\s{2,}(\S.*)$", helped(command), re.M):
            yield option, " ".join(text.split()), command


@unittest.skipIf(missing(), missing())
class Replayed(unittest.TestCase):
    """The page's commands, typed one after the other in a user's folder."""

    def setUp(self):
        self.room = pathlib.Path(self.enterContext(tempfile.TemporaryDirectory()))
        (self.room / "bin").mkdir()
        for name, what in (
            ("framedbg", PROGRAM),
            ("framedbg-driver", TOOLS / "framedbg-driver"),
            ("framedbg-blame", TOOLS / "framedbg-blame"),
            ("python3", sys.executable),
        ):
            (self.room / "bin" / name).symlink_to(what)
        (self.room / "examples").symlink_to(ROOT / "examples")
        self.environment = environment("llvmpipe", PATH=f"{self.room / 'bin'}:{os.environ['PATH']}", FRAMEDBG=PROGRAM)

    def typed(self, command):
        ran = subprocess.run(
            ["bash", "-c", command],
            cwd=self.room,
            env=self.environment,
            capture_output=True,
            text=True,
            timeout=300,
            check=False,
        )
        return (ran.stdout + ran.stderr).splitlines()

    def test_each_command(self):
        count = 0
        for block in BLOCK.findall(PAGE):
            for part in re.split(r"^\$ ", block, flags=re.M)[1:]:
                command, _, lines = part.partition("\n")
                count += 1
                if command.startswith("export "):
                    self.environment |= dict(word.split("=") for word in command.split()[1:])
                else:
                    self.assertEqual(settled(self.typed(command)), settled(lines.splitlines()), command)
        self.assertGreaterEqual(count, 7)


class Pages(unittest.TestCase):
    def test_kinds(self):
        """The page's table has each kind."""
        rows = re.findall(r"^\| ([a-z][a-z0-9 ,]+) \| .* \| (yes|no) \|$", PAGE, re.M)
        told = {kind: is_rounding == "yes" for row, is_rounding in rows for kind in row.split(", ")}
        self.assertEqual(told, {kind.value: kind.is_rounding for kind in Kind})

    def test_what_was_found(self):
        """Each capture has a row, and each row a capture."""
        rows = re.findall(r"^\| `(\w+\.json)` \| (.*) \| (Mesa|Wine) \d", PAGE, re.M)
        self.assertEqual(sorted(row[0] for row in rows), sorted(path.name for path in FOUND.iterdir()))

    def test_counts(self):
        self.assertIn(f"without `--only` there are {len(features.FEATURES)}.", PAGE)

    def test_words(self):
        """The page has each option at its command, or among those of all."""
        rows = dict(re.findall(r"^\| `(draw|compare|try|reduce|rules)[A-Z ]*` \| (.*) \|$", PAGE, re.M))
        shared = PAGE.partition("All but `rules` take `--api`")[2]
        for option, _, command in options():
            self.assertTrue(
                f"`{option}" in rows[command]
                or option in shared
                or option in ("--api", "--plant", "--program", "--help"),
                (option, command),
            )

    def test_statuses(self):
        """--help, the page and the man page say the same of them."""
        said = dict(
            re.findall(
                r"(\d+) (.*?)(?=, \d+ |$)",
                " ".join(command_line.__doc__.split()).partition("Statuses: ")[2].rstrip("."),
            )
        )
        self.assertEqual(said, dict(re.findall(r"^\.B (\d+)\n(.+)$", self.man(), re.M)))
        told = dict(re.findall(r"^\| (\d+) \| ([^;|]+?)(?:;.*)? \|$", PAGE, re.M))
        self.assertEqual(said, told)

    def test_the_man_page(self):
        flat = " ".join(re.sub(r"^\.\w+ ?", "", self.man(), flags=re.M).replace('"', "").split())
        for option, text, _ in options():
            self.assertEqual(
                [some for some in (f"{option} ", text) if some not in flat], [], "the man page leaves these out"
            )
        known = {option for option, _, _ in options()} | {"--help"}
        self.assertEqual(set(re.findall(r"(?<![\w-])--[a-z][a-z-]*", self.man())), known)
        version = re.compile(r'^\.TH \S+ 1 "" "(framedbg [\d.]+)"', re.M)
        self.assertEqual(version.search(self.man())[1], version.search((ROOT / "share/framedbg.1").read_text())[1])

    def man(self):
        return (ROOT / "share/framedbg-driver.1").read_text().replace("\\-", "-").replace("\\e", "\\")

    def test_completions(self):
        wanted = {option for option, _, _ in options()} | {"--help"}
        for name in ("framedbg-driver.bash", "_framedbg-driver", "framedbg-driver.fish"):
            text = (ROOT / "share" / name).read_text()
            named = set(re.findall(r"(?<![\w-])--([a-z][a-z-]*)", text)) | set(re.findall(r" -l ([a-z-]+)", text))
            self.assertEqual({f"--{option}" for option in named}, wanted, name)
            self.assertTrue(all(re.search(rf"\b{command}\b", text) for command in COMMANDS), name)
            self.assertIn(" ".join(sorted(command_line.KINDS)), text, name)

    def test_bash_completes(self):
        for line, wanted in (
            ("co", "compare"),
            ("try --sc", "--scenes --scene"),
            ("draw --ea", "--each"),
            ("reduce --ki", "--kind"),
            ("try --api v", "vulkan"),
        ):
            words = ["framedbg-driver", *line.split()]
            script = (
                f'source {ROOT / "share/framedbg-driver.bash"}; COMP_WORDS=({" ".join(words)}); '
                f'COMP_CWORD={len(words) - 1}; _framedbg_driver; '
                'echo "${COMPREPLY[*]}"'
            )
            self.assertEqual(
                subprocess.run(["bash", "-c", script], capture_output=True, text=True, check=True).stdout,
                f"{wanted}\n",
                line,
            )

    def test_plants(self):
        """Those that the page shows are there."""
        for plant in re.findall(r"--plant '([^']+)'", PAGE):
            self.assertIn(plant, plants.PLANTS)


if __name__ == "__main__":
    unittest.main()
