"""fdb without a terminal: its scripts, its statuses, and lines by chance."""
import contextlib
import io
import json
import os
import random
import subprocess
import sys
import unittest

import folders

from fdb_testing import EXAMPLES, FDB, HOUSE, HUNTS, PROGRAM, STEPS, Folder, batch, launched, stand_in

from debugger import command_line
from debugger.faults import Failed, Slip
from debugger.frame import DebuggedFrame
from debugger.screen import Screen
from debugger.session import Session
from debugger.telling import PLAIN
from debugger.words import WORDS
from framedbg_client import Client


class Scripts(Folder):
    def ran(self, text, *words):
        return batch(self.steps(), [], "-x", str(self.written("a.fdb", text)), *words)

    def test_expectations(self):
        for text in (
            "p 1 0\nexpect pixel 1 2 3 4\n",
            "p 1 0\nexpect 2 3\n",
            "p 1 0\nexpect not 2 4\nexpect not pixe",
            "# a note\n\np 1 0\n  \n# another\nexpect pixel\r\n",
            "g 99\nexpect refused 3 no such position",
            "s\nexpect refused 1",
            "who 1 0\nexpect 3 1 drawn\nexpect 4 -",
        ):
            self.assertEqual(self.ran(text)[0], 0, text)
        for text, line in (
            ("p 1 0\nexpect pixel 1 2 3 40\n", 2),
            ("p 1 0\nexpect not 2 3", 2),
            ("# x\np 1 0\np 3 1\nexpect not pixel", 4),
            ("expect at", 1),
            ("p 1 0\nexpect ixel", 2),
            ("p 1 0\ni\nexpect pixel", 3),
        ):
            status, _, errors = self.ran(text)
            self.assertEqual(
                (status, errors.startswith(f"fdb: {self.folder}/a.fdb:{line}: expected "), errors.count("\n")),
                (1, True, 1),
                (text, errors),
            )
        self.assertEqual(
            self.ran("p 1 0\nexpect pixel 1 2 3 5")[2],
            f"fdb: {self.folder}/a.fdb:2: expected pixel 1 2 3 5, and was told pixel 1 2 3 4\n",
        )
        self.assertEqual(self.ran("expect")[0], 1)

    def test_a_script_ends_where_a_line_is_at_fault(self):
        status, told, errors = self.ran("p 1 0\nnext 1\np 1 0\n")
        self.assertEqual(
            (status, told, errors),
            (1, ["pixel 1 2 3 4"], f"fdb: {self.folder}/a.fdb:2: nothing is wanted behind the word\n"),
        )

    def test_scripts_of_scripts(self):
        inner = self.written("inner file.fdb", "p 1 0\nexpect pixel 9\n")
        self.assertEqual(
            self.ran(f"source {inner}")[2], f"fdb: {inner}:2: expected pixel 9, and was told pixel 1 2 3 4\n"
        )
        itself = self.written("itself.fdb", f"source {self.folder}/itself.fdb\n")
        self.assertIn("more than 16 deep", self.ran(f"source {itself}")[2])
        for line in (
            "source",
            f"source {self.folder}/none",
            f"source {self.folder}",
            "source /dev/zero",
            "source a\0b",
        ):
            status, _, errors = self.ran(line)
            self.assertEqual((status, errors.count("\n")), (1, 1), errors)
        self.assertEqual(self.ran("p 1 0", "-x", str(self.folder / "none"))[0], 1)

    def test_several_scripts_and_the_end(self):
        second = self.written("b.fdb", "expect pixel 1 2 3 4\nq\np 9 9\nnonsense")
        self.assertEqual(self.ran("p 1 0\n", "-x", str(second))[:2], (0, ["pixel 1 2 3 4"]))
        self.assertEqual(batch(self.steps(), ["quit", "nonsense"])[:2], (0, ["bye"]))

    def test_each_hunt(self):
        """The scripts that find the bugs expect what build/reference.py worked out for the plain sessions, but who
        set a state."""
        hunts = sorted(path.stem.removesuffix("_find") for path in HUNTS.glob("*_find.session"))
        self.assertEqual(len(hunts), 10)
        for path in [EXAMPLES / "house_find", *(HUNTS / f"{name}_find" for name in hunts)]:
            capture = path.with_name(f"{path.name.removesuffix('_find')}.json")
            self.assertEqual(batch(capture, [], "-x", f"{path}.fdb")[::2], (0, ""), path)
            expected = [line.split() for line in path.with_suffix(".expected").read_text().splitlines()]
            for line in path.with_suffix(".fdb").read_text().splitlines():
                if line.startswith("expect") and "by" not in line.split() and "start" not in line.split():
                    words = line.split()[1:]
                    self.assertTrue(any(words == told or words[1:2] == ["on"] for told in expected), f"{path}: {line}")


class Endings(Folder):
    def test_words(self):
        for words in (
            [],
            ["x", "y"],
            ["--frob", "x"],
            ["x", "--workers", "0"],
            ["x", "--workers", "65"],
            ["x", "--at", "-1"],
            ["x", "--at", "9" * 11],
            ["x", "-x"],
        ):
            errors = io.StringIO()
            with contextlib.redirect_stderr(errors), self.assertRaises(SystemExit) as end:
                command_line.words(words)
            self.assertEqual((end.exception.code, "usage: fdb" in errors.getvalue()), (1, True), words)
        status, told, errors = launched("--help")
        self.assertEqual((status, errors, "--batch" in told), (0, "", True))

    def test_as_a_program(self):
        steps = self.steps()
        self.assertEqual(
            launched(steps, "--batch", "--program", PROGRAM, given=b"p 1 0\nexpect 9\n"),
            (1, "pixel 1 2 3 4\n", "fdb: standard input:2: expected 9, and was told pixel 1 2 3 4\n"),
        )
        self.assertEqual(
            launched(steps, "--program", PROGRAM, given=b"p 1 0\n"), (0, "pixel 1 2 3 4\n", "")
        )  # no terminal: as with --batch

    def test_captures(self):
        refused = self.written("refused.json", "[]")
        self.assertEqual(batch(refused, ["s"]), (2, [], "framedbg: capture refused 3 not a capture\n"))
        self.assertEqual(
            batch(self.folder / "none.json", ["s"]),
            (3, [], f"fdb: {self.folder / 'none.json'}: No such file or directory\n"),
        )
        self.assertEqual(batch(self.folder, ["s"]), (3, [], f"fdb: {self.folder}: Is a directory\n"))
        self.assertEqual(batch(self.steps(), [], "--at", "7"), (1, [], "fdb: no such position\n"))
        self.assertEqual(
            batch(EXAMPLES / "no_events.json", ["l", "i off", "s", "rc", "c", "n"])[1:],
            (
                ["all events are on", "refused 1 at end", "refused 2 at start", "refused 1 at end"],
                "fdb: standard input:6: no draw or clear after 0\n",
            ),
        )

    def test_a_file_that_begins_with_a_hyphen(self):
        self.written("-a.json", json.dumps(STEPS))
        self.assertEqual(
            launched("--batch", "--program", PROGRAM, "--", "-a.json", given=b"p 0 0\n", cwd=self.folder),
            (0, "pixel 1 2 3 4\n", ""),
        )

    def test_programs(self):
        asked = {"ASKED": str(self.folder / "asked")}
        status, _, errors = batch(self.steps(), ["s"], program="/nowhere/framedbg")
        self.assertEqual((status, errors.count("\n"), "Traceback" in errors), (3, 1, False))
        self.assertEqual(batch(self.steps(), ["s"], program="/bin/echo")[0], 1)
        self.assertEqual(
            batch(self.steps(), ["p 0 0"], program=stand_in(self.folder), END="pixel 0 0", **asked)[::2],
            (5, "fdb: standard input:1: framedbg: memory (status 5)\n"),
        )

    def test_want_of_memory(self):
        asked = {"ASKED": str(self.folder / "asked")}
        told = batch(self.steps(), ["p 0 0"], program=stand_in(self.folder), MOST="2", **asked)
        self.assertEqual(told, (0, ["stopped 2", "2 on clear 2 2 3 4", "pixel 2 2 3 4"], ""))
        told = batch(self.steps(), ["g 3", "run"], "--at", "0", program=stand_in(self.folder), MOST="2", **asked)
        self.assertEqual(told, (0, ["stopped 2", "2 on clear 2 2 3 4", "at 2", "2 on clear 2 2 3 4"], ""))
        (self.folder / "asked").unlink()
        told = batch(self.steps(), ["d 2 3"], "--at", "1", program=stand_in(self.folder), MOST="2", **asked)
        self.assertEqual(told, (1, [], "fdb: standard input:1: no more memory: framedbg came to 2 alone\n"))
        self.assertEqual((self.folder / "asked").read_text().splitlines()[-2:], ["goto 3", "goto 1"])

    def test_another_run(self):
        self.assertEqual(
            self.told(["off 4", "g 5", "run", "i off", "p 1 0"]),
            [
                "at 6",
                "at 5",
                "5 on marker again",
                "at 5",
                "5 on marker again",
                "4 off clear 1 2 3 4",
                "pixel 200 100 50 255",
            ],
        )

    def test_a_reader_that_goes(self):
        lines = "l\n" * 20000
        ran = subprocess.run(
            ["sh", "-c", f'"{sys.executable}" "{FDB}" --batch --program "{PROGRAM}" "{HOUSE}"; echo "status $?" >&2'],
            input=lines.encode(),
            stdout=closed_pipe(),
            stderr=subprocess.PIPE,
            timeout=60,
            check=False,
        )
        self.assertEqual(ran.stderr.decode(), "status 3\n")

    def test_lines_of_any_bytes(self):
        for line in (b"\xff\xfe", b"\tstate", b"state \xc3", b"b \xb2", b"l \xd9\xa3", b"\0", b"a" * 300):
            status, _, errors = launched(HOUSE, "--batch", "--program", PROGRAM, given=line + b"\n")
            self.assertEqual((status in (0, 1), "Traceback" in errors), (True, False), (line, errors))
        self.assertEqual(batch(HOUSE, ["state " + "a" * 300])[1], ["bad 3 line too long"])


class Chance(Folder):
    """Lines by chance, right and wrong: each is answered or a slip, a slip changes nothing, and fdb knows where
    framedbg stands and what is off."""

    ARGUMENTS = [
        "",
        "0",
        "1",
        "2",
        "3",
        "5",
        "6",
        "7",
        "4294967295",
        "4294967296",
        "99999999999",
        "-1",
        "x",
        "end",
        "off",
        "b",
        "draw",
        "clear",
        "pixel",
        "not",
        "at",
        "\u00b2",
        "\x1b[2J",
    ]
    LEFT_OUT = {"q", "quit", "save", "source", "run"}

    def test_lines(self):
        chance = random.Random(42)
        names = [name for name in WORDS.names() if name not in self.LEFT_OUT] + ["stpe", "\u00e9", "#", "re"]
        with Client(self.steps(), PROGRAM) as client:
            session = Session(DebuggedFrame(client), PLAIN, Screen(io.StringIO(), {}))
            for _ in range(1500):
                line = " ".join(
                    [chance.choice(names), *chance.choices(self.ARGUMENTS, k=chance.choice((0, 1, 1, 2, 2, 3)))]
                )
                before = client.position, set(client.off)
                try:
                    session.execute(line)
                except (Slip, Failed):
                    self.assertEqual((client.position, client.off), before, line)
                events = client.ask("events")
                self.assertEqual(events.value.position, client.position, line)
                self.assertEqual({event.number for event in events.value.events if not event.on}, client.off, line)


def closed_pipe():
    reader, writer = os.pipe()
    os.close(reader)
    return writer


if __name__ == "__main__":
    unittest.main()
