"""What if an event were another one: set, move, there, keep, drop and undo of fdb. What is expected is worked out by
hand."""
import json
import unittest

import folders

from fdb_testing import EXAMPLES, PROGRAM, STEPS, Folder, Terminal, batch, launched
from changes_testing import KINDS, LINES

from debugger.changing import Wrong, read_change

HOUSE = EXAMPLES / "house.json"
GREEN = [
    "changed 4 to 4: clear 1 2 3 4, and then clear 0 99 0 99",
    "pictures first differ at 4 and 4",
    "images: 8 of 8 pixels differ, in the box 0 0 4 2",
    "most at 0 0: 1 2 3 4, and then 0 99 0 99",
    "at the end",
    "images: the same",
]
BEHIND = [
    "moved 3 to 6: draw 2 flat",
    "pictures first differ at 3 and 2",
    "images: 2 of 8 pixels differ, in the box 0 0 2 1",
    "most at 0 0: 200 100 50 255, and then 10 20 30 40",
    "at the end",
    "images: 2 of 8 pixels differ, in the box 0 0 2 1",
    "most at 0 0: 1 2 3 4, and then 200 100 50 255",
]


class WhatIf(Folder):
    def refused(self, *lines, capture=None):
        """What the last of some lines is refused for."""
        status, _, errors = batch(capture or self.steps(), lines)
        self.assertEqual(
            (status, errors[: len(f"fdb: standard input:{len(lines)}: ")]),
            (1, f"fdb: standard input:{len(lines)}: "),
            errors,
        )
        return errors.partition(f":{len(lines)}: ")[2].strip()

    def kept(self, *lines):
        """The events of the capture that is kept behind some lines."""
        path = self.folder / "kept.json"
        self.assertEqual(self.told([*lines, f"keep {path}"])[-1], f"saved {path}")
        capture = json.loads(path.read_text())
        self.assertEqual({**capture, "events": STEPS["events"]}, STEPS)
        return capture["events"]

    def test_lines(self):
        def of(line):
            try:
                return read_change(line, KINDS)
            except Wrong as wrong:
                return str(wrong)

        self.assertEqual({line: of(line) for line in LINES}, LINES)

    def test_a_value(self):
        """The clear of event 4 is another one: all of the picture from there on, until event 6 has the same
        colour as before. The frame that is shown stays, and so does the position."""
        self.assertEqual(
            self.told(["g 5", "set 4 color 0 99 0 99", "p 0 0", "events"])[2:],
            [*GREEN, "pixel 1 2 3 4", "events 6 at 5", *self.told(["events"])[1:]],
        )

    def test_a_place(self):
        self.assertEqual(self.told(["move 3 after 6"]), BEHIND)
        self.assertEqual(self.told(["move 3 before 5"])[0], "moved 3 to 4: draw 2 flat")
        self.assertEqual(self.told(["move 3 after 3"]), ["pictures differ nowhere"])

    def test_one_after_the_other(self):
        """Numbers are always those of the frame that is shown."""
        told = self.told(["move 3 after 6", "set 6 color 0 99 0 99", "set 3 interp flat", "there events"])
        self.assertEqual(told[7:9], ["changed 6 to 5: clear 1 2 3 4, and then clear 0 99 0 99", BEHIND[0]])
        self.assertEqual(
            told[-16:],
            [
                "changed 3 to 6: draw 2 flat: the same",
                "changed 6 to 5: clear 1 2 3 4, and then clear 0 99 0 99",
                *BEHIND[:5],
                "images: 8 of 8 pixels differ, in the box 0 0 4 2",
                BEHIND[6],
                "events 6 at 6",
                "1 on clear 10 20 30 40",
                "2 on raster none 0 0",
                "3 on clear 1 2 3 4",
                "4 on marker again",
                "5 on clear 0 99 0 99",
                "6 on draw 2 flat",
            ],
        )
        self.assertEqual(
            self.kept("move 3 after 6", "move 1 after 3", "move 6 before 1"),
            [STEPS["events"][i - 1] for i in (2, 4, 5, 3, 6, 1)],
        )

    def test_there(self):
        """The changed frame is asked and walked, and the shown one stays where it is: so does what `last` and
        `undo` know of it."""
        told = self.told(
            [
                "move 3 after 6",
                "there p 0 0",
                "p 0 0",
                "there g 3",
                "there p 0 0",
                "there g end",
                "there last 0 0",
                "s",
                "last 0 0",
                "last 0 0",
            ]
        )[7:]
        self.assertEqual(
            told[:7],
            [
                "pixel 200 100 50 255",
                "pixel 1 2 3 4",
                "at 3",
                "3 on clear 1 2 3 4",
                "pixel 1 2 3 4",
                "at 6",
                "6 on draw 2 flat",
            ],
        )
        self.assertEqual(
            [line for line in told[7:] if line.startswith(("at", "refused"))],
            ["at 6", "refused 1 at end", "at 6", "at 4"],
        )
        self.assertEqual(
            self.refused("set 4 color 0 99 0 99", "there g 1", "undo", "undo"), "there is nothing to take back"
        )
        for line in ("there", "there set 4 color 1 1 1 1", "there q", "there run", "there there p 0 0"):
            self.assertEqual(
                self.refused("set 4 color 0 99 0 99", line), "there LINE is wanted, and the line asks or moves"
            )

    def test_undone(self):
        """The last change alone is taken back, and the pictures of what is left compared; with none left
        nothing is changed."""
        self.assertEqual(
            self.told(["set 4 color 0 99 0 99", "move 3 after 6", "undo"])[-8:], [*GREEN, "at 6", "6 on clear 1 2 3 4"]
        )
        self.assertEqual(
            self.told(["set 4 color 0 99 0 99", "undo"])[-3:], ["nothing is changed", "at 6", "6 on clear 1 2 3 4"]
        )
        self.assertEqual(self.told(["set 4 color 0 99 0 99", "drop"])[-1:], ["nothing is changed"])
        self.assertEqual(
            self.told(["set 4 color 0 99 0 99", "drop", "undo"])[-8:], [*GREEN, "at 6", "6 on clear 1 2 3 4"]
        )
        for line in ("drop", "there p 0 0", f"keep {self.folder}/a.json"):
            self.assertEqual(
                self.refused("set 4 color 0 99 0 99", "drop", line), "nothing is changed: set and move do that"
            )

    def test_kept(self):
        changed = [*STEPS["events"][:3], {"kind": "clear", "color": [0, 99, 0, 99]}, *STEPS["events"][4:]]
        self.assertEqual(self.kept("set 4 color 0 99 0 99"), changed)
        self.assertEqual(
            self.kept("off 3", "set 4 color 0 99 0 99"), [*changed[:2], {"kind": "marker", "name": "off"}, *changed[3:]]
        )
        steps = self.steps()
        self.assertEqual(
            self.refused("set 4 color 0 99 0 99", f"keep {steps}", capture=steps),
            f"{steps}: that is the capture that is shown",
        )
        self.assertEqual(json.loads(steps.read_text()), STEPS)
        self.assertEqual(self.refused("set 4 color 0 99 0 99", "keep a.txt"), "keep FILE.json is wanted")
        self.assertEqual(
            self.refused("set 4 color 0 99 0 99", f"keep {self.folder}/none/a.json"),
            f"{self.folder}/none/a.json: No such file or directory",
        )

    def test_what_is_off(self):
        """An event that is off is none in the changed frame either: with the draw off, the pictures differ
        from the clear on alone."""
        self.assertEqual(self.told(["off 3", "g 6", "set 4 color 0 99 0 99"])[3:], GREEN)
        self.assertEqual(self.told(["off 3", "g 6", "move 3 after 6"])[3:], [BEHIND[0], "pictures differ nowhere"])

    def test_what_framedbg_refuses(self):
        """It is said as framedbg-explain says it, and the change before stays."""
        said = self.refused("set 4 color 0 99 0 99", "set 4 color 0 99 0")
        self.assertEqual(
            (said.partition(": ")[0], said.split(": ", 2)[2]),
            ("framedbg refuses it", "event 4 (clear), color: an array of 4 is wanted, not an array of 3"),
        )
        self.assertEqual(self.refused("set 7 color 1 2 3 4"), "set 7 color 1 2 3 4: events are numbered from 1 to 6")
        self.assertEqual(self.refused("set"), "set: events are numbered from 1 to 6")
        with Terminal(self.steps()) as terminal:
            terminal.prompt()
            terminal.ask("set 4 color 0 99 0 99")
            terminal.ask("set 4 color 0 99 0")
            self.assertIn("0 99 0 99", "".join(terminal.ask("there g 4")))

    def test_nothing_is_left(self):
        """Neither a run beside nor a file of it, at the end and behind another change."""
        done = launched(
            self.steps(),
            "--batch",
            "--program",
            PROGRAM,
            given=b"set 4 color 0 99 0 99\nset 4 color 1 99 0 99\nq\n",
            env={"TMPDIR": str(self.folder), "PATH": "/usr/bin:/bin"},
        )
        self.assertEqual((done[0], done[2]), (0, ""))
        self.assertEqual([path.name for path in self.folder.iterdir()], ["steps.json"])

    def test_completed(self):
        cases = [
            ("set 8 ma\t 15\n", "pictures differ nowhere"),
            ("set 8 enable of\t\n", "168 of"),
            ("move 11 a\t 2\n", "moved 11 to 3"),
            ("there p\t\n", "p X Y"),
            ("there li\t1 1\n", "marker  sky"),
        ]
        with Terminal(HOUSE, size=(60, 160)) as terminal:
            terminal.prompt()
            for typed, shows in cases:
                terminal.type(typed)
                terminal.until(shows)


if __name__ == "__main__":
    unittest.main()
