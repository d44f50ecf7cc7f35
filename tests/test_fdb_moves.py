"""fdb without a terminal: how it moves, where it stops, and what it remembers of where it was. What is expected comes
from captures that are worked out by hand."""
import io
import json
import os
import unittest

import folders

from fdb_testing import EXAMPLES, PROGRAM, STEPS, Folder, batch, launched

from debugger.faults import Slip
from debugger.frame import DebuggedFrame
from debugger.screen import Screen
from debugger.session import Session
from debugger.telling import PLAIN
from framedbg_client import Client


class Moves(Folder):
    def test_steps(self):
        self.assertEqual(
            self.told(["s", "s 2", "rs", "rs 9", "s 9"], "--at", "0"),
            [
                "at 1",
                "1 on clear 10 20 30 40",
                "at 3",
                "3 on draw 2 flat",
                "at 2",
                "2 on raster none 0 0",
                "at 0",
                "at 6",
                "6 on clear 1 2 3 4",
            ],
        )
        self.assertEqual(
            self.told(["s", "s 3", "rs", "reverse-step 2", "g 0", "rs", "rs 2"]),
            [
                "refused 1 at end",
                "refused 1 at end",
                "at 5",
                "5 on marker again",
                "at 3",
                "3 on draw 2 flat",
                "at 0",
                "refused 2 at start",
                "refused 2 at start",
            ],
        )

    def test_draws_and_clears(self):
        self.assertEqual(
            self.told(["n", "n", "next", "off 4", "g 3", "n", "rn", "reverse-next"], "--at", "0"),
            [
                "at 1",
                "1 on clear 10 20 30 40",
                "at 3",
                "3 on draw 2 flat",
                "at 4",
                "4 on clear 1 2 3 4",
                "at 4",
                "at 3",
                "3 on draw 2 flat",
                "at 6",
                "6 on clear 1 2 3 4",
                "at 3",
                "3 on draw 2 flat",
                "at 1",
                "1 on clear 10 20 30 40",
            ],
        )
        depths = EXAMPLES / "depth_test.json"
        kinds = [event["kind"] for event in json.loads(depths.read_text())["events"]]
        wanted = [i for i, kind in enumerate(kinds, 1) if kind in ("draw", "clear", "depth_clear")]
        self.assertIn("depth_clear", kinds)
        self.assertEqual(
            [line for line in self.told(["n"] * len(wanted), "--at", "0", capture=depths) if line.startswith("at")],
            [f"at {i}" for i in wanted],
        )
        status, _, errors = batch(self.steps(), ["n"])
        self.assertEqual((status, errors), (1, "fdb: standard input:1: no draw or clear after 6\n"))

    def test_positions(self):
        self.assertEqual(
            self.told(["g 2", "g end", "g 7"]),
            ["at 2", "2 on raster none 0 0", "at 6", "6 on clear 1 2 3 4", "refused 3 no such position"],
        )

    def test_first_and_last(self):
        self.assertEqual(
            self.told(["last 1 0", "last 1 0", "last 1 0", "first 1 0"]),
            [
                "at 6",
                "6 on clear 1 2 3 4",
                "6 - drawn 1 2 3 4 1 2 3 4 1 2 3 4",
                "at 4",
                "4 on clear 1 2 3 4",
                "4 - drawn 1 2 3 4 200 100 50 255 1 2 3 4",
                "at 3",
                "3 on draw 2 flat",
                "3 1 drawn 200 100 50 255 10 20 30 40 200 100 50 255",
                "at 1",
                "1 on clear 10 20 30 40",
                "1 - drawn 10 20 30 40 0 0 0 0 10 20 30 40",
            ],
        )
        self.assertEqual(self.told(["g 5", "last 3 1", "first 3 1"])[2:4], ["at 4", "4 on clear 1 2 3 4"])
        self.assertEqual(self.told(["first 1 0"], "--at", "0")[0], "at 1")
        self.assertEqual(
            batch(self.steps(), ["last 0 0"], "--at", "0")[2],
            "fdb: standard input:1: nothing wrote that pixel up to 0\n",
        )

    def test_a_pixel_that_nothing_writes(self):
        capture = dict(STEPS, events=STEPS["events"][1:3] + [{"kind": "marker", "name": "end"}])
        with Client(self.written("draw.json", json.dumps(capture)), PROGRAM) as client:
            session = Session(DebuggedFrame(client), PLAIN, Screen(io.StringIO(), {}))
            client.goto(1)
            self.assertRaises(Slip, session.execute, "first 3 1")
            self.assertEqual(client.position, 1)


class Breakpoints(Folder):
    def stops(self, lines, at="0", **how):
        return [line for line in self.told(lines, "--at", at, **how) if line.startswith(("at", "pixel", "no "))]

    def test_events(self):
        self.assertEqual(
            self.stops(["b 2", "b 5", "c", "c", "c", "rc", "rc", "rc"]),
            ["at 2", "at 5", "no breakpoint after 5", "at 6", "at 5", "at 2", "no breakpoint before 2", "at 0"],
        )
        self.assertEqual(self.stops(["off 2", "g 0", "b 2", "c"]), ["at 0", "at 0", "at 2"])

    def test_kinds(self):
        self.assertEqual(self.stops(["b clear", "c", "c", "c", "rc", "rc"]), ["at 1", "at 4", "at 6", "at 4", "at 1"])
        self.assertEqual(self.stops(["off 4", "b clear", "c", "c"]), ["at 0", "at 1", "at 6"])

    def test_pixels(self):
        changes = [
            "pixel 1 0 from 0 0 0 0 to 10 20 30 40",
            "pixel 1 0 from 10 20 30 40 to 200 100 50 255",
            "pixel 1 0 from 200 100 50 255 to 1 2 3 4",
        ]
        self.assertEqual(
            self.stops(["b pixel 1 0", "c", "c", "c", "c"]),
            [changes[0], "at 1", changes[1], "at 3", changes[2], "at 4", "no breakpoint after 4", "at 6"],
        )
        self.assertEqual(
            self.stops(["watch 1 0", "rc", "rc", "rc", "rc"], at="6"),
            [changes[2], "at 4", changes[1], "at 3", changes[0], "at 1", "no breakpoint before 1", "at 0"],
        )
        self.assertEqual(
            self.stops(["b pixel 3 1", "c", "c"]),
            [changes[0].replace("1 0", "3 1", 1), "at 1", "pixel 3 1 from 10 20 30 40 to 1 2 3 4", "at 4"],
        )
        self.assertEqual(
            self.stops(["b pixel 1 0", "off 3", "c", "off 4", "c"])[3:],
            ["at 1", "pixel 1 0 from 10 20 30 40 to 1 2 3 4", "at 6"],
        )

    def test_a_depth_alone(self):
        """The pixel's colour stays, and its depth changes: events 1 and 5 of a capture by hand."""
        capture = {
            "format": "framedbg",
            "version": 2,
            "width": 1,
            "height": 1,
            "events": [
                {"kind": "depth_clear", "depth": 100},
                {"kind": "marker", "name": ""},
                {"kind": "clear", "color": [0, 0, 0, 0]},
                {"kind": "depth_clear", "depth": 100},
                {"kind": "depth_clear", "depth": 7},
            ],
        }
        self.assertEqual(
            [
                line
                for line in self.stops(
                    ["watch 0 0", "c", "c", "c"], capture=self.written("depths.json", json.dumps(capture))
                )
                if line[0] == "a"
            ],
            ["at 1", "at 5"],
        )

    def test_several_at_once(self):
        told = self.told(["b 4", "b clear", "watch 1 0", "g 3", "c", "i b", "delete 2", "i b", "delete", "i b", "b 1"])
        self.assertEqual(told[:3], ["breakpoint 1: event 4", "breakpoint 2: each clear", "breakpoint 3: pixel 1 0"])
        self.assertEqual(
            told[5:11],
            [
                "breakpoint 1: event 4",
                "breakpoint 2: each clear",
                "breakpoint 3: pixel 1 0",
                "pixel 1 0 from 200 100 50 255 to 1 2 3 4",
                "at 4",
                "4 on clear 1 2 3 4",
            ],
        )
        self.assertEqual(
            told[11:],
            [
                "breakpoint 1: event 4",
                "breakpoint 2: each clear",
                "breakpoint 3: pixel 1 0",
                "breakpoint 1: event 4",
                "breakpoint 3: pixel 1 0",
                "no breakpoints",
                "breakpoint 4: event 1",
            ],
        )
        self.assertEqual(self.told(["b 4", "b 4"]), ["breakpoint 1: event 4"] * 2)

    def test_conditions(self):
        """The pixel becomes 10 20 30 40, 200 100 50 255, and 1 2 3 4."""
        for condition, wanted in (
            ("red > 9", [1, 3]),
            ("red >= 200", [3]),
            ("red < 10", [4]),
            ("green <= 20", [1, 4]),
            ("blue = 3", [4]),
            ("blue == 3", [4]),
            ("alpha != 255", [1, 4]),
            ("red > 200", []),
            ("depth > 0", []),
        ):
            ends = [
                line
                for line in self.stops([f"b pixel 1 0 if {condition}", *["c"] * (len(wanted) + 1)])
                if line.startswith("at")
            ]
            self.assertEqual(ends, [f"at {event}" for event in [*wanted, 6]], condition)
            ends = [
                line
                for line in self.stops([f"watch 1 0 if {condition}", *["rc"] * (len(wanted) + 1)], at="6")
                if line.startswith("at")
            ]
            self.assertEqual(ends, [f"at {event}" for event in [*reversed(wanted), 0]], condition)
        told = self.told(["b pixel 1 0 if red > 99", "c"], "--at", "0")
        self.assertEqual(
            told,
            ["breakpoint 1: pixel 1 0 if red > 99"] * 2
            + ["pixel 1 0 from 10 20 30 40 to 200 100 50 255", "at 3", "3 on draw 2 flat"],
        )

    def test_a_condition_of_a_depth(self):
        capture = {
            "format": "framedbg",
            "version": 2,
            "width": 1,
            "height": 1,
            "events": [
                *({"kind": "depth_clear", "depth": depth} for depth in (100, 65535, 7)),
                {"kind": "marker", "name": "the end"},
            ],
        }
        path = self.written("depths.json", json.dumps(capture))
        self.assertEqual(
            [line for line in self.stops(["watch 0 0 if depth < 100", "c"], capture=path) if line[0] == "a"], ["at 3"]
        )

    def test_once(self):
        told = self.told(["tbreak 2", "tb clear", "i b", "c", "i b", "c", "i b", "c"], "--at", "0")
        self.assertEqual(
            told,
            [
                "breakpoint 1: event 2 (once)",
                "breakpoint 2: each clear (once)",
                "breakpoint 1: event 2 (once)",
                "breakpoint 2: each clear (once)",
                "breakpoint 2: each clear (once)",
                "at 1",
                "1 on clear 10 20 30 40",
                "breakpoint 1: event 2 (once)",
                "breakpoint 1: event 2 (once)",
                "at 2",
                told[10],
                "no breakpoints",
                "no breakpoint after 2",
                "at 6",
                told[-1],
            ],
        )
        self.assertEqual(self.told(["b 2", "tbreak 2", "i b"]), ["breakpoint 1: event 2"] * 3)

    def test_disabled(self):
        self.assertEqual(
            self.stops(["b 2", "b 5", "disable 1", "c", "g 0", "disable", "c", "g 0", "enable 1", "c", "enable", "c"]),
            ["at 5", "at 0", "no breakpoint after 0", "at 6", "at 0", "at 2", "at 5"],
        )
        self.assertEqual(
            self.told(["b 2", "disable", "i b", "delete", "b 2"]),
            ["breakpoint 1: event 2", "breakpoint 1: event 2 (disabled)", "breakpoint 2: event 2"],
        )

    def test_boxes(self):
        """Events 1, 3 and 4 write pixels: the first and the last all eight, and the draw the two on the left above."""
        self.assertEqual(
            self.stops(["b draw in 1 0 3 2", "c", "c", "rc", "rc"]),
            ["at 3", "no breakpoint after 3", "at 6", "at 3", "no breakpoint before 3", "at 0"],
        )
        self.assertEqual(self.stops(["b draw in 2 0 4 2", "b draw in 0 1 2 2", "c"]), ["no breakpoint after 0", "at 6"])
        self.assertEqual(
            self.stops(["b clear in 2 1 3 2", "rc", "rc"], at="6"), ["at 4", "at 1"]
        )  # the last clear changes nothing
        self.assertEqual(
            self.stops(["b draw in 0 0 1 1", "off 3", "c", "on 3", "rc"]),
            ["at 0", "no breakpoint after 0", "at 6", "at 6", "at 3"],
        )
        self.assertEqual(
            self.told(["b draw in 0 0 4 2", "tbreak draw in 0 0 1 1", "c", "i b"], "--at", "0"),
            [
                "breakpoint 1: each draw in 0 0 4 2",
                "breakpoint 2: each draw in 0 0 1 1 (once)",
                "breakpoint 1: each draw in 0 0 4 2",
                "breakpoint 2: each draw in 0 0 1 1 (once)",
                "at 3",
                "3 on draw 2 flat",
                "breakpoint 1: each draw in 0 0 4 2",
            ],
        )
        self.assertEqual(self.told(["b draw in 3 1 5 2", "i b"]), ["refused 6 no such pixel", "no breakpoints"])
        for box in ("", "0", "0 0 1", "0 0 0 1", "1 0 1 1", "0 1 1 1", "0 0 1 x", "0 0 1 1 1", "0 0 257 256"):
            self.assertEqual(batch(self.steps(), [f"b draw in {box}"])[0], 1, box)
        self.assertEqual(batch(self.steps(), ["b marker in 0 0 1 1"])[0], 1)

    def test_what_is_no_breakpoint(self):
        for line in (
            "tbreak",
            "tbreak 7",
            "disable 1",
            "enable x",
            "disable 1 2",
            "b pixel 1 0 if",
            "b pixel 1 0 if red",
            "b pixel 1 0 if red > x",
            "b pixel 1 0 if red > 256",
            "b pixel 1 0 if rot > 2",
            "b pixel 1 0 if red ~ 2",
            "b pixel 1 if red > 2",
            "watch 1 0 if red > 2 3",
            "b",
            "b 7",
            "b 0",
            "b drow",
            "b pixel 1",
            "b 1 2",
            "watch 1",
            "watch x y",
            "delete 1",
            "delete x",
        ):
            self.assertEqual(batch(self.steps(), [line])[0], 1, line)
        self.assertEqual(
            self.told(["b pixel 4 0", "watch 0 2", "i b"]), ["refused 6 no such pixel"] * 2 + ["no breakpoints"]
        )

    def test_by_history_and_not_by_steps(self):
        """What framedbg is asked, however far the way is: a move to the end, one history, a move."""
        asked, counted = self.folder / "asked", self.folder / "counted"
        counted.write_text(f'#!/bin/sh\ntee -a {asked} | {PROGRAM} "$@"\n')
        counted.chmod(0o755)
        self.told(["b pixel 1 0", "c", "c", "c", "rc"], "--at", "0", program=counted)
        lines = asked.read_text().splitlines()
        self.assertEqual([line for line in lines if line.startswith(("step", "back"))], [])
        self.assertEqual(lines[:5], ["events", "pixel 1 0", "goto 6", "history 1 0", "goto 1"])
        self.assertEqual(len([line for line in lines if line.startswith("pixel")]), 1)
        self.assertLessEqual(len(lines), 14)
        asked.unlink()
        self.told(["d 1 3", "look", "look 1 1", f"save {self.folder}/x.png"], program=counted)
        self.assertEqual(
            asked.read_text().splitlines(),
            ["events", "goto 6", "goto 1", "state", "show", "goto 3", "state", "show", "goto 6"] + ["show"] * 3,
        )


class Groups(Folder):
    """`finish` and `reverse-finish`."""

    def frame(self, *events):
        """A capture of markers and clears: each a name, or a clear's colour; with the call that it comes from, and
        the last one of a marker's group."""
        made = [
            {"kind": "marker", "name": what} if isinstance(what, str) else {"kind": "clear", "color": [what] * 4}
            for what, *_ in events
        ]
        for event, (_, *source) in zip(made, events):
            if source:
                event["source"] = dict(zip(("event", "until"), source))
        return self.written(
            "groups.json", json.dumps({"format": "framedbg", "version": 1, "width": 1, "height": 1, "events": made})
        )

    def ends(self, capture, words, at):
        return [
            int(line.split()[1])
            for line in self.told(words, "--at", str(at), capture=capture)
            if line.startswith("at ")
        ]

    def test_to_the_next_marker(self):
        """Groups are events 2 to 3, 4 alone, and 5 to 7."""
        capture = self.frame((1,), ("a",), (2,), ("b",), ("c",), (3,), (4,))
        for at, end in ((2, 3), (5, 7), (6, 7)):
            self.assertEqual(self.ends(capture, ["finish"], at), [end], at)
        for at, before in ((2, 1), (3, 1), (4, 3), (7, 4)):
            self.assertEqual(self.ends(capture, ["reverse-finish"], at), [before], at)
        self.assertEqual(self.ends(capture, ["reverse-finish", "reverse-finish", "rfin"], 6), [4, 3, 1])
        for word, at, said in (
            ("finish", 0, "no marker's group goes on after 0"),
            ("finish", 1, "no marker's group goes on after 1"),
            ("fin", 3, "no marker's group goes on after 3"),
            ("finish", 7, "no marker's group goes on after 7"),
            ("reverse-finish", 1, "no marker's group has event 1"),
            ("rfin", 0, "no marker's group has event 0"),
            ("finish 1", 2, "nothing is wanted behind the word"),
        ):
            self.assertEqual(
                batch(capture, [word], "--at", str(at))[::2], (1, f"fdb: standard input:1: {said}\n"), word
            )

    def test_groups_in_groups(self):
        """The outer group ends with call 50, and so with event 5; the inner one with call 30, and so with event 3."""
        capture = self.frame(("outer", 10, 50), ("inner", 20, 30), (1, 30), (2, 40), (3, 50), (4, 60))
        self.assertEqual(self.ends(capture, ["finish", "finish"], 2), [3, 5])
        self.assertEqual(self.ends(capture, ["finish"], 4), [5])
        self.assertEqual(self.ends(capture, ["reverse-finish", "reverse-finish"], 3), [1, 0])
        self.assertEqual(self.ends(capture, ["reverse-finish"], 4), [0])
        self.assertEqual(batch(capture, ["finish"], "--at", "5")[0], 1)
        capture = self.frame(
            ("outer", 10, 50), (1, 30), ("named",), (2,), (3, 50), (4, 60)
        )  # a marker in a group, which has no end of its own
        self.assertEqual(self.ends(capture, ["finish"], 3), [6])
        self.assertEqual(self.ends(capture, ["finish"], 2), [5])

    def test_sources_that_say_nothing(self):
        for source in (7, [], {"event": "x", "until": 3}, {"until": 9}, {"event": 2, "until": "x"}):
            capture = self.frame(("a",), (1,), ("b",), (2,))
            given = json.loads(capture.read_text())
            given["events"][0]["source"] = source
            self.assertEqual(self.ends(self.written("other.json", json.dumps(given)), ["finish"], 1), [2], source)


class Calls(Folder):
    def test_the_program_s_call(self):
        """Of the event here, or of another; what stands there is shown as it may be."""
        events = [
            {
                "kind": "clear",
                "color": [1, 2, 3, 4],
                "source": {"event": 7, "name": "glClear()", "callstack": ["main() at a.c:3"]},
            },
            {"kind": "marker", "name": "a"},
        ]
        capture = self.written(
            "calls.json", json.dumps({"format": "framedbg", "version": 1, "width": 1, "height": 1, "events": events})
        )
        self.assertEqual(
            self.told(["call", "call 1"], capture=capture),
            ["nothing is told of where event 2 comes from", "call 7 glClear()", "at main() at a.c:3"],
        )
        for line in ("call 3", "call 0", "call 1 2", "call x"):
            self.assertEqual(batch(capture, [line])[0], 1, line)
        self.assertEqual(self.told(["call 1"]), ["nothing is told of where event 1 comes from"])


class Bookmarks(Folder):
    def test_marks(self):
        lines = ["mark roof", "g 1", "mark door", "goto roof", "g door", "marks", "mark roof", "marks"]
        told = self.told([*lines, "goto 2", "goto nowhere", "goto"], "--at", "3")
        self.assertEqual(
            told,
            [
                "mark roof at 3",
                "at 1",
                "1 on clear 10 20 30 40",
                "mark door at 1",
                "at 3",
                "3 on draw 2 flat",
                "at 1",
                "1 on clear 10 20 30 40",
                "mark door at 1",
                "mark roof at 3",
                "mark roof at 1",
                "mark door at 1",
                "mark roof at 1",
                "at 2",
                "bad 2 arguments",
                "bad 2 arguments",
            ],
        )
        self.assertEqual(self.told(["marks"]), ["no marks"])
        self.assertEqual(
            batch(self.steps(), ["g nowhere"])[2],
            "fdb: standard input:1: K is a whole number, end or a mark, and not nowhere; marks lists them\n",
        )
        for line in ("mark", "mark 7", "mark a b", "mark end", "mark -x", "mark a:b", f"mark {'a' * 65}", "marks 1"):
            self.assertEqual(batch(self.steps(), [line])[0], 1, line)


class Starts(Folder):
    """A file whose lines are run at the start."""

    def test_a_file_that_is_named(self):
        path = self.written("start.fdb", "mark begun\np 1 0\n")
        self.assertEqual(
            self.told(["marks"], "--start", str(path)), ["mark begun at 6", "pixel 1 2 3 4", "mark begun at 6"]
        )
        script = self.written("a.fdb", "marks\n")
        self.assertEqual(self.told([], "-x", str(script), "--start", str(path))[-1], "mark begun at 6")
        bad = self.written("bad.fdb", "p 1 0\nnonsense\n")
        self.assertEqual(
            batch(self.steps(), ["p 0 0"], "--start", str(bad)),
            (1, ["pixel 1 2 3 4"], f"fdb: {bad}:2: no such word: nonsense; help lists them\n"),
        )
        self.assertEqual(batch(self.steps(), [], "--start", str(self.folder / "none"))[0], 1)

    def test_none_unasked(self):
        """Without a prompt that of the home folder isn't read: what a script comes to is the same for all."""
        for name in (".fdbrc", ".fdb"):
            self.written(name, "p 1 0\n")
        steps = self.steps()
        self.assertEqual(
            launched(
                steps,
                "--batch",
                "--program",
                PROGRAM,
                given=b"p 0 0\n",
                cwd=self.folder,
                env=os.environ | {"HOME": str(self.folder)},
            ),
            (0, "pixel 1 2 3 4\n", ""),
        )


if __name__ == "__main__":
    unittest.main()
