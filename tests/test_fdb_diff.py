"""fdb --diff: two captures compared, event by event and picture by picture. What is expected is worked out by hand."""
import contextlib
import io
import json
import random
import unittest

import folders

from fdb_testing import EXAMPLES, HUNTS, PROGRAM, STEPS, Folder, launched

from debugger import command_line, comparing_captures, contents
from debugger.aligning import aligned, common

DRAW = STEPS["events"][2]


class Captures(Folder):
    def steps_of(self, name, *events, **head):
        return self.written(name, json.dumps(STEPS | head | {"events": list(events)}))

    def compared(self, one, other, *words):
        """(status, lines, errors) of a run in this process."""
        told, errors = io.StringIO(), io.StringIO()
        with contextlib.redirect_stdout(told), contextlib.redirect_stderr(errors):
            status = comparing_captures.run(
                command_line.words(["--diff", str(one), str(other), "--program", str(PROGRAM), *words])
            )
        return status, told.getvalue().splitlines(), errors.getvalue()

    def differ(self, *events, **head):
        """What is told of the six steps, and of others."""
        status, told, errors = self.compared(self.steps(), self.steps_of("other.json", *events, **head))
        self.assertEqual((status, errors), (1, ""))
        return told

    def test_alike(self):
        same = [dict(event, source={"event": 7}) for event in STEPS["events"]]
        self.assertEqual(
            self.compared(self.steps(), self.steps_of("other.json", *same)), (0, [], "")
        )  # what framedbg passes over is no difference
        self.assertEqual(self.compared(EXAMPLES / "house.json", EXAMPLES / "house.json", "--batch"), (0, [], ""))

    def test_changed(self):
        """The draw's first corner, which a flat triangle has its colour from: one pixel is another, which the next
        clear covers."""
        vertices = [dict(DRAW["vertices"][0], color=[9, 9, 9, 9]), *DRAW["vertices"][1:]]
        events = [*STEPS["events"][:2], dict(DRAW, vertices=vertices), *STEPS["events"][3:]]
        self.assertEqual(
            self.differ(*events),
            [
                "changed 3 to 3: draw 2 flat: 1 of 6 vertices",
                "5 same, 1 changed, 0 moved, 0 went, 0 came",
                "pictures first differ at 3 and 3",
                "images: 1 of 8 pixels differ, in the box 0 0 1 1",
                "most at 0 0: 200 100 50 255, and then 9 9 9 9",
                "at the end",
                "images: the same",
            ],
        )

    def test_vertices_that_differ_are_counted(self):
        of = lambda *vertices: {"kind": "draw", "interp": "flat", "vertices": list(vertices)}
        a, b = DRAW["vertices"][:2]
        for one, other, wanted in (
            (of(a), of(b), "1 of 1 vertex"),
            (of(a, b), of(a, a), "1 of 2 vertices"),
            (of(a), of(a, a, b), "1 vertex, and then 3"),
            (of(a, b), of(a), "2 vertices, and then 1"),
        ):
            self.assertEqual(contents.unlike(one, other), wanted)

    def test_went_and_came(self):
        """The draw is away, and behind the clear another one comes."""
        green = {"kind": "clear", "color": [0, 99, 0, 99]}
        events = [*STEPS["events"][:2], *STEPS["events"][3:], green]
        self.assertEqual(
            self.differ(*events),
            [
                "went 3: draw 2 flat",
                "came 6: clear 0 99 0 99",
                "5 same, 0 changed, 0 moved, 1 went, 1 came",
                "pictures first differ at 3 and 2",
                "images: 2 of 8 pixels differ, in the box 0 0 2 1",
                "most at 0 0: 200 100 50 255, and then 10 20 30 40",
                "at the end",
                "images: 8 of 8 pixels differ, in the box 0 0 4 2",
                "most at 0 0: 1 2 3 4, and then 0 99 0 99",
            ],
        )

    def test_moved(self):
        """The draw comes behind the clear that covered it, and stays: it is away at 3 and 2, and there at the end
        but for the last clear."""
        events = STEPS["events"]
        self.assertEqual(
            self.differ(*events[:2], *events[3:5], DRAW, events[5]),
            [
                "moved 3 to 5: draw 2 flat",
                "5 same, 0 changed, 1 moved, 0 went, 0 came",
                "pictures first differ at 3 and 2",
                "images: 2 of 8 pixels differ, in the box 0 0 2 1",
                "most at 0 0: 200 100 50 255, and then 10 20 30 40",
                "at the end",
                "images: the same",
            ],
        )

    def test_what_moved_is_no_change(self):
        """Two markers change places with two clears: nothing is paired with what moved."""
        a, b = ({"kind": "marker", "name": name} for name in "ab")
        red, green = ({"kind": "clear", "color": [*four]} for four in ((255, 0, 0, 0), (0, 255, 0, 0)))
        one, other = self.steps_of("a.json", a, red, b, green), self.steps_of("b.json", red, b, green, a)
        self.assertEqual(
            self.compared(one, other)[1],
            ["moved 1 to 4: marker a", "3 same, 0 changed, 1 moved, 0 went, 0 came", "pictures differ nowhere"],
        )
        one, other = self.steps_of("a.json", a, red, green), self.steps_of("b.json", b, red, green, a)
        self.assertEqual(
            self.compared(one, other)[1],
            [
                "moved 1 to 4: marker a",
                "came 1: marker b",
                "2 same, 0 changed, 1 moved, 0 went, 1 came",
                "pictures differ nowhere",
            ],
        )

    def test_depths_that_show_later(self):
        """Two draws of one colour at depths 100 and 300 differ in depth alone, until a draw at 200 is tested against
        them."""

        def draw(z, four):
            return {
                "kind": "draw",
                "interp": "flat",
                "vertices": [{"x": x << 16, "y": y << 16, "z": z, "color": four} for x, y in ((0, 0), (9, 0), (0, 9))],
            }

        def frame(name, z):
            return self.steps_of(
                name,
                {"kind": "raster", "cull": "none", "front_ccw": False, "scissor": False},
                {"kind": "depth", "enable": True, "write": True, "func": "LESS"},
                draw(z, [9, 9, 9, 9]),
                {"kind": "marker", "name": ""},
                draw(200, [1, 2, 3, 4]),
                version=2,
            )

        self.assertEqual(
            self.compared(frame("a.json", 100), frame("b.json", 300))[1][:3],
            [
                "changed 3 to 3: draw 1 flat: 3 of 3 vertices",
                "4 same, 1 changed, 0 moved, 0 went, 0 came",
                "pictures first differ at 5 and 5",
            ],
        )

    def test_a_state_shows_at_the_next_draw(self):
        """Both sides culled: the raster state changes at 2, and the picture at 3."""
        events = list(STEPS["events"])
        events[1] = dict(events[1], cull="back", front_ccw=True)
        told = self.differ(*events)
        self.assertEqual(
            told[:3],
            [
                "changed 2 to 2: raster none 0 0, and then raster back 1 0",
                "5 same, 1 changed, 0 moved, 0 went, 0 came",
                "pictures first differ at 3 and 3",
            ],
        )

    def test_pictures_that_do_not_differ(self):
        events = list(STEPS["events"])
        events[4] = {"kind": "marker", "name": "other"}
        self.assertEqual(
            self.differ(*events),
            [
                "changed 5 to 5: marker again, and then marker other",
                "5 same, 1 changed, 0 moved, 0 went, 0 came",
                "pictures differ nowhere",
            ],
        )

    def test_sizes_and_versions(self):
        self.assertEqual(
            self.differ(*STEPS["events"], width=5),
            [
                "size: 4 by 2, and then 5 by 2",
                "6 same, 0 changed, 0 moved, 0 went, 0 came",
                "pictures have other sizes",
            ],
        )
        self.assertEqual(
            self.differ(*[event for event in STEPS["events"] if event["kind"] != "draw"], version=2),
            [
                "version: 1, and then 2",
                "went 3: draw 2 flat",
                "5 same, 0 changed, 0 moved, 1 went, 0 came",
                "pictures first differ at 3 and 2",
                "images: 2 of 8 pixels differ, in the box 0 0 2 1",
                "most at 0 0: 200 100 50 255, and then 10 20 30 40",
                "at the end",
                "images: the same",
            ],
        )

    def test_each_hunt(self):
        """Of each hunt the mended capture differs in its bug, and the end differs where the hunt's bug shows."""
        for path in sorted(HUNTS.glob("*_mended.json")):
            status, told, errors = self.compared(path.with_name(path.name.replace("_mended", "")), path)
            self.assertEqual((status, errors), (1, ""), path)
            self.assertTrue(any(line.startswith("pictures first differ at ") for line in told), (path, told))
            self.assertIn(" pixels differ, in the box ", told[-2], path)

    def test_few_pictures_are_asked_for(self):
        """Behind events that are the same, from a state and a picture that are so, nothing differs: fdb goes over
        them at once."""
        asked, counted = self.folder / "asked", self.folder / "counted"
        counted.write_text(f'#!/bin/sh\ntee -a {asked} | {PROGRAM} "$@"\n')
        counted.chmod(0o755)
        clears = [{"kind": "clear", "color": [i, 0, 0, 0]} for i in range(50)]
        one, other = (self.steps_of(f"{name}.json", {"kind": "marker", "name": name}, *clears) for name in ("a", "b"))
        self.assertEqual(self.compared(one, other, "--program", str(counted))[1][-1], "pictures differ nowhere")
        self.assertLess(asked.read_text().count("show"), 6)


class Statuses(Captures):
    """As diff(1) has them: 0 alike, 1 they differ, above 1 trouble."""

    def test_trouble(self):
        steps, refused = self.steps(), self.written("refused.json", "[]")
        self.assertEqual(self.compared(steps, refused), (2, [], "framedbg: capture refused 3 not a capture\n"))
        self.assertEqual(self.compared(refused, steps), (2, [], "framedbg: capture refused 3 not a capture\n"))
        self.assertEqual(
            self.compared(steps, self.folder / "none"),
            (3, [], f"fdb: {self.folder / 'none'}: No such file or directory\n"),
        )

    def test_words(self):
        steps = str(self.steps())
        for words in (
            ["--diff", steps],
            ["--diff", steps, steps, steps],
            ["--diff", steps, steps, "-x", "a"],
            ["--diff", steps, steps, "--at", "1"],
            ["--diff", steps, steps, "--start", "a"],
            ["--diff"],
        ):
            status, told, errors = launched(*words)
            self.assertEqual((status, told, "usage: fdb" in errors), (2, "", True), words)
        self.assertEqual(launched()[0], 1)

    def test_as_a_program(self):
        steps, other = self.steps(), self.steps_of("other.json", *STEPS["events"][:5])
        self.assertEqual(
            launched("--diff", steps, other, "--batch", "--program", PROGRAM),
            (1, "went 6: clear 1 2 3 4\n5 same, 0 changed, 0 moved, 1 went, 0 came\npictures differ nowhere\n", ""),
        )
        self.assertEqual(launched("--diff", steps, steps, "--program", PROGRAM), (0, "", ""))


class Lists(unittest.TestCase):
    """The common part of two lists: what stays in its order."""

    def test_by_hand(self):
        for one, other, wanted in (
            ("", "", 0),
            ("abc", "abc", 3),
            ("abc", "xbz", 1),
            ("abcd", "bcda", 3),
            ("aab", "ab", 2),
            ("abab", "baba", 3),
            ("xay", "bab", 1),
        ):
            self.assertEqual(len(common(one, other)), wanted, (one, other))

    def test_by_chance(self):
        """Each pair is of equals, in order; lists that differ in few places have all else in common."""
        chance = random.Random(5)
        for _ in range(200):
            one = [chance.randrange(8) for _ in range(chance.randrange(30))]
            other = [item for item in one if chance.random() < 0.8] + [
                chance.randrange(8) for _ in range(chance.randrange(3))
            ]
            pairs = common(one, other)
            self.assertTrue(all(one[i] == other[j] for i, j in pairs))
            self.assertEqual(
                (pairs, len({i for i, _ in pairs}), len({j for _, j in pairs})),
                (sorted(pairs, key=lambda pair: pair[1]), len(pairs), len(pairs)),
            )
        one = list(range(5000))
        self.assertEqual(len(common(one, one[:100] + one[101:])), 4999)

    def test_steps(self):
        """(event of the one, event of the other): 0 where it goes over none of them."""
        self.assertEqual(aligned("abc", "xbc", ("kkk", "kkk")), [(1, 1), (2, 2), (3, 3)])
        self.assertEqual(aligned("abc", "bxc", ("abc", "bxc")), [(1, 0), (2, 1), (0, 2), (3, 3)])


if __name__ == "__main__":
    unittest.main()
