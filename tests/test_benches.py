#!/usr/bin/env python3
"""test_benches: the town that the benches draw, and how two programs are measured by turns. Nothing is measured, and
no built program is needed.

    tests/test_benches.py [TEST ..]
"""
import collections
import contextlib
import functools
import io
import json
import os
import pathlib
import subprocess
import sys
import tempfile
import unittest
from unittest import mock

from folders import BENCHES

import count_instructions
import few_tiles
import scenes
import table
import town
import turns
from bench import Asked, Bench
from turns import Taken, Work

from reference import Frame, fault

SMALL = 16
STATES = {"raster", "scissor", "blend", "factor", "depth"}
# a program that answers as framedbg does, and works so many thousand rounds at each move
STAND_IN = """#!{python}
import sys
place = 0
for line in sys.stdin:
    words = line.split()
    if words[0] == "quit":
        break
    if words[0] == "goto":
        place = int(words[1])
    if words[0] in ("goto", "history"):
        sum(range({thousands} * 1000))
    print({{"goto": "at %d" % place, "history": "history 1", "pixel": "pixel 0 0 0 0", "step": "bad 2 arguments"}}[words[0]], flush=True)
"""
PERF = """#!/bin/sh
while [ "$1" != -o ]; do shift; done
cat > /dev/null < /dev/null
printf '# started on\\n\\n%s\\n' "{line}" > "$2"
"""


@functools.lru_cache
def made(seed=1, pieces=None, scale=1):
    return town.Town(seed, pieces, scale)


def ran(*words, **more):
    return subprocess.run(
        [sys.executable, *words], capture_output=True, check=False, timeout=300, env={**os.environ, **more}
    )


def program(folder, name, text):
    path = pathlib.Path(folder) / name
    path.write_text(text)
    path.chmod(0o755)
    return path


class InAFolder(unittest.TestCase):
    def setUp(self):
        folder = tempfile.TemporaryDirectory()
        self.addCleanup(folder.cleanup)
        self.folder = pathlib.Path(folder.name)


def drawn(capture):
    """What a capture draws: each triangle's corners with the state that it meets, and all clears, in turn."""
    state, found = {}, []
    for event in json.loads(capture)["events"]:
        if event["kind"] in STATES:
            state[event["kind"]] = event
        elif event["kind"] == "draw":
            corners = [event["vertices"][number] for number in event["indices"]]
            found += [(corners[at : at + 3], event["interp"], dict(state)) for at in range(0, len(corners), 3)]
        elif event["kind"] != "marker":
            found.append(event)
    return found


def doubled(corners):
    """Twice a triangle's area in pixels, above zero where its corners go clockwise as they are seen, since y goes
    down."""
    (ax, ay), (bx, by), (cx, cy) = [corner[:2] for corner in corners]
    return (bx - ax) * (cy - ay) - (by - ay) * (cx - ax)


def entries(capture):
    """The history of a pixel near the middle, by the reference: event, triangle and verdict first."""
    frame = Frame(json.loads(capture))
    return frame.replay(len(frame.events), frame.width // 2 + 1, frame.height // 2)[1]


# Answers each line, and counts 2 more where it comes to its end
FAKE_VALGRIND = """#!/usr/bin/env python3
import signal, sys

def stopped(number, _):
    print("Collected : 7", file=sys.stderr, flush=True)
    signal.signal(number, signal.SIG_DFL)
    signal.raise_signal(number)

signal.signal(signal.SIGTERM, stopped)
for line in sys.stdin:
    print(line, end="", flush=True)
print("Collected : 9", file=sys.stderr)
"""


class CountedScenes(unittest.TestCase):
    def test_states_let_draw_nothing(self):
        for states, version, verdict in [
            (count_instructions.CULLED, 1, "culled"),
            (count_instructions.SHUT, 1, "scissored"),
            (count_instructions.NEVER, 2, "depthfailed"),
        ]:
            capture = count_instructions.undrawn(24, 3, states, version)
            self.assertIsNone(fault(capture))
            self.assertEqual({entry[2] for entry in entries(capture)}, {verdict})
            self.assertEqual(len(entries(capture)), 3)

    def test_squares_cover_each_pixel_once_and_look_alike(self):
        shown = []
        for are_pictures in (True, False):
            capture = count_instructions.squares(4, 2, are_pictures)
            self.assertIsNone(fault(capture))
            self.assertEqual([entry[2] for entry in entries(capture)], ["drawn", "drawn"])
            shown.append([Frame(json.loads(capture)).replay(3, x, y)[0] for x in range(4) for y in range(4)])
        self.assertEqual(*shown)

    def test_a_small_picture_lies_in_the_first_tile(self):
        capture = count_instructions.small_pictures(24, 3)
        self.assertIsNone(fault(capture))
        self.assertEqual([entry[2] for entry in entries(capture)], ["discarded"] * 3)
        corner = Frame(json.loads(capture)).replay(3, 7, 7)[1]
        self.assertEqual([entry[2] for entry in corner], ["drawn"] * 3)

    def test_a_clear_is_counted_where_a_draw_left_no_two_pixels_alike(self):
        scene = count_instructions.clear_of_what_was_drawn(8)
        self.assertIsNone(fault(scene.capture))
        row = [Frame(json.loads(scene.capture)).replay(2, x, 0)[0] for x in range(8)]
        self.assertEqual(len(set(map(tuple, row))), 8)
        self.assertEqual((scene.before, scene.commands), ("goto 2\n", "step\n"))

    def test_a_small_draw_has_eight_pixels_and_a_step_goes_over_it(self):
        scene = count_instructions.SCENES["back_small_draw_64"]()
        self.assertIsNone(fault(scene.capture))
        frame = Frame(json.loads(scene.capture))
        drawn = [frame.replay(5, x, y)[1] for x in range(8) for y in range(8)]
        self.assertEqual([len(entries) for entries in drawn if entries], [5] * 8)
        self.assertEqual((len(frame.events), scene.before, scene.commands), (9, "goto 4\n", "back\n"))

    def test_what_is_read_is_counted_beside_half_of_it(self):
        for kind in count_instructions.READ:
            scene = count_instructions.SCENES[f"read_{kind}"]()
            self.assertIsNone(fault(scene.capture))
            sizes = [len(json.loads(capture)["events"]) for capture in (scene.capture, scene.half)]
            self.assertEqual((sizes, scene.count, scene.commands), ([2000, 1000], 1000, ""))
        # a program that takes an instruction for each byte that it reads
        with tempfile.TemporaryDirectory() as folder, mock.patch.object(
            count_instructions, "counted", lambda program, path, commands, is_stopped: path.stat().st_size
        ):
            read = count_instructions.measured("a program", scene, pathlib.Path(folder) / "scene.json")
        self.assertEqual(read, len(scene.capture) - len(scene.half))

    def test_a_way_back_and_the_next_one_end_with_their_replies(self):
        for name, before, command in [
            ("to_the_start", "goto {}\n", "goto 0\n"),
            ("once_more", "goto {}\ngoto 0\n", "goto {}\n"),
        ]:
            scene = count_instructions.SCENES[f"small_{name}"]()
            end = len(json.loads(scene.capture)["events"])
            self.assertEqual((scene.before, scene.commands), (before.format(end), command.format(end)))
            self.assertTrue(scene.is_stopped)

    def test_a_run_is_stopped_behind_its_last_reply(self):
        with tempfile.TemporaryDirectory() as folder:
            file = pathlib.Path(folder) / "valgrind"
            file.write_text(FAKE_VALGRIND)
            file.chmod(0o755)
            with mock.patch.dict(os.environ, PATH=f"{folder}:{os.environ['PATH']}"):
                found = [count_instructions.counted("a program", file, "goto 1\n", it) for it in (True, False)]
        self.assertEqual(found, [7, 9])

    def test_a_scene_ends_at_its_last_event(self):
        scene = count_instructions.SCENES["small"]()
        self.assertEqual(scene.commands, f"goto {len(json.loads(scene.capture)['events'])}\n")


class Towns(InAFolder):
    def test_the_same_words_write_the_same_bytes(self):
        written = []
        for number, (seed, order) in enumerate([("1", "1"), ("1", "2"), ("2", "1")]):
            path = self.folder / str(number)
            self.assertEqual(
                ran(BENCHES / "town.py", "--scale", str(SMALL), "--seed", seed, path, PYTHONHASHSEED=order).returncode,
                0,
            )
            written.append(path.read_bytes())
        self.assertEqual(written[0], written[1])
        self.assertNotEqual(written[0], written[2])

    def test_how_large_they_are(self):
        for pieces, draws, events in [(None, 3_250, 7_000), (3, 35_000, 70_000)]:
            self.assertEqual(made(pieces=pieces).side, 2048)
            for there, wanted in [
                (made(pieces=pieces).draws, draws),
                (len(made(pieces=pieces).events), events),
                (made(pieces=pieces).triangles, 104_000),
            ]:
                self.assertLess(abs(there - wanted), 0.05 * wanted)

    def test_counts_are_those_of_the_events(self):
        there, events = made(pieces=3, scale=SMALL), json.loads(made(pieces=3, scale=SMALL).capture())["events"]
        sizes = [len(event["indices"]) // 3 for event in events if event["kind"] == "draw"]
        self.assertEqual((len(sizes), sum(sizes), len(events)), (there.draws, there.triangles, len(there.events)))
        self.assertLessEqual(max(sizes), 3)

    def test_what_stands_in_it(self):
        events = made(scale=SMALL).events
        self.assertEqual({event["kind"] for event in events}, STATES | {"clear", "depth_clear", "draw", "marker"})
        names = collections.Counter(event["name"].split()[0] for event in events if event["kind"] == "marker")
        # a sixteenth of 900 houses, 700 clouds and 660 panels
        self.assertEqual(
            names, {"sky": 1, "ground": 1, "house": 56, "bunny": 16, "particles": 43, "fog": 3, "tone": 3, "panel": 41}
        )

    def test_pieces_draw_the_same(self):
        self.assertEqual(drawn(made(scale=SMALL).capture()), drawn(made(pieces=3, scale=SMALL).capture()))

    def test_it_is_a_capture(self):
        for pieces in (None, 3):
            self.assertIsNone(fault(made(pieces=pieces, scale=SMALL).capture()))

    def test_the_camera_sees_the_front_of_a_house(self):
        for seed in range(8):
            house = town.House(made(seed, scale=SMALL), 0, 100)
            walls = [house.wall(number, (-4, 0, 4, 6), 0, (0, 0, 0, 255)) for number in range(4)]
            front = [sum(corner[2] for corner in wall) for wall in walls if doubled(wall[:3]) > 0]
            back = [sum(corner[2] for corner in wall) for wall in walls if doubled(wall[:3]) <= 0]
            self.assertIn(len(front), (1, 2))
            self.assertLess(sum(front) / len(front), sum(back) / len(back))

    def test_the_camera_sees_the_land_from_above(self):
        ground = next(
            event
            for event in made(scale=SMALL).events
            if event["kind"] == "draw" and event["interp"] == "linear" and len(event["vertices"]) > 20
        )
        corners = [(vertex["x"], vertex["y"]) for vertex in ground["vertices"]]
        for at in range(0, len(ground["indices"]), 3):
            self.assertGreater(doubled([corners[number] for number in ground["indices"][at : at + 3]]), 0)

    def test_the_state_event_in_the_middle_sets_something(self):
        for there in (made(scale=SMALL), made(pieces=3, scale=SMALL)):
            state, distances = {}, {}
            for number, event in enumerate(there.events, 1):
                kind = event["kind"]
                if kind in STATES and state.get(kind) != event:
                    distances[number] = abs(2 * number - len(there.events))
                    state[kind] = event
            self.assertEqual(distances[there.middle_change()], min(distances.values()))

    def test_what_is_told(self):
        there = made(scale=SMALL)
        told = ran(BENCHES / "town.py", "--scale", str(SMALL), "-")
        self.assertEqual((told.returncode, told.stdout), (0, there.capture()))
        self.assertEqual(
            told.stderr.decode(),
            f"town: {there.draws} draws of {there.triangles:,} triangles, {len(there.events)} events, 128 by 128\n",
        )
        self.assertIn(b"--pieces", ran(BENCHES / "town.py", "--help").stdout)

    def test_faults_are_a_line(self):
        nowhere = ran(BENCHES / "town.py", "--scale", str(SMALL), self.folder / "no" / "where")
        self.assertEqual((nowhere.returncode, nowhere.stderr.count(b"\n")), (1, 1))
        for words in (["--pieces", "0"], ["--scale", "x"]):
            told = ran(BENCHES / "town.py", *words, "-")
            self.assertEqual((told.returncode, told.stderr.count(b"Traceback")), (2, 0))


class Captures(unittest.TestCase):
    def test_nothing_is_drawn_by_triangles_without_an_area_or_culled_ones(self):
        for flat in (True, False):
            raster, draw = json.loads(few_tiles.nothing_drawn(64, 10, flat))["events"]
            corners = [(vertex["x"], vertex["y"]) for vertex in draw["vertices"]]
            self.assertEqual(draw["indices"], [0, 1, 2] * 10)
            # by default triangles that go counter-clockwise are culled
            self.assertTrue(
                doubled(corners) == 0 and raster["cull"] == "none"
                if flat
                else doubled(corners) < 0 and raster["kind"] == "marker"
            )

    def test_triangles_in_random_order_lie_apart(self):
        scene = scenes.shuffled_mesh(256, 1_000)
        places = [triangle[0][:2] for triangle in scene.triangles]
        leg = scene.triangles[0][1][0] - places[0][0]
        self.assertEqual((len(set(places)), leg), (1_000, 8))
        self.assertTrue(all(x % leg == y % leg == 0 and x + leg <= 256 and y + leg <= 256 for x, y in places))
        self.assertNotEqual(places, sorted(places, key=lambda place: (place[1], place[0])))


class Turns(InAFolder):
    def test_programs_take_turns(self):
        order, times = [], iter([3, 30, 1, 20, 2, 10])

        def run(name):
            order.append(name)
            return next(times) / 100, len(order)

        self.assertEqual(turns.best(["a", "b"], run, 3), [Taken(0.01, 0.1), Taken(1, 2)])
        self.assertEqual("".join(order), "ababab")

    def test_what_takes_long_is_not_run_again(self):
        order = []
        turns.best(["a", "b"], lambda name: order.append(name) or (100 if name == "b" else 1,), 3)
        self.assertEqual("".join(order), "abaa")

    def test_what_is_asked(self):
        for asked, compared, is_beside, words, is_reached in [
            (Asked(times=10), Taken(1, 11), True, "<= 1/10", True),
            (Asked(times=10), Taken(1, 9), True, "<= 1/10", False),
            (Asked(times=10), Taken(1, 9), False, "", True),
            (Asked(ratio=2), Taken(3, 1), False, "<= 2", False),
            (Asked(ratio=2), Taken(3, 1), True, "", True),
            (Asked(most=4), Taken(5), False, "<= 4 s", False),
            (Asked(least=4), Taken(3), False, ">= 4 s", False),
            (Asked(least=2, most=4), Taken(3), False, "<= 4 s, >= 2 s", True),
        ]:
            self.assertEqual(
                (asked.words(compared, "s", is_beside), asked.is_reached(compared, is_beside)), (words, is_reached)
            )

    def test_both_programs_are_measured(self):
        light, heavy = (
            program(self.folder, name, STAND_IN.format(python=sys.executable, thousands=thousands))
            for name, thousands in (("light", 20), ("heavy", 3_000))
        )
        bench, printed = Bench(self.folder, False, heavy), io.StringIO()
        bench.programs[0] = light
        with contextlib.redirect_stdout(printed):
            taken = bench.timed("some work", Work(self.folder, (), ("goto 7",), "at 7"), times=2)
            bench.timed("the work before", Work(self.folder, ("goto 7",), ("pixel 0 0",), "pixel 0 0 0 0"), times=1)
        self.assertLess(2 * taken.here, taken.beside)
        first = printed.getvalue().splitlines()[0]
        self.assertRegex(first, r"^ *0(\.\d+)? +<= 1/2  some work +[\d.]+ ms, beside it [\d.,]+ ms$")
        self.assertAlmostEqual(float(first.split()[0]), taken.here / taken.beside, 1)
        self.assertEqual(bench.figures["some work"], (taken.here * 1e3, "ms", None))

    def setUp(self):
        super().setUp()
        # what stands in for the program is found where the program is asked for
        patch = mock.patch("bench.PROGRAM", program(self.folder, "any", ""))
        patch.start()
        self.addCleanup(patch.stop)

    def test_an_answer_that_is_not_the_known_one_ends_it(self):
        bench = Bench(self.folder, False)
        bench.programs[0] = program(self.folder, "light", STAND_IN.format(python=sys.executable, thousands=1))
        with self.assertRaisesRegex(SystemExit, "goto 7 was answered by at 7"):
            bench.best(Work(self.folder, (), ("goto 7",), "at 8"))

    def test_a_program_that_is_none(self):
        with self.assertRaisesRegex(SystemExit, "none is no program"):
            Bench(self.folder, False, self.folder / "none")


class Counting(InAFolder):
    def counted(self, perf):
        if perf:
            program(self.folder, "perf", perf)
        with mock.patch.dict(os.environ, PATH=f"{self.folder}:{'/usr/bin:/bin' if perf else ''}"):
            return turns.Counter(self.folder)

    def test_what_perf_counts(self):
        counter = self.counted(PERF.format(line="4711,,instructions:u,100,100.00,,"))
        self.assertEqual(counter.run(["true"], b""), 4711)

    def test_what_goes_before_is_taken_off(self):
        counter, given = self.counted(PERF.format(line="1,,instructions:u,1")), []
        counter.run = lambda words, text: given.append(text) or 100 * len(text)
        self.assertEqual(counter.work("p", Work("c", ("a",), ("bc", "d"), "")), 500)
        self.assertEqual(sorted(given), [b"a\n", b"a\nbc\nd\n"])

    def test_where_it_is_not_there(self):
        for perf, why in [
            (None, "there is no perf"),
            (PERF.format(line="<not supported>,,instructions:u,0"), "no instructions on this machine"),
        ]:
            with self.assertRaisesRegex(turns.NotCounted, why):
                self.counted(perf)

    def test_it_is_said(self):
        said = io.StringIO()
        with mock.patch.dict(os.environ, PATH=str(self.folder)), contextlib.redirect_stderr(said):
            self.assertIsNone(turns.counter(self.folder))
        self.assertEqual(said.getvalue(), "measure: no instructions: there is no perf\n")


HALF = f"""{table.HEAD}
|---|---|---|---|
| b | | 9 s | |
| the same | | 9 s | |

## Not measured yet

These will be.

- a
- c

## More

- a
"""
ROWS = [
    table.Row("a", ("first",)),
    table.Row("b", ("second",)),
    table.Row("the same", ("third",)),
    table.Row("c", ("fourth", "fifth")),
]


class Tables(unittest.TestCase):
    def test_what_is_measured_first_goes_to_its_place(self):
        once, count = table.written(HALF, {"first": (1, "s", None)}, ROWS)
        self.assertEqual(
            (once, count),
            (
                HALF.replace("| b |", "| a | | 1 s | |\n| b |").replace(
                    "yet\n\nThese will be.\n\n- a\n", "yet\n\nThese will be.\n\n"
                ),
                1,
            ),
        )
        twice, count = table.written(once, {"third": (2, "s", None), "fourth": (3, "s", 2), "fifth": (4, "s", 2)}, ROWS)
        wanted = once.replace("| the same | | 9 s | |", "| the same | | 2 s | |\n| c | 1.5, 2 | 3, 4 s | 2, 2 |")
        self.assertEqual((twice, count), (wanted.replace("## Not measured yet\n\nThese will be.\n\n- c\n\n", ""), 2))

    def test_half_a_row_is_not_written(self):
        self.assertEqual(table.written(HALF, {"fourth": (3, "s", 2)}, ROWS), (HALF, 0))

    def test_what_waits(self):
        self.assertEqual(table.waiting(HALF), ["a", "c"])
        self.assertEqual(table.waiting(f"{table.HEAD}\n|---|---|---|---|\n"), [])

    def test_a_page_of_other_rows(self):
        for page in (
            HALF.replace("- c\n", ""),
            HALF.replace("- c\n", "- c\n- d\n"),
            HALF.replace("| b | | 9 s | |\n", ""),
        ):
            with self.assertRaises(table.Fault):
                table.written(page, {}, ROWS)


class Measures(unittest.TestCase):
    def test_words_that_are_wrong(self):
        for words, why in [(["nothing"], b"nothing"), (["--beside", "x", "workers"], b"measure one program alone")]:
            told = ran(BENCHES / "measure.py", *words)
            self.assertEqual((told.returncode, why in told.stderr, b"Traceback" in told.stderr), (2, True, False))
        told = ran(
            BENCHES / "measure.py", "--write", "events_on_a_tile", SCALE="2", MEASURED=os.devnull
        )  # a wrong version writes
        self.assertEqual(
            (told.returncode, told.stderr),
            (1, b"measure: with SCALE the sizes aren't those of the page, so nothing is written\n"),
        )


if __name__ == "__main__":
    unittest.main()
