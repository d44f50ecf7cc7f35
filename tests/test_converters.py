#!/usr/bin/env python3
"""test_converters: what both converters of real frames see to: corners that a capture takes, of a target of any
size, a capture that framedbg reads, and nothing of what others print."""
import contextlib
import dataclasses
import io
import json
import os
import pathlib
import subprocess
import sys
import tempfile
import types
import unittest
from unittest import mock

from folders import CHECKS, TESTS, TOOLS

import captures
from captures import MOST_POSITION
from frames_testing import state
from framedbg_client.program import tried_program
from real_frames import after, telling
from real_frames.fault import Fault
from real_frames.placing import placed
from real_frames.raster import Triangle
from real_frames.viewport import Viewport
from rules.snapping import snap


def placed_on(viewport, shapes, **more):
    return placed(
        shapes, dataclasses.replace(state(), viewport=viewport, **more), types.SimpleNamespace(add=lambda *_: None)
    )


class Corners(unittest.TestCase):
    def test_each_stays_within_what_a_capture_takes(self):
        """Triangles, lines and points with their width, cut far to all sides, of viewports on large targets and
        beside them."""
        corners = [(x, y, 0.5, w) for x in (-90, -0.9, 0.9, 90) for y in (-90, -0.9, 0.9, 90) for w in (1, 0.01)]
        shapes = [
            ((0, number), tuple(corners[(number * 7 + k * 5) % len(corners)] for k in range(1 + number % 3)))
            for number in range(96)
        ]
        for place in (
            (0, 0, 2000, 1400),
            (900, 500, 1100, 900),
            (-700, -900, 800, 1000),
            (0, 1400, 2000, -1400),
            (0, 0, 16384, 16384),
        ):
            for y_up in (False, True):
                found = placed_on(Viewport(*place, y_up=y_up), shapes, width=900.0)
                self.assertGreater(len(found), 40)
                far = max(abs(value) for _, three in found for x, y, _ in three for value in (x, y))
                self.assertTrue(16000 << 16 < far <= MOST_POSITION, (place, far / 65536))

    def test_what_is_cut_covers_what_it_covered(self):
        """The right corner lies 70,000 pixels away: on the target there is a strip, whose lower edge rises by 2
        rows."""
        clip = lambda x, y: (x / 1000 - 1, y / 700 - 1, 0.5, 1)
        rows = {}
        for _, corners in placed_on(
            Viewport(0, 0, 2000, 1400), [((0, 0), (clip(0, 100), clip(70000, 100), clip(0, 170)))]
        ):
            for y, x0, x1 in Triangle([(snap(x), snap(y)) for x, y, _ in corners]).spans(2000, 1400):
                rows.setdefault(y, []).append((x0, x1))
        wanted = {
            **{y: (0, 2000) for y in range(100, 168)},
            168: (0, 1500),
            169: (0, 500),
        }  # the edge lies at x = 1000 (169.5 - y) on row y
        self.assertEqual({y: (min(parts)[0], max(parts)[1]) for y, parts in rows.items()}, wanted)
        self.assertTrue(
            all(sum(x1 - x0 for x0, x1 in parts) == wanted[y][1] for y, parts in rows.items())
        )  # each pixel once


class Reading(unittest.TestCase):
    """A capture is read by framedbg before it is written."""

    right = captures.frame(1, 1, [captures.clear(1, 2, 3, 4)])

    def written(self, capture, program):
        """What is to be written, and what was told; a Fault's text in place of the first."""
        told = io.StringIO()
        with mock.patch.object(telling, "find_program", lambda: program and str(program)), contextlib.redirect_stderr(
            told
        ):
            try:
                return telling.written(capture), told.getvalue()
            except Fault as fault:
                return fault, told.getvalue()

    def test_a_program_is_given_the_very_text(self):
        with tempfile.TemporaryDirectory() as folder:
            path = pathlib.Path(folder, "framedbg")
            path.write_text(f"#!/bin/sh\necho $1 > {folder}/word\ncat \"$2\" > {folder}/read\necho events 1 at 0\n")
            path.chmod(0o755)
            made, told = self.written(self.right, path)
            self.assertEqual((made, told), (captures.text(self.right), ""))
            self.assertEqual([pathlib.Path(folder, name).read_text() for name in ("word", "read")], ["events\n", made])

    def test_what_it_refuses_is_not_written(self):
        with tempfile.TemporaryDirectory() as folder:
            path = pathlib.Path(folder, "framedbg")
            for line, wanted in (
                (
                    "echo 'framedbg: capture refused 8 bad field 5' >&2; exit 2",
                    "framedbg: capture refused 8 bad field 5",
                ),
                ("exit 3", f"{path} ended with status 3"),
            ):
                path.write_text(f"#!/bin/sh\n{line}\n")
                path.chmod(0o755)
                fault, told = self.written(self.right, path)
                self.assertIsInstance(fault, Fault)
                self.assertEqual(
                    (str(fault), told),
                    (f"framedbg doesn't take what was made of the frame, so nothing is written: {wanted}", ""),
                )
            path.chmod(0o644)
            self.assertEqual(str(self.written(self.right, path)[0]), f"{path}: Permission denied")

    def test_the_program_itself(self):
        program = pathlib.Path(tried_program())
        if not program.exists():
            self.skipTest("framedbg isn't built")
        self.assertEqual(self.written(self.right, program), (captures.text(self.right), ""))
        far = captures.frame(
            1, 1, [captures.draw([captures.vertex(MOST_POSITION + by, 0, (1, 2, 3, 4), 0) for by in (0, 1, 2)])]
        )
        self.assertIn("refused 8 bad field 1", str(self.written(far, program)[0]))

    def test_none(self):
        self.assertEqual(
            self.written(self.right, None),
            (captures.text(self.right), "there is no framedbg here, so none has read this capture\n"),
        )

    def test_what_fits_of_a_frame_is_told(self):
        """Markers and state before a draw go with it; a draw of two events fits where both do."""
        draw = (
            lambda event: [{**captures.marker(f"{event} draw()"), "source": {"event": event}}]
            + [
                {
                    **captures.draw([captures.vertex(0, 0, (1, 2, 3, 4), 0)] * 3),
                    "source": {"event": event, "primitives": [[0, 0]]},
                }
            ]
            * 2
        )
        capture = captures.frame(
            1, 1, [{**captures.clear(1, 2, 3, 4), "source": {"event": 2}}, *draw(5), *draw(8), *draw(13)]
        )
        upto = [len(captures.text(dict(capture, events=capture["events"][:end]))) for end in (1, 4, 7, 10)]
        for most, wanted in (
            (upto[3] - 1, "2 of its 3 draws fit, up to 8, and --draws ..8 takes these"),
            (upto[2], "2 of its 3 draws fit, up to 8, and --draws ..8 takes these"),
            (upto[2] - 1, "1 of its 3 draws fit, up to 5, and --draws ..5 takes these"),
            (upto[1], "1 of its 3 draws fit, up to 5, and --draws ..5 takes these"),
            (upto[1] - 1, "its first draw doesn't fit"),
        ):
            with mock.patch.object(telling, "MOST_BYTES", most):
                self.assertEqual(
                    str(self.written(capture, None)[0]),
                    f"the capture has {upto[3]} bytes, and {most} are the most: {wanted}",
                )
        with mock.patch.object(telling, "MOST_BYTES", upto[3]):
            self.assertEqual(self.written(capture, None)[0], captures.text(capture))


LOUD = f"""
import os, runpy, sys, types
sys.path[:0] = [{str(TESTS)!r}, {str(CHECKS)!r}]
import folders
from frames_testing import StandIn, clear, draw, quad, state, OVER, TARGET

class ReplayedFrame(StandIn):
    actions = [clear(2, (9, 9, 9, 255), 1.0), draw(5, quad(3, 2, 15, 12, .5, (200, 0, 0, 90)), state(blend=OVER))]
    textures = {{TARGET: types.SimpleNamespace(resourceId=TARGET)}}

    def __init__(self, path):
        super().__init__(*([clear(2, (9, 9, 9, 255))] if str(path) == "cleared.rdc" else self.actions))
        self.controller = self
        self.details = types.SimpleNamespace(names={{TARGET: "lit"}})

    def __enter__(self):
        return self

    def __exit__(self, *_):
        os.write(1, b"NOISE ")

    def shown_target(self):
        return TARGET

    def list_targets(self):
        yield "target 7"

    def draws_of_targets(self):
        return {{TARGET: (2, 5, 1)}}

    def go(self, event):
        os.write(1, b"NOISE ")
        if os.environ.get("INTERRUPTED"):
            os.kill(os.getpid(), 2)
        os.system("printf NOISE")
        super().go(event)

    def marked(self, target, kind):
        os.write(1, b"NOISE ")
        return bytes(24 * 16)

    def PixelHistory(self, *_):
        os.write(1, b"NOISE ")
        return []

sys.modules["renderdoc"] = types.SimpleNamespace(CompType=types.SimpleNamespace(Typeless=0), DebugOverlay=types.SimpleNamespace(Drawcall=0, Depth=0), Subresource=lambda *_: 0)
sys.modules["real_frames.replay"] = types.SimpleNamespace(ReplayedFrame=ReplayedFrame)
os.write(1, b"HERE ")
sys.argv = sys.argv[1:]
runpy.run_path(sys.argv[0], run_name="__main__")
"""


class Prints(unittest.TestCase):
    """What RenderDoc's module prints by the descriptor of standard output, or a process of it, goes to standard
    error."""

    def run_loud(self, *words):
        told = subprocess.run(
            [sys.executable, "-c", LOUD, *map(str, words)],
            env={**os.environ, "DISPLAY": ":none"},
            capture_output=True,
            text=True,
            timeout=60,
        )
        self.assertIn("NOISE", told.stderr)
        self.assertTrue(told.stdout.startswith("HERE "), told.stderr)  # before the tool begins it is as it was
        return told.returncode, told.stdout.removeprefix("HERE "), told.stderr

    def test_the_converter_and_the_comparisons(self):
        self.assertEqual(self.run_loud(TOOLS / "renderdoc_to_capture", "--list", "frame.rdc")[:2], (0, "target 7\n"))
        with tempfile.TemporaryDirectory() as folder:
            status, made, told = self.run_loud(TOOLS / "renderdoc_to_capture", "--quiet", "frame.rdc")
            self.assertEqual((status, [event["kind"] for event in json.loads(made)["events"]][-1]), (0, "draw"), told)
            path = pathlib.Path(folder, "frame.json")
            path.write_text(made)
            for name in ("compare_coverage", "compare_history"):
                status, lines, told = self.run_loud(CHECKS / name, "--program", tried_program(), "frame.rdc", path)
                self.assertNotIn("NOISE", lines)
                self.assertTrue(lines if pathlib.Path(tried_program()).exists() else "No such file" in told, told)

    def test_the_captures_of_all_targets_are_told(self):
        """The events of one are two clears, a marker, three parts of the state and the draw."""
        for frame, events in (("frame.rdc", "7 events"), ("cleared.rdc", "1 event")):
            with tempfile.TemporaryDirectory() as folder:
                words = ["--quiet", "--all", "--out", folder, frame]
                status, made, told = self.run_loud(TOOLS / "renderdoc_to_capture", *words)
                self.assertEqual((status, made), (0, ""), told)
                self.assertIn(f"target_7.json: lit, 24 by 16, {events}\n", told)
                self.assertTrue(pathlib.Path(folder, "target_7.json").exists())

    def test_pictures_are_compared_pixel_by_pixel(self):
        """Of 384 pixels one is changed in each of two texels, by 3 and by 250; of planes with another colour the 120
        of the draw."""
        if not pathlib.Path(tried_program()).exists():
            self.skipTest("framedbg isn't built")
        with tempfile.TemporaryDirectory() as folder:
            path = pathlib.Path(folder, "frame.json")
            capture = json.loads(self.run_loud(TOOLS / "renderdoc_to_capture", "--quiet", "frame.rdc")[1])
            compared = lambda *more: (
                path.write_text(json.dumps(capture)),
                self.run_loud(CHECKS / "compare_pictures", "--program", tried_program(), *more, "frame.rdc", path),
            )[1]
            self.assertEqual(
                compared()[:2],
                (
                    0,
                    "2 clear(): 0 pixels differ\n5 draw(): 0 pixels differ\npictures: 0 pixels differ in all, "
                    "after 0 of 2 draws, clears and copies\n",
                ),
            )
            capture["events"].append({**captures.blend(False), "source": {"event": 5, "name": "draw()"}})
            box = captures.picture(7, 9, 2, 1, bytes([77, 6, 6, 205, 6, 6, 255, 255]))
            corners = [captures.corner(x << 16, y << 16, 0) for x, y in ((7, 9), (9, 9), (9, 10), (7, 10))]
            capture["events"].append(
                {**captures.picture_draw(corners, box, [0, 1, 3, 1, 2, 3]), "source": {"event": 5, "name": "draw()"}}
            )
            status, lines, told = compared()
            self.assertEqual(status, 1)
            self.assertEqual(
                lines.splitlines()[1:],
                [
                    "5 draw(): 2 pixels differ, by 249 at most, first 7 9",
                    "pictures: 2 pixels differ in all, after 1 of 2 draws, clears and copies",
                ],
            )
            self.assertIn("compare_pictures: more than 0 pixels differ", told)
            self.assertEqual(compared("--may-differ", "2")[0], 0)
            self.assertEqual(
                compared("--most", "1")[1].splitlines()[0], "5 draw(): 2 pixels differ, by 249 at most, first 7 9"
            )

    def test_draws_that_are_there_for_their_depths_are_not_compared(self):
        event = lambda number, kind="draw", **more: {
            "kind": kind,
            "source": {"event": number, "name": "draw()", **more},
        }
        capture = {
            "events": [
                event(3, depth_alone=True),
                event(4, name="before"),
                event(5, "marker"),
                event(5),
                event(5),
                event(9, "clear"),
                event(12, "blend"),
            ]
        }
        self.assertEqual(list(after.positions_of(capture).items()), [(5, 5), (9, 6)])

    def test_pictures_and_planes(self):
        for words, version in (
            ([], 3),
            (["--pictures"], 3),
            (["--planes"], 2),
            (["--detail", "8"], 2),
            (["--colours", "distinct"], 2),
            (["--planes", "--detail", "8"], 2),
        ):
            self.assertEqual(
                json.loads(self.run_loud(TOOLS / "renderdoc_to_capture", "--quiet", *words, "frame.rdc")[1])["version"],
                version,
                words,
            )
        for words in (
            ["--pictures", "--planes"],
            ["--pictures", "--detail", "8"],
            ["--pictures", "--colours", "distinct"],
        ):
            told = subprocess.run(
                [sys.executable, TOOLS / "renderdoc_to_capture", *words, "frame.rdc"],
                capture_output=True,
                text=True,
                timeout=60,
            )
            self.assertEqual((told.returncode, told.stdout), (2, ""), words)
            self.assertIn("argument --pl" if "--planes" in words else "argument --pictures: not with", told.stderr)

    def test_a_ctrl_c_while_a_frame_is_read_leaves_nothing(self):
        with mock.patch.dict(os.environ, {"INTERRUPTED": "1"}):
            status, made, told = self.run_loud(TOOLS / "renderdoc_to_capture", "--quiet", "frame.rdc")
        self.assertEqual((status, made), (130, ""))
        self.assertTrue(told.endswith("renderdoc_to_capture: interrupted\n"), told)

    def test_a_ctrl_c_while_a_file_is_written_comes_too_late(self):
        """Of a file; a pipe, whose reader may wait for ever, is left."""
        script = f"""
import os, signal, sys
signal.signal(signal.SIGINT, signal.default_int_handler)  # what runs in the background may have it ignored
sys.path.insert(0, {str(TOOLS)!r})
from real_frames import telling
class Output:
    fileno = sys.stdout.fileno
    flush = sys.stdout.flush
    def write(self, text, real=sys.stdout):
        real.write(text[:4])
        os.kill(os.getpid(), signal.SIGINT)
        real.write(text[4:])
sys.stdout = Output()
telling.put_out("whole text")
os.kill(os.getpid(), signal.SIGINT)
sys.stdout.write("and more")
"""
        with tempfile.NamedTemporaryFile() as file:
            subprocess.run([sys.executable, "-c", script], stdout=file, stderr=subprocess.DEVNULL, timeout=60)
            self.assertEqual(pathlib.Path(file.name).read_text(), "whole text")  # the second one isn't held
        self.assertEqual(
            subprocess.run([sys.executable, "-c", script], capture_output=True, timeout=60).stdout, b"whol"
        )

    def test_progress_is_told_as_it_goes(self):
        told = self.run_loud(TOOLS / "renderdoc_to_capture", "frame.rdc")[2]
        self.assertIn("draw 1 of 1: 5 draw()\n", told)
        self.assertIn("writing draw 1 of 1: 5 draw()\n", told)

    def test_another_python_s_output_is_the_tool_s(self):
        with tempfile.TemporaryDirectory() as folder:
            python = pathlib.Path(folder, "python3")
            python.write_text("#!/bin/sh\necho made\n")
            python.chmod(0o755)
            script = (
                f"import sys\nsys.path.insert(0, {str(TOOLS)!r})\nfrom real_frames import "
                f"module\nmodule.is_here = lambda: False\nmodule.SYSTEM_S_PYTHON = {str(python)!r}\n"
                "module.guarded('tool', module.run_by_its_python)"
            )
            told = subprocess.run([sys.executable, "-c", script], capture_output=True, text=True, timeout=60)
        self.assertEqual((told.returncode, told.stdout, told.stderr), (0, "made\n", ""))


if __name__ == "__main__":
    unittest.main()
