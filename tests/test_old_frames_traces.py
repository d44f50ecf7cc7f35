"""The converter of apitrace's traces without apitrace: traces that are read, and the tool over them."""
import io
import json
import os
import pathlib
import pickle
import subprocess
import sys
import tempfile
import types
import unittest

from folders import TOOLS

from frames_testing import image_of
from old_frames_testing import Trace

import reference
from old_frames import calls, retrace
from old_frames import numbers as gl
from old_frames.calls import ENDS_FRAME, RENDERS
from old_frames.frame import wanted_in
from real_frames.fault import Fault

WIDTH, HEIGHT = 40, 30
# in the place of `apitrace sed`: a line more of what was exchanged, and in which calls
CHANGED = """{ cat "$9"; echo "$4 $6:" $(cat "${2#--calls=@}"); } > "$8" """
TOOL = TOOLS / "apitrace_to_capture"


def pickled(trace):
    return b"".join(
        pickle.dumps((call.number, call.name, list(call.words.items()), call.result, call.flags))
        for call in trace.calls
    )


def stream(content):
    return io.BufferedReader(io.BytesIO(content))


class Traces(unittest.TestCase):
    def test_calls_are_read_as_they_were_written(self):
        trace = Trace()("glVertex3fvARB", [1.0, 2.0, 3.0])("glVertex2f", 4.0, 5.0)
        vector, plain = calls.read(stream(pickled(trace)))
        self.assertEqual((vector.name, vector.values(), plain.values()), ("glVertex3fv", [1, 2, 3], [4, 5]))

    def test_addresses_are_numbers_and_nothing_else_is_made(self):
        self.assertEqual(
            next(
                calls.read(
                    stream(
                        b"\x80\x03(K\x05U\x03abcq\x01]q\x02U\x01pq\x03cunpickle\nPointer\nM\x00\x10\x85R\x86aNK\x00t."
                    )
                )
            ).words,
            {"p": 4096},
        )
        for bad, what in (
            (pickle.dumps(os.getcwd), "posix.getcwd"),
            (pickle.dumps(types.SimpleNamespace(a=1)), "types.SimpleNamespace"),
            (b"\x80\x03(K\x05", "can't be read"),
            (pickle.dumps((1, 2)), "can't be read"),
            (b"nonsense", "can't be read"),
        ):
            with self.assertRaisesRegex(Fault, what):
                list(calls.read(stream(bad)))

    def test_pictures(self):
        snapshots = retrace.Snapshots.__new__(retrace.Snapshots)
        snapshots.size, snapshots.kept = None, {}
        snapshots.read(
            io.BytesIO(b"P6\n#4\n2 1\n255\nabcdef" b"P6\n#9\n2 1\n255\nghijkl" b"P6\n#10\n2 1\n255\nshort"),
            [4, 9, 10],
            lambda line: None,
        )
        self.assertEqual(
            (snapshots.size, sorted(snapshots.kept), snapshots.picture(9)), ((2, 1), [4, 9], b"ghi\xffjkl\xff")
        )
        with self.assertRaisesRegex(Fault, "size changes"):
            snapshots.read(io.BytesIO(b"P6\n#4\n1 1\n255\nabc"), [4], lambda line: None)


class Tool(unittest.TestCase):
    """The tool beside an apitrace and a glretrace that give what the test put there."""

    def run_tool(self, trace, *more, pictures=None, own=None, info=None, state="{}"):
        with tempfile.TemporaryDirectory() as name:
            folder = pathlib.Path(name)
            frames = sum(bool(call.flags & ENDS_FRAME) for call in trace.calls)
            (folder / "info").write_text(json.dumps({"FramesCount": frames, "API": "OpenGL"}) if info is None else info)
            (folder / "pickle").write_bytes(pickled(trace))
            (folder / "pictures").write_bytes(pictures or b"")
            (folder / "own").write_bytes(own or b"")
            (folder / "state").write_text(state)
            (folder / "sed").write_text(CHANGED if own is not None else "echo it breaks; exit 1")
            self.program(folder / "apitrace", f'case "$1" in sed) . "{folder}/sed";; *) cat "{folder}/$1";; esac')
            self.program(
                folder / "glretrace",
                f'case "$1 $5" in "-S "*game.trace) cat "{folder}/pictures";; -S*) cp "$5" "{folder}/changed"; '
                f'cat "{folder}/own";; -D*) cat "{folder}/state";; esac',
            )
            (folder / "game.trace").touch()
            told = self.asked(folder, folder / "game.trace", *more)
            self.changes = (folder / "changed").read_text().splitlines() if (folder / "changed").exists() else []
            return told

    @staticmethod
    def program(path, line):
        path.write_text(f"#!/bin/sh\n{line}\n")
        path.chmod(0o755)

    @staticmethod
    def asked(folder, *given):
        environment = {
            **os.environ,
            "PATH": f"{folder}:/usr/bin:/bin",
            "DISPLAY": ":none",
            "PYTHONDONTWRITEBYTECODE": "1",
        }
        return subprocess.run(
            [sys.executable, TOOL, *map(str, given)], env=environment, capture_output=True, text=True, timeout=60
        )

    @staticmethod
    def scene():
        trace = Trace()("glViewport", 0, 0, WIDTH, HEIGHT).corners(4, (0, 0), (1, 0), (0, 1)).swap()
        trace("glClear", mask=0x4000, flags=RENDERS).corners(7, (-1, 0), (0, 0), (0, 1), (-1, 1)).corners(
            4, (0, 0), (0.5, -1), (1, 0)
        ).swap()
        return trace

    @staticmethod
    def picture(number, *boxes):
        rows = [[b"\x10\x20\x30"] * WIDTH for _ in range(HEIGHT)]
        for (left, top, right, bottom), colour in boxes:
            for y in range(top, bottom):
                rows[y][left:right] = [bytes(colour)] * (right - left)
        return f"P6\n#{number}\n{WIDTH} {HEIGHT}\n255\n".encode() + b"".join(map(b"".join, rows))

    def pictures(self):
        quad = (0, 0, WIDTH // 2, HEIGHT // 2), (200, 100, 50)
        before, after = self.picture(14, quad), self.picture(19, quad, ((26, 17, 34, 20), (5, 250, 5)))
        return self.picture(6) + self.picture(7) + before + after

    def test_a_frame_from_its_calls_and_its_pictures(self):
        told = self.run_tool(
            self.scene(), "--quiet", pictures=self.pictures(), state='{"parameters": {"GL_BLEND": "GL_TRUE"}}'
        )
        self.assertEqual(told.returncode, 0, told.stderr)
        capture = json.loads(told.stdout)
        self.assertIsNone(reference.fault(told.stdout.encode()))
        self.assertEqual(
            [
                (event["kind"], event["source"]["event"])
                for event in capture["events"]
                if event["kind"] in ("clear", "draw")
            ],
            [("clear", 7), ("draw", 13), ("draw", 18)],
        )
        self.assertEqual(capture["events"][0]["color"], [16, 32, 48, 255])
        quad = next(event for event in capture["events"] if event["kind"] == "draw")
        self.assertEqual(
            {(vertex["x"] >> 16, vertex["y"] >> 16, *vertex["color"]) for vertex in quad["vertices"]},
            {(x, y, 200, 100, 50, 255) for x in (0, WIDTH // 2) for y in (0, HEIGHT // 2)},
        )
        self.assertEqual(quad["source"], {"event": 13, "name": "glBegin(GL_QUADS)", "primitives": [[0, 0], [0, 0]]})
        self.assertIn("states of the last draw that glretrace has otherwise: GL_BLEND", told.stderr)

    def test_a_part_asks_for_its_own_pictures_alone(self):
        self.assertEqual(wanted_in([5, 7, 9, 9, 12], (0, 1 << 62)), [4, 5, 7, 9, 9, 12])
        self.assertEqual(wanted_in([5, 7, 9, 9, 12], (8, 10)), [7, 9, 9])
        picture = self.pictures()
        part = picture[len(self.picture(6)) + len(self.picture(7)) :]
        told = self.run_tool(self.scene(), "--quiet", "--draws", "15..", pictures=part)
        self.assertEqual(told.returncode, 0, told.stderr)
        draws = [event for event in json.loads(told.stdout)["events"] if event["kind"] == "draw"]
        self.assertEqual([event["source"]["event"] for event in draws][-1:], [18])
        self.assertEqual(draws[0]["source"]["name"], "before")
        self.assertEqual(image_of(json.loads(told.stdout))[4 * (3 * WIDTH + 3) :][:4], bytes((200, 100, 50, 255)))

    def test_the_alpha_of_a_blended_draw(self):
        """A glass of 200 100 50 and alpha 102 over 16 32 48; its own colours are those of a trace in which it isn't
        blended."""
        trace = Trace()("glViewport", 0, 0, WIDTH, HEIGHT)("glBlendFunc", 0x302, 1)("glBlendFunc", 0x302, 0x303)(
            "glBlendFunc", 1, 1
        )("glBlendFuncSeparateEXT", 1, 0x303, 1, 1)
        trace("glBlendFunc", 0x302, 0x303)("glEnable", cap=gl.BLEND)("glClear", mask=0x4000, flags=RENDERS).corners(
            7, (-1, 0), (0, 0), (0, 1), (-1, 1)
        ).swap()
        box = 0, 0, WIDTH // 2, HEIGHT // 2
        pictures = self.picture(6) + self.picture(7) + self.picture(13, (box, (90, 59, 49)))
        told = self.run_tool(trace, "--quiet", pictures=pictures, own=self.picture(13, (box, (200, 100, 50))))
        self.assertEqual(told.returncode, 0, told.stderr)
        glass = json.loads(told.stdout)["events"][-1]
        self.assertEqual({tuple(vertex["color"]) for vertex in glass["vertices"]}, {(200, 100, 50, 102)})
        self.assertNotIn("made up", told.stderr)
        self.assertEqual(
            self.changes,
            [
                "s/GL_ONE/GL_ZERO/ s/GL_SRC_ALPHA/GL_ONE/: 1",
                "s/GL_SRC_ALPHA/GL_ONE/ s/GL_ONE_MINUS_SRC_ALPHA/GL_ZERO/: 2 4 5",
            ],
        )
        told = self.run_tool(trace, "--quiet", "--fast", pictures=pictures)
        self.assertEqual(
            {tuple(vertex["color"]) for vertex in json.loads(told.stdout)["events"][-1]["vertices"]},
            {(90, 59, 49, 255)},
        )
        self.assertIn("1 blended draws whose alpha is made up", told.stderr)
        told = self.run_tool(trace, "--quiet", pictures=pictures)
        self.assertEqual(
            (told.returncode, told.stdout, told.stderr),
            (
                1,
                "",
                "apitrace_to_capture: apitrace sed can't change the trace: it breaks; with --fast it isn't asked to\n",
            ),
        )

    def test_pictures(self):
        """A glass of 200 100 50 and alpha 102 over 16 32 48 and over 7 80 9: after each call the picture is
        glretrace's."""
        trace = Trace()("glViewport", 0, 0, WIDTH, HEIGHT)("glBlendFunc", 0x302, 0x303)(
            "glClear", mask=0x4000, flags=RENDERS
        ).corners(7, (-1, 0), (0, 0), (0, 1), (-1, 1))
        trace("glEnable", cap=gl.BLEND).corners(7, (-1, -1), (1, -1), (1, 1), (-1, 1)).swap()
        box, whole = ((0, 0, WIDTH // 2, HEIGHT // 2), (7, 80, 9)), (0, 0, WIDTH, HEIGHT)
        glass = self.picture(
            15, (whole, (90, 59, 49)), (box[0], (84, 88, 25))
        )  # 200 100 50 times 2/5, and 3/5 of 16 32 48 and of 7 80 9
        pictures = self.picture(1) + self.picture(2) + self.picture(8, box) + glass
        told = self.run_tool(
            trace, "--quiet", "--pictures", pictures=pictures, own=self.picture(15, (whole, (200, 100, 50)))
        )
        self.assertEqual(told.returncode, 0, told.stderr)
        self.assertIsNone(reference.fault(told.stdout.encode()))
        capture = json.loads(told.stdout)
        self.assertEqual(capture["version"], 3)
        for call, content in ((8, self.picture(8, box)), (15, glass)):
            last = max(number for number, event in enumerate(capture["events"], 1) if event["source"]["event"] == call)
            shown = image_of(dict(capture, events=capture["events"][:last]))
            self.assertEqual(
                bytes(value for at, value in enumerate(shown) if at % 4 < 3), content.partition(b"\n255\n")[2]
            )
            self.assertEqual(set(shown[3::4]), {255})
        self.assertEqual(
            {tuple(vertex["color"]) for vertex in capture["events"][-1]["vertices"]}, {(200, 100, 50, 102)}
        )
        self.assertEqual(capture["events"][-1]["source"]["colours"], {"known": WIDTH * HEIGHT})
        self.assertIn("2 draws that write alpha", told.stderr)
        self.assertEqual(self.run_tool(trace, "--pictures", "--detail", "4").returncode, 2)

    def test_the_list_of_frames(self):
        self.assertEqual(
            self.run_tool(self.scene(), "--list").stdout.splitlines(),
            ["frame 0: calls 0 to 6, 1 draw or clear", "frame 1: calls 7 to 19, 3 draws and clears"],
        )

    def test_what_is_wrong_is_a_line(self):
        scene = self.scene()
        for told, what in (
            (self.run_tool(scene, "--frame", "2"), "it has frames 0 to 1, and no 2"),
            (self.run_tool(scene), "glretrace gave 0 of 4 pictures"),
            (self.run_tool(scene), "or take_frame --zink"),
            (self.asked("/nowhere", "/nowhere/\x1b[2Jgame.trace"), "/nowhere/?[2Jgame.trace: No such file"),
            (self.run_tool(Trace()("glFlush").swap()), "frame 0 draws nothing on its window"),
            (self.run_tool(Trace()("glFlush")), "no frame of it ends"),
            (self.run_tool(scene, info="error"), "no trace of apitrace's"),
            (self.asked("/nowhere", "/nowhere/game.trace"), "No such file"),
            (self.run_tool(scene, pictures=self.pictures()[:-5]), "glretrace gave 3 of 4"),
            (self.run_tool(scene, "--draws", "900..", pictures=self.pictures()), "between the events"),
        ):
            self.assertEqual(
                (told.returncode, told.stdout, told.stderr.strip().splitlines()[-1:]),
                (1, "", told.stderr.strip().splitlines()[-1:]),
            )
            self.assertTrue(told.stderr.strip().splitlines()[-1].startswith("apitrace_to_capture: "), told.stderr)
            self.assertIn(what, told.stderr)
        self.assertEqual(self.run_tool(scene, "--frame", "-1").returncode, 2)

    def test_no_apitrace(self):
        with tempfile.NamedTemporaryFile() as file:
            told = subprocess.run(
                [sys.executable, TOOL, file.name],
                env={**os.environ, "PATH": "/nowhere", "DISPLAY": ":none"},
                capture_output=True,
                text=True,
                timeout=60,
            )
        self.assertEqual(
            (told.returncode, told.stderr),
            (1, "apitrace_to_capture: there is no apitrace; on Debian: apt install apitrace\n"),
        )


if __name__ == "__main__":
    unittest.main()
