#!/usr/bin/env python3
"""test_captures: the emitters of captures (tools/captures.py, share/framedbg_capture.h, share/framedbg_capture.rs)
and their examples.

Each example is run, and has to give the one capture; what an emitter writes of hostile words has to be accepted by
build/reference.py.
"""
import json
import os
import pathlib
import shutil
import subprocess
import sys
import tempfile
import unittest

from folders import TOP

import reference
from captures import Capture, Fault, label, place

EXAMPLES = TOP / "share/emitting"
COMPILERS = {"C99": ["cc", "-std=c99", "-x", "c"], "C++": ["c++", "-std=c++11", "-x", "c++"]}
HOSTILE = r'''#include "framedbg_capture.h"
#include <assert.h>
int main(int count, char **words) {
    const char *path = words[count - 1];
    framedbg_vertex v[3] = {{0, 0, 0, 1, 2, 3, 4}, {9, 0, -1, 1, 2, 3, 4}, {0, 9, 7, 1, 2, 3, 4}};
    static const uint8_t texel[4] = {1, 2, 3, 4};
    framedbg_picture p = {16383, 0, 1, 1, texel, NULL};
    static const uint32_t beyond[3] = {0, 1, 3};
    framedbg_capture *c;
    framedbg_marker(NULL, "nothing"); framedbg_clear(NULL, 1, 2, 3, 4); framedbg_depth_clear(NULL, 1); framedbg_raster(NULL, 9, 0, 0); framedbg_scissor(NULL, 0, 0, 1, 1);
    framedbg_blend(NULL, 1, "", "", 99); framedbg_factor(NULL, 0, 0, 0, 0); framedbg_depth(NULL, 1, 1, "?"); framedbg_draw(NULL, 1, v, 3, NULL, 0); framedbg_source(NULL, 1);
    framedbg_draw_picture(NULL, &p, v, 3, NULL, 0);
    assert(framedbg_end(NULL) == FRAMEDBG_FILE);
    assert(!framedbg_begin("/nonexistent/frame.json", 4, 4) && !framedbg_begin(path, 0, 4) && !framedbg_begin(path, 4, 16385));
#define FAILS(call, fault) c = framedbg_begin(path, 4, 4); assert(c); call; framedbg_clear(c, 1, 2, 3, 4); assert(framedbg_end(c) == fault)
#define DRAW_FAILS(change, back, fault) c = framedbg_begin_with_pictures(path, 4, 4); assert(c); change; framedbg_draw_picture(c, &p, v, 3, NULL, 0); back; assert(framedbg_end(c) == fault)
    FAILS(framedbg_draw_picture(c, &p, v, 3, NULL, 0), FRAMEDBG_NO_PICTURES);
    DRAW_FAILS(p.left = 16384, p.left = 16383, FRAMEDBG_RANGE); DRAW_FAILS(p.top = -1, p.top = 0, FRAMEDBG_RANGE); DRAW_FAILS(p.top = 16384, p.top = 0, FRAMEDBG_RANGE);
    DRAW_FAILS(p.left = -1, p.left = 16383, FRAMEDBG_RANGE); DRAW_FAILS(p.width = 0, p.width = 1, FRAMEDBG_RANGE); DRAW_FAILS(p.height = 0, p.height = 1, FRAMEDBG_RANGE);
    DRAW_FAILS(p.width = 16385, p.width = 1, FRAMEDBG_RANGE); DRAW_FAILS(p.height = 16385, p.height = 1, FRAMEDBG_RANGE); DRAW_FAILS(p.rgba = NULL, p.rgba = texel, FRAMEDBG_RANGE);
    DRAW_FAILS(v[1].x = 16385, v[1].x = 9, FRAMEDBG_RANGE); DRAW_FAILS(p.left = 0, p.left = 16383, FRAMEDBG_FINE);
    FAILS(framedbg_raster(c, 3, 0, 0), FRAMEDBG_WORD); FAILS(framedbg_raster(c, -1, 0, 0), FRAMEDBG_WORD);
    FAILS(framedbg_depth(c, 1, 1, "LES"), FRAMEDBG_WORD); FAILS(framedbg_depth(c, 1, 1, "LESS EQUAL"), FRAMEDBG_WORD); FAILS(framedbg_depth(c, 1, 1, ""), FRAMEDBG_WORD);
    FAILS(framedbg_blend(c, 1, "ONE ZERO", "ONE ZERO ADD", 15), FRAMEDBG_WORD); FAILS(framedbg_blend(c, 1, "ONE ZERO ADD", "SRC_COLOR ZERO ADD", 15), FRAMEDBG_WORD);
    FAILS(framedbg_blend(c, 1, "ONE ZERO ADD", "ONE ZERO ADD", 16), FRAMEDBG_RANGE); FAILS(framedbg_draw(c, 1, v, 3, beyond, 3), FRAMEDBG_RANGE);
    v[1].x = 16385; FAILS(framedbg_draw(c, 1, v, 3, NULL, 0), FRAMEDBG_RANGE);
    v[1].x = NAN; FAILS(framedbg_draw(c, 1, v, 3, NULL, 0), FRAMEDBG_RANGE);
    v[1].x = 9; FAILS(framedbg_draw(c, 1, v, 200000, NULL, 0), FRAMEDBG_TOO_MANY);
    c = framedbg_begin(path, 4, 4);
    framedbg_marker(c, "quote \" slash \\ tab \t end \x7f \xff\xc3 \xed\xa0\x80");
    framedbg_marker(c, "\xc3\xa9\xc3\xa9\xc3\xa9\xc3\xa9\xc3\xa9\xc3\xa9\xc3\xa9\xc3\xa9\xc3\xa9\xc3\xa9\xc3\xa9\xc3\xa9\xc3\xa9\xc3\xa9\xc3\xa9\xc3\xa9\xc3\xa9\xc3\xa9\xc3\xa9\xc3\xa9\xc3\xa9\xc3\xa9\xc3\xa9\xc3\xa9\xc3\xa9\xc3\xa9\xc3\xa9\xc3\xa9\xc3\xa9\xc3\xa9\xc3\xa9-\xc3\xa9");
    framedbg_blend(c, 1, "SRC_COLOR DEST_COLOR MAX", "DEST_ALPHA INV_BLEND_FACTOR MIN", 5); framedbg_factor(c, 1, 2, 3, 4);
    framedbg_depth_clear(c, NAN); framedbg_depth_clear(c, 0.5); framedbg_draw(c, 0, v, 3, NULL, 0); framedbg_draw(c, 0, v, 0, beyond, 0);
    assert(framedbg_end(c) == FRAMEDBG_FINE);
    return 0;
}
'''


LENGTHS = r'''#include "framedbg_capture.h"
int main(int count, char **words) {
    static const framedbg_vertex v[3] = {{0, 0, 0, 9, 9, 9, 9}, {64, 0, 0.5, 9, 9, 9, 9}, {0, 4, 1, 9, 9, 9, 9}};
    framedbg_capture *c = framedbg_begin_with_pictures(words[count - 1], 64, 4);
    uint8_t rgba[240], holes[60];
    framedbg_picture picture;
    int n, i;
    for (n = 1; n <= 60; n++) {
        for (i = 0; i < 4 * n; i++) rgba[i] = (uint8_t)(i * 37 + n);
        for (i = 0; i < n; i++) holes[i] = i * i % 7 < 3 ? (uint8_t)(i + 1) : 0;
        picture.left = n; picture.top = 2; picture.width = n; picture.height = 1;
        picture.rgba = rgba; picture.holes = n % 2 ? holes : NULL;
        framedbg_draw_picture(c, &picture, v, 3, NULL, 0);
    }
    return framedbg_end(c);
}
'''


def lacking(program):
    """Leaves a test out where a program is missing; with CI=true that is a failure."""
    if shutil.which(program):
        return False
    if os.environ.get("CI") == "true":
        raise AssertionError(f"{program} isn't installed")
    return True


def wrong_calls(capture):
    """What the fault of a call says, and the call."""
    red = (255, 0, 0, 255)
    painted = lambda box, rgba, holes=None: capture.draw_picture([(0, 0, 0)] * 3, box, rgba, holes)
    return {
        "a target of 0 by 4": lambda: Capture(0, 4),
        "a target of 4 by 16385": lambda: Capture(4, 16385),
        "sideways is no cull mode": lambda: capture.raster("sideways", 0, 0),
        "LES is no comparison": lambda: capture.depth(1, 1, "LES"),
        "blend part 'ONE ZERO'": lambda: capture.blend(1, "ONE ZERO"),
        "SRC_COLOR is no factor of alpha": lambda: capture.blend(1, alpha="SRC_COLOR ZERO ADD"),
        "PLUS is no operation": lambda: capture.blend(1, "ONE ZERO PLUS"),
        "mask 16": lambda: capture.blend(0, mask=16),
        "index 3 of 3": lambda: capture.draw([(0, 0, 0, red)] * 3, indices=[0, 1, 3]),
        "position 16385": lambda: capture.draw([(16385, 0, 0, red)] * 3),
        "position nan": lambda: capture.draw([(float("nan"), 0, 0, red)] * 3),
        "colour": lambda: capture.clear(256, 0, 0, 0),
        "a draw of 196609 corners": lambda: capture.draw([(0, 0, 0, red)] * 196609),
        "w is 0": lambda: place((0, 0, 0, 0), (0, 0, 4, 4)),
        "a picture of 1 by 1 at 16384, 0": lambda: painted((16384, 0, 1, 1), bytes(4)),
        "a picture of 1 by 1 at 0, -1": lambda: painted((0, -1, 1, 1), bytes(4)),
        "a picture of 0 by 1": lambda: painted((0, 0, 0, 1), b""),
        "a picture of 1 by 16385": lambda: painted((0, 0, 1, 16385), bytes(4 * 16385)),
        "with 8 bytes: 4 are wanted": lambda: painted((0, 0, 1, 1), bytes(8)),
        "with 2 holes: 1 truths": lambda: painted((0, 0, 1, 1), bytes(4), [1, 0]),
        "index 3 of 3 corners": lambda: capture.draw_picture(
            [(0, 0, 0)] * 3, (0, 0, 1, 1), bytes(4), indices=[0, 1, 3]
        ),
    }


class Emitters(unittest.TestCase):
    def setUp(self):
        folder = tempfile.TemporaryDirectory()
        self.addCleanup(folder.cleanup)
        self.folder = pathlib.Path(folder.name)

    def of_python(self):
        environment = {**os.environ, "PYTHONPATH": str(TOP / "tools"), "PYTHONDONTWRITEBYTECODE": "1"}
        return subprocess.run(
            [sys.executable, EXAMPLES / "frame.py"], env=environment, capture_output=True, check=True
        ).stdout

    def compiled(self, words, source, name):
        if lacking(words[0]):
            self.skipTest(f"{words[0]} isn't installed")
        program = self.folder / name
        subprocess.run(
            [
                *words,
                "-O1",
                "-Wall",
                "-Wextra",
                "-Werror",
                "-pedantic",
                "-I",
                TOP / "share",
                source,
                "-o",
                program,
                "-x",
                "none",
                "-lm",
            ],
            check=True,
        )
        subprocess.run([program, self.folder / f"{name}.json"], check=True)
        return (self.folder / f"{name}.json").read_bytes()

    def test_the_examples_make_one_capture(self):
        wanted = self.of_python()
        self.assertIsNone(reference.fault(wanted))
        for language, words in COMPILERS.items():
            made = self.compiled(words, EXAMPLES / "frame.c", language)
            self.assertIsNone(reference.fault(made), language)
            self.assertEqual(json.loads(made), json.loads(wanted), language)

    def test_the_example_in_rust(self):
        if lacking("rustc"):
            self.skipTest("rustc isn't installed")
        program = self.folder / "rust"
        subprocess.run(["rustc", "-D", "warnings", "-o", program, EXAMPLES / "frame.rs"], check=True, cwd=TOP)
        self.assertEqual(
            json.loads(subprocess.run([program], capture_output=True, check=True).stdout), json.loads(self.of_python())
        )

    def test_the_quads_are_where_they_were_put(self):
        """By arithmetic of one's own: the middle of each, and its front, with y up and counter-clockwise as OpenGL
        has it."""
        capture = json.loads(self.of_python())
        frame = reference.Frame(capture)
        draws = [event for event in capture["events"] if event["kind"] == "draw"]
        self.assertEqual([event["source"]["event"] for event in draws], [1, 2, 3, 4])
        self.assertEqual([event["vertices"][0]["z"] for event in draws], [32768, 26214, 19661, 13107])
        self.assertEqual(
            (draws[0]["vertices"][0]["x"] >> 16, draws[0]["vertices"][0]["y"] >> 16), (251, 98)
        )  # 160 (1 + .6 cos .3), 120 (1 - .6 sin .3)
        drawn = [entry[2] for entry in frame.replay(len(frame.events), 160, 120)[1]]
        self.assertEqual(drawn, ["drawn"] * 5)  # the clears, and each quad's triangle

    def test_the_decal_is_where_it_was_put(self):
        """Its first texel lies at 100, 60 and is a hole; texel x, y is 30 x, 40 y, 255 - 30 x, 255; beyond 8 by 5
        texels nothing is put out."""
        capture = json.loads(self.of_python())
        self.assertEqual(capture["version"], 3)
        frame = reference.Frame(capture)
        told = {
            place: frame.replay(len(frame.events), *place)[1][-1][2:4]
            for place in ((100, 60), (101, 60), (103, 64), (107, 60), (108, 60), (100, 65), (99, 60))
        }
        self.assertEqual(
            told,
            {
                (100, 60): ("discarded", (0, 0, 0, 0)),
                (101, 60): ("drawn", (30, 0, 225, 255)),
                (103, 64): ("drawn", (90, 160, 165, 255)),
                (107, 60): ("drawn", (210, 0, 45, 255)),
                (108, 60): ("discarded", (0, 0, 0, 0)),
                (100, 65): ("discarded", (0, 0, 0, 0)),
                (99, 60): ("discarded", (0, 0, 0, 0)),
            },
        )

    def test_every_length_of_a_picture(self):
        """Base64 by Python's own, at each rest of three: 1 to 60 texels, with holes and without; what is emitted in
        C is what is emitted in Python."""
        source, wanted = self.folder / "lengths.c", Capture(64, 4)
        source.write_text(LENGTHS)
        corners = [(0, 0, 0), (64, 0, 0.5), (0, 4, 1)]
        for count in range(1, 61):
            holes = [i * i % 7 < 3 for i in range(count)]
            wanted.draw_picture(
                corners,
                (count, 2, count, 1),
                bytes((i * 37 + count) % 256 for i in range(4 * count)),
                holes if count % 2 else None,
            )
        self.assertEqual(wanted.events[0]["picture"]["texels"], "ASZLcA==")  # 1, 38, 75, 112
        self.assertEqual(wanted.events[2]["picture"]["holes"], "Aw==")  # 0, 1 and 4 by 7: the first two are below 3
        self.assertIsNone(reference.fault(wanted.text().encode()))
        for language, words in COMPILERS.items():
            self.assertEqual(
                json.loads(self.compiled(words, source, f"lengths {language}")), json.loads(wanted.text()), language
            )

    def test_hostile_words_in_c(self):
        source = self.folder / "hostile.c"
        source.write_text(HOSTILE)
        for language, words in COMPILERS.items():
            made = self.compiled(words, source, f"hostile {language}")
            self.assertIsNone(reference.fault(made), made)
            names = [event["name"] for event in json.loads(made)["events"] if event["kind"] == "marker"]
            self.assertEqual(names, ['quote " slash \\ tab  end  ?? ???', "é" * 31 + "-"])
            depths = [event["depth"] for event in json.loads(made)["events"] if event["kind"] == "depth_clear"]
            self.assertEqual(depths, [0, 32768])

    def test_hostile_words_in_python(self):
        capture = Capture(4, 4)
        red = (255, 0, 0, 255)
        for why, call in wrong_calls(capture).items():
            with self.assertRaisesRegex(Fault, why):
                call()
        capture.marker("tab \t é" * 20, source={"event": 7})
        capture.depth_clear(float("nan"))
        capture.depth_clear(0.5)
        capture.draw([(-16384, 16384, 2, red), (1, 2, -1, red), (3, 4, 0.5, red)], False, source={"event": 8})
        self.assertIsNone(reference.fault(capture.text().encode()))
        self.assertEqual([event.get("depth") for event in capture.events[1:3]], [0, 32768])
        self.assertEqual(capture.events[-1]["source"], {"event": 8})
        self.assertEqual(json.loads(capture.text())["version"], 2)
        capture.draw_picture([(0, 0, 0)] * 3, (16383, 16383, 1, 1), bytes(4), [True])
        self.assertIsNone(reference.fault(capture.text().encode()))
        self.assertEqual(json.loads(capture.text())["version"], 3)

    def test_labels(self):
        self.assertEqual(label("a\tb\x7fc"), "abc")
        self.assertEqual(label("é" * 40), "é" * 32)
        self.assertEqual(label("x" + "é" * 40), "x" + "é" * 31)

    def test_places(self):
        view = (10, 20, 100, 50)
        self.assertEqual(place((-2, 2, -2, 2), view), (10, 20, 0))  # OpenGL: the upper left corner, the near plane
        self.assertEqual(place((-2, 2, 0, 2), view, half_depth=True), (10, 20, 0))  # Direct3D
        self.assertEqual(
            place((2, 2, 2, 2), view, half_depth=True, y_up=False), (110, 70, 1)
        )  # Vulkan: the lower right corner, the far plane


if __name__ == "__main__":
    unittest.main()
