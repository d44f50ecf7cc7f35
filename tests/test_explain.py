#!/usr/bin/env python3
"""test_explain: what is explained stands where it says, and whether a capture is accepted is never told otherwise
than by framedbg.

    tests/test_explain.py [--seed N] [--cases N] [TEST ..]

Captures are changed by chance, as values and as bytes: all are compared with build/reference.py, and some with the
program (FRAMEDBG names another).
"""
import base64
import copy
import json
import os
import pathlib
import random
import resource
import subprocess
import sys
import tempfile
import unittest

from folders import TOOLS, TOP

import browser
import captures
import origins
import reference
from explaining import json_text
from explaining.verdict import explained
from framedbg_client.program import tried_program
from page import packing

EXAMPLES = TOP / "examples"
PROGRAM = tried_program()

SEED, CASES, RUN_CASES, PAGE_CASES = 20, 3000, 150, 800
CORNER = {"x": 65536, "y": -65536, "z": 9, "color": [1, 2, 3, 4]}
FRAME = {
    "format": "framedbg",
    "version": 2,
    "width": 4,
    "height": 4,
    "events": [
        {"kind": "clear", "color": [1, 2, 3, 4]},
        {"kind": "raster", "cull": "none", "front_ccw": False, "scissor": True},
        {"kind": "scissor", "rect": [0, 0, 2, 2]},
        {
            "kind": "blend",
            "enable": True,
            "rgb": ["ONE", "SRC_COLOR", "ADD"],
            "alpha": ["ONE", "ZERO", "MIN"],
            "mask": 15,
        },
        {"kind": "factor", "color": [0, 0, 0, 0]},
        {"kind": "draw", "interp": "flat", "vertices": [CORNER] * 3, "indices": [0, 1, 2]},
        {"kind": "draw", "interp": "linear", "vertices": []},
        {"kind": "marker", "name": "a name"},
        {"kind": "depth", "enable": True, "write": True, "func": "LESS"},
        {"kind": "depth_clear", "depth": 65535},
    ],
}
READ = {
    "event": 40,
    "name": "glDraw()",
    "set_by": [[38, "glBlendFunc(GL_ONE, GL_ONE)"]],
    "shaders": {"pixel": "fog"},
    "textures": [{"id": 35, "name": "lit", "width": 320, "height": 240}, {"id": 9}],
    "reads": [{"target": 35, "event": 21}],
    "callstack": ["draw() at sky.c:12"],
}
READ_TOLD = [
    "call 40 glDraw()",
    "set by 38 glBlendFunc(GL_ONE, GL_ONE)",
    "pixel shader fog",
    "reads texture 35 lit, 320 by 240, made by target 35, at event 21",
    "reads texture 9",
    "at draw() at sky.c:12",
]
STRANGE = [
    {"set_by": 3, "shaders": [1], "textures": {}, "reads": "x", "callstack": None},
    {"set_by": [[1], [True, "x"], 4], "textures": ["a", {"id": -1}], "reads": [7], "shaders": "pixel"},
]
BOX = captures.picture(1, 0, 3, 2, bytes(range(24)), [0, 0, 1, 0, 0, 1])
WITH_PICTURES = {
    **FRAME,
    "version": 3,
    "events": [
        {
            "kind": "draw",
            "interp": "picture",
            "picture": BOX,
            "vertices": [captures.corner(0, 0, 9)] * 3,
            "indices": [0, 1, 2],
        }
    ]
    + FRAME["events"][4:],
}
WORDS = [
    "AAAA",
    "AAAA" * 8,
    "A" * 31 + "=",
    BOX["texels"][:-1] + "\n",
    "JA==",
    "JB==",
    "J===",
    "====",
    "JA",
    "picture",
    "framedbg",
    "clear",
    "draw",
    "depth",
    "flat",
    "ADD",
    "SRC_COLOR",
    "ONE",
    "less",
    "LESS",
    "",
    "a" * 65,
    "\u00e9" * 33,
    "\n",
    "\x7f",
    "none",
    "\u2028",
]
NUMBERS = [
    -1,
    0,
    1,
    2,
    3,
    15,
    16,
    255,
    256,
    65535,
    65536,
    16384,
    16385,
    1 << 30,
    (1 << 30) + 1,
    -(1 << 30) - 1,
    (1 << 31) - 1,
    1 << 31,
    -(1 << 31) - 1,
    (1 << 32) - 1,
    1 << 32,
    (1 << 63) - 1,
    1 << 63,
    1 << 64,
    10**400,
    -(10**400),
    1.0,
    0.5,
    1e308,
]
PIECES = [
    b"\\ud800",
    b"\\udc00\\ud800",
    b"\\ud83d\\ude00",
    b"\xff",
    b"\xef\xbb\xbf",
    b"\xed\xa0\x80",
    b"-0",
    b"1e400",
    b"1e-400",
    b"01",
    b"1.",
    b"+1",
    b".5",
    b"1E5",
    b"NaN",
    b"Infinity",
    b"null",
    b"true",
    b"tru",
    b"//",
    b",",
    b"]",
    b"}",
    b"[" * 130,
    b"[" * 126 + b"]" * 126,
    b"[" * 127 + b"]" * 127,
    b'"\\x"',
    b'"\t"',
    b'"\\u00e9"',
    b"\0",
    b"\x0b",
    b"\xa0",
    b" ",
    b"\r\n",
    b'"kind":"clear",',
    b'"version":1,',
]


def places(value, path=()):
    """Every path into a value."""
    yield path
    for step, inner in (
        value.items() if isinstance(value, dict) else enumerate(value) if isinstance(value, list) else ()
    ):
        yield from places(inner, (*path, step))


def changed(dice):
    """A capture with a value changed, taken away or set beside."""
    frame = copy.deepcopy(dice.choice([FRAME, FRAME, WITH_PICTURES]))
    frame["version"] = dice.choice([1, 2, 2, 2, 3]) if frame["version"] == 2 else dice.choice([3, 3, 3, 3, 2])
    for _ in range(dice.randint(0, 2)):
        path = dice.choice(list(places(frame))[1:] or [()])
        if not path:
            continue
        owner = frame
        for step in path[:-1]:
            owner = owner[step]
        how = dice.randrange(5)
        if how == 0:
            del owner[path[-1]]
        elif how == 1 and isinstance(owner, list):
            owner.insert(path[-1], copy.deepcopy(owner[path[-1]]))
        else:
            owner[path[-1]] = dice.choice(
                [
                    dice.choice(NUMBERS),
                    dice.choice(NUMBERS),
                    dice.choice(WORDS),
                    None,
                    True,
                    [],
                    {},
                    [0] * 4,
                    ["ONE"] * 3,
                    {"kind": "clear"},
                ]
            )
    return json.dumps(frame, ensure_ascii=dice.random() < 0.5).encode("utf-8", "surrogatepass")


def disturbed(dice):
    """Its text with bytes changed."""
    text = bytearray(changed(dice))
    for _ in range(dice.randint(0, 2)):
        at, how = dice.randrange(len(text) + 1), dice.randrange(4)
        if how == 0:
            del text[at : at + dice.randint(1, 3)]
        elif how == 1:
            del text[at:]
        else:
            text[at : at + (0 if how == 2 else dice.randint(1, 4))] = dice.choice(PIECES)
        if not text:
            return b" "
    return bytes(text)


def cases(count):
    dice = random.Random(SEED)
    for number in range(count):
        yield changed(dice) if number % 2 else disturbed(dice)
    for piece in PIECES:  # each where a value may stand, and around the whole
        whole = json.dumps(FRAME).encode()
        yield b'{"new":' + piece + b"," + whole[1:]
        yield whole.replace(b'"depth": 65535', b'"depth": ' + piece)
        yield piece + whole
        yield whole + piece


def told_by_reference(data):
    found = reference.fault(data)
    return " ".join(map(str, found)) if found else "accepted"


def told_by_tool(file, memory=resource.RLIM_INFINITY, **environment):
    limit = lambda: resource.setrlimit(resource.RLIMIT_AS, (memory, memory))
    return subprocess.run(
        [sys.executable, TOOLS / "explain", file],
        capture_output=True,
        timeout=60,
        preexec_fn=limit,
        env={**os.environ, **environment},
    )


class Explained(unittest.TestCase):
    def test_never_otherwise_than_the_reference(self):
        accepted = 0
        for data in cases(CASES):
            verdict = explained(data)[1]
            self.assertEqual(verdict, told_by_reference(data), data)
            accepted += verdict == "accepted"
        self.assertGreater(accepted, CASES // 20)

    @unittest.skipUnless(pathlib.Path(PROGRAM).exists(), "the program isn't built")
    def test_never_otherwise_than_framedbg(self):
        with tempfile.TemporaryDirectory() as folder:
            file = pathlib.Path(folder) / "frame.json"
            for data in cases(RUN_CASES):
                file.write_bytes(data)
                run = subprocess.run([PROGRAM, "events", file], capture_output=True)
                told = (
                    run.stderr.decode().strip().removeprefix("framedbg: capture refused ")
                    if run.returncode
                    else "accepted"
                )
                self.assertEqual(explained(data)[1], told, data)

    def test_the_examples_are_accepted(self):
        for file in sorted(EXAMPLES.glob("**/*.json")):
            self.assertTrue(explained(file.read_bytes())[0], file)

    def test_it_points_at_the_member(self):
        text = json.dumps(FRAME, indent=1)
        where = lambda found, more=0: "line {}, column {}".format(
            *json_text.line_and_column(text, text.index(found) + more)
        )
        change = lambda old, new: explained(text.replace(old, new, 1).encode())[2]
        self.assertEqual(
            change('"x": 65536', '"x": 1.5'),
            f"{where('65536,')}: event 6 (draw), vertex 0, x: a whole number from -1073741824 to 1073741824 of "
            "1/65536 pixel is wanted, not 1.5",
        )
        self.assertEqual(
            change('"func": "LESS"', '"func": "less"'),
            f"{where('LESS', -1)}: event 9 (depth), func: one of NEVER, LESS, EQUAL, LESS_EQUAL, GREATER, NOT_EQUAL, "
            'GREATER_EQUAL, ALWAYS is wanted (did you mean LESS?), not the text "less"',
        )
        self.assertEqual(
            change('"kind": "raster"', '"kind": "rastre"'),
            f'{where(chr(34) + "raster")}: event 2, kind: there is no kind "rastre" (did you mean raster?)',
        )
        self.assertIn(
            "event 5 (factor): the member color is missing: an array of 4 is wanted (did you mean colour?)",
            change('"color": [\n    0', '"colour": [\n    0'),
        )
        self.assertIn(
            "event 6 (draw), index 2: 3 names no vertex: the draw has 3, numbered from 0",
            change("    1,\n    2\n   ]\n  },\n", "    1,\n    3\n   ]\n  },\n"),
        )
        self.assertIn("the text ends too early", explained(text[:-1].encode())[2])
        self.assertEqual(explained(b'{\n "a": 1 2}')[2], "line 2, column 9: , or } is wanted here")
        twice = text.replace('"mask": 15', '"mask": 3,\n   "mask": 16', 1)  # of equal names the last counts
        line = twice[: twice.index('"mask": 16')].count("\n") + 1
        self.assertTrue(
            explained(twice.encode())[2].startswith(
                f"line {line}, column 12: event 4 (blend), mask: a whole number from 0 to 15 is wanted, not 16"
            )
        )

    def of_a_picture(self, name, value):
        """What is said of a picture with another member."""
        event = WITH_PICTURES["events"][0] | {"picture": BOX | {name: value}}
        text = explained(json.dumps({**WITH_PICTURES, "events": [event]}).encode())[2]
        return text.partition("event 1 (draw), picture, ")[2]

    def test_it_points_into_a_picture(self):
        change = self.of_a_picture
        self.assertEqual(change("left", 16384), "left: a whole number from 0 to 16383 of pixels is wanted, not 16384")
        self.assertEqual(change("height", 0), "height: a whole number from 1 to 16384 is wanted, not 0")
        self.assertEqual(change("texels", None), "texels: a text in base64 is wanted, of 24 bytes, not null")
        self.assertEqual(change("holes", None), "holes: a text in base64 is wanted, of 1 byte, not null")
        self.assertEqual(
            change("texels", "AAAA"),
            "texels: 24 bytes in base64 are wanted, four for each of 3 by 2 texels; the text has 3",
        )
        self.assertEqual(
            change("holes", "AAA="),
            "holes: 1 byte in base64 is wanted, a bit for each of 3 by 2 texels; the text has 2",
        )
        self.assertEqual(change("more", 1), "")

    def test_it_says_why_a_text_is_no_base64(self):
        change = self.of_a_picture
        none_of = "which is none of base64's (A to Z, a to z, 0 to 9, + and /)"
        self.assertEqual(
            change("texels", "A" * 9 + "\n" + "A" * 22), f"texels: character 9 of the text is '\\n', {none_of}"
        )
        self.assertEqual(change("texels", "AA==" + "A" * 28), f"texels: character 2 of the text is '=', {none_of}")
        self.assertEqual(change("texels", "A" * 31 + "_"), f"texels: character 31 of the text is '_', {none_of}")
        for text in ("A" * 31, "A" * 30 + "=", "J===", "===="):
            self.assertEqual(
                change("texels", text),
                f"texels: the text's {len(text)} characters aren't padded by = to whole fours, as base64 is",
                text,
            )
        self.assertEqual(
            change("texels", "A"), "texels: the text's 1 character isn't padded by = to whole fours, as base64 is"
        )
        self.assertEqual(
            change("holes", "JB=="),
            "holes: behind the last byte of the text stand bits that aren't zero: base64 spells these bytes "
            "with another last letter before =",
        )

    def test_it_says_what_is_wrong_with_a_draw_of_a_picture(self):
        told = lambda **members: explained(json.dumps({**WITH_PICTURES, **members}).encode())[2].partition(": ")[2]
        draw = WITH_PICTURES["events"][0]
        self.assertEqual(
            told(version=2), 'event 1 (draw), interp: "picture" comes with version 3: one of flat, linear is wanted'
        )
        self.assertEqual(
            told(events=[draw | {"interp": "pictures"}]),
            'event 1 (draw), interp: one of flat, linear, picture is wanted (did you mean picture?), not the '
            'text "pictures"',
        )
        self.assertEqual(
            told(events=[draw | {"picture": "no"}]), 'event 1 (draw), picture: an object is wanted, not the text "no"'
        )
        self.assertEqual(
            told(events=[draw | {"vertices": [{"x": 0, "y": 0}]}]),
            "event 1 (draw), vertex 0: the member z is missing: a whole number from 0 to 65535 is wanted",
        )
        self.assertEqual(told(version=4), "version: 1, 2 or 3 is wanted, not 4")

    def test_where_an_event_comes_from(self):
        self.assertEqual(origins.lines(READ), READ_TOLD)
        self.assertEqual([origins.lines(strange) for strange in (*STRANGE, None, [], 7)], [[]] * 5)
        self.assertEqual(len(origins.lines({"set_by": [[1, "a"]] * 99, "callstack": ["b" * 999] * 99})), 32)

    def test_it_names_the_call(self):
        told = lambda event, source: explained(json.dumps({**FRAME, "events": [{**event, "source": source}]}).encode())[
            2
        ].partition(": ")[2]
        draw, misspelt = {"kind": "clear", "color": [1, 2, 3]}, {"kind": "rastre"}
        self.assertTrue(
            told(draw, {"event": 363, "name": "glClear()"}).startswith(
                "event 1 (clear) of call 363 glClear(), color: "
            ),
            told(draw, {"event": 363, "name": "glClear()"}),
        )
        self.assertTrue(told(misspelt, {"event": 7}).startswith("event 1 of call 7, kind: "))
        self.assertTrue(told(misspelt, {"name": "x" * 1000}).startswith(f"event 1 of call {'x' * 60}, kind: "))
        self.assertTrue(
            told(draw, READ).startswith(
                f"event 1 (clear) of call 40 glDraw() ({'; '.join(READ_TOLD[1:])[:160]}), color: "
            ),
            told(draw, READ),
        )
        for nothing in (
            None,
            [],
            363,
            "glClear()",
            {},
            *STRANGE,
            {"event": "363", "name": 9},
            {"event": True, "name": ""},
            {"event": 1 << 64},
            {"event": -1},
            {"event": 1.5},
        ):
            self.assertTrue(told(misspelt, nothing).startswith("event 1, kind: "), nothing)

    def test_the_status(self):
        with tempfile.TemporaryDirectory() as folder:
            file = pathlib.Path(folder) / "frame.json"
            for data, status in ((json.dumps(FRAME).encode(), 0), (b"[]", 2)):
                file.write_bytes(data)
                self.assertEqual(told_by_tool(file).returncode, status)
            self.assertEqual(told_by_tool(folder).returncode, 3)

    def test_nothing_steers_the_terminal(self):
        """Texts of a capture that come to be shown: a kind, values, a name that is like the one that is wanted,
        numbers; and the file's own name."""
        steering = "\x1b[31m\x9b2J\u202e\r\n\x07\x7f\u2028"
        blank = {"format": "framedbg", "version": 1, "width": 1, "height": 1}
        captures = [
            {**blank, "events": [{"kind": steering}]},
            {**blank, "version": steering, "events": []},
            {**blank, "format": steering, "events": []},
            {**blank, "events": [{"kind": "clear", "col\x1bor": [0, 0, 0, 0]}]},
            {**blank, "events": [{"kind": "raster", "cull": "non\x1be"}]},
            {**blank, "events": [{"kind": "blend", "enable": True, "rgb": ["ONE\x1b", "ONE", "ADD"]}]},
            {**blank, "events": [{"kind": "x" * 5_000_000}]},
        ]
        with tempfile.TemporaryDirectory() as folder:
            for number, capture in enumerate(captures):
                for name in ("frame.json", f"{number}\x1b[2J\n.json", os.fsdecode(b"\xff.json")):
                    file = pathlib.Path(folder) / name
                    file.write_text(json.dumps(capture, ensure_ascii=False))
                    run = told_by_tool(file)
                    lines = run.stdout.decode().split("\n")
                    self.assertEqual((run.returncode, run.stderr, len(lines), lines[2]), (2, b"", 3, ""), capture)
                    self.assertTrue(all(line.isprintable() and len(line) < 400 for line in lines), lines)
            self.assertIn(
                rb'there is no kind "\x1b[31m\x9b2J\u202e\r\n', told_by_tool(self.written(folder, captures[0])).stdout
            )
            narrow = told_by_tool(
                self.written(folder, {**blank, "events": [{"kind": "\u00e9"}]}), PYTHONIOENCODING="ascii"
            )
            self.assertEqual((narrow.returncode, narrow.stderr), (2, b""))
            self.assertIn(b'there is no kind "\\xe9"', narrow.stdout)

    def written(self, folder, capture):
        file = pathlib.Path(folder) / "frame.json"
        file.write_text(json.dumps(capture))
        return file

    def test_a_file_without_end(self):
        run = told_by_tool("/dev/zero", memory=1 << 30)
        self.assertEqual(
            (run.returncode, run.stdout, run.stderr),
            (2, b"/dev/zero: refused, 1 too long\nit has more than 67108864 bytes\n", b""),
        )
        longest = b"[" + b" " * 67_108_862 + b"]"
        self.assertEqual([explained(data)[1] for data in (longest, longest + b" ")], ["3 not a capture", "1 too long"])


# What the page alone says of some captures
TOLD = """const { verdictOn } = await import("refused.js");
return given[0].map(letters => { const { verdict, why } = verdictOn(Uint8Array.from(atob(letters), letter => letter.charCodeAt(0))); return [verdict, why]; });"""


@unittest.skipUnless(browser.is_installed(), "Chromium and chromedriver aren't installed")
class InThePage(unittest.TestCase):
    """The page alone has no Python: its own scripts name member and place. They are tried without the page and its
    program."""

    @classmethod
    def setUpClass(cls):
        cls.folder = tempfile.TemporaryDirectory()
        cls.browser = browser.Browser()
        file = pathlib.Path(cls.folder.name) / "scripts.html"
        file.write_text(f"<!doctype html>{packing.imports(TOOLS / 'viewer/page', packing.HERE)}")
        cls.browser.open(file.as_uri())

    @classmethod
    def tearDownClass(cls):
        cls.browser.close()
        cls.folder.cleanup()

    def told(self, *some):
        return self.browser.within(TOLD, [base64.b64encode(data).decode() for data in some])

    def test_it_says_what_explain_says(self):
        some = list(cases(PAGE_CASES))
        for data, (verdict, why) in zip(some, self.told(*some), strict=True):
            accepted, wanted, because = explained(data)
            self.assertEqual((verdict, why), (wanted, "" if accepted else because), data)

    def test_some_by_hand(self):
        """What somebody met who wrote a capture by hand, and texts that the cases by chance seldom have."""
        draw, source = FRAME["events"][5], {"event": 363, "name": "glDrawArrays()"}
        half = draw | {"source": source, "vertices": [CORNER | {"x": 150.5}]}
        whole = "a whole number from -1073741824 to 1073741824 of 1/65536 pixel is wanted, not 150.5"
        long, short = (WITH_PICTURES["events"][0] | {"picture": BOX | {"texels": text}} for text in ("A" * 36, "A"))
        bytes_wanted = "24 bytes in base64 are wanted, four for each of 3 by 2 texels; the text has 27"
        unpadded = "the text's 1 character isn't padded by = to whole fours, as base64 is"
        drawn, bad = "event 1 (draw)", "8 bad field 1"
        some = [
            ({**WITH_PICTURES, "events": [long]}, bad, f"{drawn}, picture, texels: {bytes_wanted}"),
            ({**WITH_PICTURES, "events": [short]}, bad, f"{drawn}, picture, texels: {unpadded}"),
            ({**FRAME, "events": [half]}, bad, f"{drawn} of call 363 glDrawArrays(), vertex 0, x: {whole}"),
            (
                {**FRAME, "events": [{"kind": "clear", "source": READ}]},
                bad,
                f"event 1 (clear) of call 40 glDraw() ({'; '.join(READ_TOLD[1:])[:160]}): the member color is "
                f"missing: an array of 4 is wanted",
            ),
            (
                {**FRAME, "events": [{"kind": "depthclear", "depth": 1}]},
                "7 unknown event 1",
                'event 1, kind: there is no kind "depthclear" (did you mean depth_clear?)',
            ),
            (
                {**FRAME, "events": [{"kind": "clear", "colour": [1, 2, 3, 4]}]},
                bad,
                "event 1 (clear): the member color is missing: an array of 4 is wanted (did you mean colour?)",
            ),
            ({**FRAME, "height": 0}, "5 size", "height: a whole number from 1 to 16384 is wanted, not 0"),
        ]
        for (frame, verdict, why), (told, because) in zip(
            some, self.told(*(json.dumps(frame).encode() for frame, _, _ in some)), strict=True
        ):
            self.assertEqual((told, because.partition(": ")[2]), (verdict, why))

    def test_columns_are_of_characters(self):
        in_lines = json.dumps(FRAME, indent=1, ensure_ascii=False).replace(
            '"a name"', '"\U0001f600\U0001f600", "name": 7'
        )
        line = in_lines[: in_lines.index("\U0001f600")].count("\n") + 1
        self.assertEqual(
            self.told(in_lines.encode())[0][1],
            f'line {line}, column 26: event 8 (marker), name: a text is wanted, not 7',
        )


if __name__ == "__main__":
    for option in ("--seed", "--cases"):
        if option in sys.argv:
            at = sys.argv.index(option)
            globals()[option[2:].upper()] = int(sys.argv[at + 1])
            del sys.argv[at : at + 2]
    unittest.main()
