#!/usr/bin/env python3
"""test_pictures: the small sessions of draws with pictures, as they were worked out by hand before the reference
answered them.

Each row below is a session of examples/ and what it is answered with, as far as it is worked out; the captures are
those of build/make_examples.py. Then faults of pictures, each by its rule, and wrong versions of the reference that
have to be seen.
"""
import json
import types
import unittest

from folders import TOP

import captures
import reference
from framedbg_client.replies import images_of

EXAMPLES = TOP / "examples"

# Blended: rgb is source * alpha + target * (255 - alpha), over 255, and alpha the source's own. Over 100 100 100 100
# that gives
#   (0, 0): 200 100 0 255    alpha 255: the source itself
#   (1, 0): 255 0 10 51      255 * 51 + 100 * 204 = 33405 = 131 * 255; 100 * 204 = 20400 = 80 * 255; 510 + 20400 = 20910
# = 82 * 255
#   (0, 1): 40 80 120 0      alpha 0: what was there, and alpha 0
#   (1, 1): a hole           nothing; the triangle's depth is 500, and no depth is stored, since the test is off
BLENDED = """\
at 3
pixel 200 100 0 255 65535
pixel 131 80 82 51 65535
pixel 100 100 100 0 65535
pixel 100 100 100 100 65535
history 2
1 - drawn 100 100 100 100 0 0 0 0 100 100 100 100 0 65535 65535
3 0 drawn 200 100 0 255 100 100 100 100 200 100 0 255 500 65535 65535
history 2
1 - drawn 100 100 100 100 0 0 0 0 100 100 100 100 0 65535 65535
3 0 drawn 255 0 10 51 100 100 100 100 131 80 82 51 500 65535 65535
history 2
1 - drawn 100 100 100 100 0 0 0 0 100 100 100 100 0 65535 65535
3 0 drawn 40 80 120 0 100 100 100 100 100 100 100 0 500 65535 65535
history 2
1 - drawn 100 100 100 100 0 0 0 0 100 100 100 100 0 65535 65535
3 0 discarded 0 0 0 0 100 100 100 100 100 100 100 100 500 65535 65535
"""

# Tested: the left column is 9 9 9 9 at 1000, in front of the picture at 2000; its holes are (0, 1) and (1, 1); 3 3 3 3
# comes last, at 3000.
# (0, 1) is behind and a hole: it is discarded, since that comes before the test. (1, 1) is a hole, so that no depth is
# stored and 3000 passes.
TESTED = """\
at 4
pixel 9 9 9 9 1000
pixel 255 0 10 51 2000
pixel 9 9 9 9 1000
pixel 3 3 3 3 3000
history 3
2 0 drawn 9 9 9 9 0 0 0 0 9 9 9 9 1000 65535 1000
3 0 depthfailed 200 100 0 255 9 9 9 9 9 9 9 9 2000 1000 1000
4 0 depthfailed 3 3 3 3 9 9 9 9 9 9 9 9 3000 1000 1000
history 2
3 0 drawn 255 0 10 51 0 0 0 0 255 0 10 51 2000 65535 2000
4 0 depthfailed 3 3 3 3 255 0 10 51 255 0 10 51 3000 2000 2000
history 3
2 1 drawn 9 9 9 9 0 0 0 0 9 9 9 9 1000 65535 1000
3 0 discarded 0 0 0 0 9 9 9 9 9 9 9 9 2000 1000 1000
4 0 depthfailed 3 3 3 3 9 9 9 9 9 9 9 9 3000 1000 1000
history 2
3 0 discarded 0 0 0 0 0 0 0 0 0 0 0 0 2000 65535 65535
4 0 drawn 3 3 3 3 0 0 0 0 3 3 3 3 3000 65535 3000
at 3
pixel 9 9 9 9 1000
pixel 255 0 10 51 2000
pixel 9 9 9 9 1000
pixel 0 0 0 0 65535
at 3
pixel 200 100 0 255 2000
pixel 255 0 10 51 2000
pixel 0 0 0 0 65535
pixel 0 0 0 0 65535
"""

# Passed over: at (0, 0) the texel is 5 6 7 8, at (1, 0) a hole in the first two draws and 250 0 0 9 in the third. What
# is culled or scissored shows its texel,
# and 0 0 0 0 where it has none. The third draws twice, adding, with mask 7: 5 6 7 and 10 12 14; 250 and 255, which is
# the most. The last is flat, and
# meets (0, 0).
PASSED_OVER = """\
at 7
history 5
1 0 culled 5 6 7 8 0 0 0 0 0 0 0 0 0 65535 65535
3 0 scissored 5 6 7 8 0 0 0 0 0 0 0 0 0 65535 65535
6 0 drawn 5 6 7 8 0 0 0 0 5 6 7 0 0 65535 65535
6 1 drawn 5 6 7 8 5 6 7 0 10 12 14 0 0 65535 65535
7 0 drawn 1 1 1 1 10 12 14 0 11 13 15 0 0 65535 65535
history 4
1 0 culled 0 0 0 0 0 0 0 0 0 0 0 0 0 65535 65535
3 0 scissored 0 0 0 0 0 0 0 0 0 0 0 0 0 65535 65535
6 0 drawn 250 0 0 9 0 0 0 0 250 0 0 0 0 65535 65535
6 1 drawn 250 0 0 9 250 0 0 0 255 0 0 0 0 65535 65535
events 7 at 7
1 on draw 1 picture
2 on raster none 0 1
3 on draw 1 picture
4 on raster none 0 0
5 on blend 1 ONE ONE ADD ONE ONE ADD 7
6 on draw 2 picture
7 on draw 1 flat
"""

ONE, NONE = (1, 1, 1, 1), (0, 0, 0, 0)
# Smaller: 2 by 2 texels at (1, 1) of 4 by 4 pixels. Beyond: 3 by 2 texels at (2, 3), of which two lie on the target:
# the first two of the first row.
SMALLER = (
    [ONE] * 5 + [(200, 100, 0, 255), (255, 0, 10, 51)] + [ONE] * 2 + [(40, 80, 120, 0), (7, 7, 7, 255)] + [ONE] * 5
)
BEYOND = [NONE] * 14 + [(10, 10, 10, 255), (11, 11, 11, 255)]


def said(name, made=reference):
    """What a reference answers a session of examples/ with."""
    frame = made.Frame(made.json_of((EXAMPLES / f"{name}.json").read_bytes()))
    return b"".join(made.reply(frame, line) for line in (EXAMPLES / f"{name}.session").read_bytes().split(b"\n")[:-1])


def check(expected):
    """Whether answers are those that were worked out by hand."""
    texts = {"picture_blended": BLENDED, "picture_tested": TESTED, "picture_passed_over": PASSED_OVER}
    pixels = {"picture_smaller": SMALLER, "picture_beyond": BEYOND}
    return all(expected(name).startswith(text.encode()) for name, text in texts.items()) and all(
        images_of(expected(name))[0].endswith(bytes(byte for four in wanted for byte in four))
        for name, wanted in pixels.items()
    )


class Worked(unittest.TestCase):
    maxDiff = None

    def test_texts(self):
        for name, text in (
            ("picture_blended", BLENDED),
            ("picture_tested", TESTED),
            ("picture_passed_over", PASSED_OVER),
        ):
            self.assertEqual((EXAMPLES / f"{name}.expected").read_bytes()[: len(text)].decode(), text, name)

    def test_images(self):
        for name, pixels in (("picture_smaller", SMALLER), ("picture_beyond", BEYOND)):
            image = images_of((EXAMPLES / f"{name}.expected").read_bytes())[0]
            self.assertEqual(
                [tuple(image[-64 + at :][:4]) for at in range(0, 60, 4)] + [tuple(image[-4:])], pixels, name
            )

    def test_version_3_without_pictures(self):
        """All else is that of version 2, to the byte."""
        three, two = ((EXAMPLES / f"row01_version_{version}.expected").read_bytes() for version in (3, 2))
        self.assertEqual(three.split(b"events")[0], two.split(b"bye")[0])
        capture = json.loads((EXAMPLES / "each_depth_function.json").read_text())
        lines = (EXAMPLES / "each_depth_function.session").read_bytes().split(b"\n")[:-1]
        frame = reference.Frame(capture | {"version": 3})
        self.assertEqual(
            b"".join(reference.reply(frame, line) for line in lines),
            (EXAMPLES / "each_depth_function.expected").read_bytes(),
        )


def with_picture(version=3, interp="picture", corner=None, **members):
    """A capture of one draw with a picture of 3 by 3 texels and holes; members are put in its place, or left out
    where they are None."""
    box = {**captures.picture(0, 0, 3, 3, bytes(36), [0] * 9), **members}
    box = {name: value for name, value in box.items() if value is not ...}
    return {
        **captures.head(4, 4, version),
        "events": [
            captures.clear(0, 0, 0, 0),
            {"kind": "draw", "interp": interp, "vertices": [corner or captures.corner(0, 0, 0)] * 3, "picture": box},
        ],
    }


FAULT = (8, "bad field", 2)
TEXELS = "A" * 48  # 36 zero bytes
ACCEPTED = [
    {},
    {"left": 16383, "top": 16383},
    {"holes": ...},
    {"holes": "//8="},
    {"more": 1},
    {"holes": "AAA="},
    {"texels": "/+" * 24},
    {"width": 1, "height": 9},
    {"width": 1, "height": 1, "texels": "AAAAAA==", "holes": "/w=="},
    {"corner": {"x": 0, "y": 0, "z": 0, "color": None}},
    {"interp": "flat", "corner": captures.vertex(0, 0, (1, 2, 3, 4), 0), "texels": 7},
]
REFUSED = [
    *({name: value} for name in ("left", "top") for value in (-1, 16384, 1.0, "0", None, ...)),
    *({name: value} for name in ("width", "height") for value in (0, 16385, -3, 4, 3.0, None, ...)),
    *(
        {"texels": value}
        for value in (
            ...,
            None,
            7,
            [0] * 36,
            "",
            TEXELS[:-4],
            TEXELS + "AAAA",
            TEXELS[:24] + "\n" + TEXELS[24:],
            "AA==" + TEXELS[4:],
        )
    ),
    *({"texels": TEXELS[:-4] + end} for end in ("AAA", "AAA=", "AA==", "AAA ", "AAA-", "AAA_", "AAAé", "\nAAA")),
    *(
        {"holes": value}
        for value in (None, 7, [0] * 9, "", "AA==", "AAAA", "AAB=", "AAA", "AAA=\n", "AAAAAA==", "A===", "====")
    ),
    {"corner": {"x": 0, "y": 0}},
    {"corner": {"x": 0, "z": 0}},
    {"corner": {"x": 1 << 31, "y": 0, "z": 0}},
    {"corner": {"x": 0, "y": 0, "z": 65536}},
    {"width": 0, "texels": "", "holes": ""},
    {"interp": "Picture"},
    {"interp": "flat"},
    {"version": 1},
    {"version": 2},
    {"version": 2, "corner": captures.vertex(0, 0, (1, 2, 3, 4), 0)},
]


def as_bytes(made):
    return json.dumps(with_picture(**made)).encode()


class Faults(unittest.TestCase):
    def test_accepted(self):
        for made in ACCEPTED:
            self.assertIsNone(reference.fault(as_bytes(made)), made)

    def test_refused(self):
        for made in REFUSED:
            self.assertEqual(reference.fault(as_bytes(made)), (8, "bad field", 2), made)
        for box in (None, [], "AAAA", 3):
            capture = with_picture()
            capture["events"][1]["picture"] = box
            self.assertEqual(reference.fault(json.dumps(capture).encode()), (8, "bad field", 2), box)
        capture = with_picture()
        del capture["events"][1]["picture"]
        self.assertEqual(reference.fault(json.dumps(capture).encode()), (8, "bad field", 2))
        self.assertEqual(reference.fault(json.dumps(with_picture(version=4)).encode()), (4, "version"))

    def test_escapes_are_read_first(self):
        self.assertIsNone(reference.fault(as_bytes({"texels": "/" * 48}).replace(b"/", b"\\/")))
        self.assertIsNone(reference.fault(as_bytes({}).replace(b"AAAA", b"\\u0041AAA")))


WRONG = [
    ("a texel one column to the left", "x - self.left, y - self.top", "x - self.left - 1, y - self.top"),
    ("rows from the bottom", "n = row * self.width", "n = (self.height - 1 - row) * self.width"),
    ("bits from the largest", ">> n % 8 & 1", ">> (7 - n % 8) & 1"),
    ("beyond its box", "0 <= column < self.width", "0 <= column <= self.width"),
    ("a hole shows its texel", "return picture.texel(x, y) or (0, 0, 0, 0)", "return tuple(picture.texels[:4])"),
    (
        "discarded behind the depth test",
        "if picture and picture.texel(x, y) is None:",
        "enable, _, func = state['depth']\n    if picture and picture.texel(x, y) is None and not (enable and "
        "not PASSES[func](depth_of(t, depths, x, y), stored)):",
    ),
    (
        "discarded before scissored",
        "    if scissor and not (left <= x < right",
        "    if not picture and scissor and not (left <= x < right",
    ),
    ("holes write", '        return "discarded"', '        return "drawn"'),
]
WRONG_READING = [
    ("left up to 16384", '0, 16383) for name in ("left"', '0, 16384) for name in ("left"'),
    (
        "an empty picture",
        'and all(whole(value.get(name), 1, 16384) for name in ("width", "height"))',
        'and all(whole(value.get(name), 0, 16384) for name in ("width", "height"))',
    ),
    (
        "any length",
        "len(value) == -(-length // 3) * 4 and len(bytes_of(value) or b\"\") == length",
        "bytes_of(value) is not None",
    ),
    ("bits behind the last byte", "data if base64.b64encode(data).decode() == text else None", "data"),
    ("holes that are null", '"holes" not in value', 'value.get("holes") is None'),
    ("holes by the row", "-(-texels // 8)", "value[\"height\"] * -(-value[\"width\"] // 8)"),
    ("pictures in version 2", 'version == 3 and e.get("interp")', 'version > 1 and e.get("interp")'),
    ("colours asked for", "painted or is_color", "is_color"),
    ("no depths", "is_place(v, version) and", "is_place(v, 1 if painted else version) and"),
]


def changed(old, new):
    """The reference with one text in place of another."""
    text = (TOP / "build/reference.py").read_text()
    assert text.count(old) == 1, old
    made = types.ModuleType("changed")
    exec(compile(text.replace(old, new), "changed", "exec"), made.__dict__)
    return made


class WrongVersions(unittest.TestCase):
    def test_drawing(self):
        self.assertTrue(check(said))
        for name, old, new in WRONG:
            with self.subTest(name):
                made = changed(old, new)
                self.assertFalse(check(lambda session: said(session, made)))

    def test_reading(self):
        for name, old, new in WRONG_READING:
            with self.subTest(name):
                made = changed(old, new)
                self.assertNotEqual(
                    [made.fault(as_bytes(one)) for one in ACCEPTED + REFUSED],
                    [None] * len(ACCEPTED) + [FAULT] * len(REFUSED),
                )


if __name__ == "__main__":
    unittest.main()
