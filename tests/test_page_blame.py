"""Who did it? of the page alone, which looks for it itself."""
import base64
import json
import pathlib
import random
import re
import tempfile
import unittest
from unittest import mock

from folders import TOP

import blame_testing
import browser
import test_blame_kinds
import test_viewer_blame
from blaming.everywhere import EVERYWHERE
from viewer_testing import EXAMPLES
from page_testing import CHAIN, HELD_AT, HOUSE, PAGE, Opened, exchanged
from page_testing import setUpModule  # noqa: F401

# One that never answers of a changed capture
HELD_CHANGE = """    if (said.decode(capture).includes('"func":"NEVER"')) for (;;);\n""" + HELD_AT
# Whether the search has told nothing new for two seconds, since all that it waits for is the change that is never drawn
WAITS = r"""
const told = document.getElementById("who").innerText, now = performance.now();
if (window.told !== told) Object.assign(window, { told, since: now });
return /^Stop looking \(\d+ tried\)$/.test(told) && now - window.since > 2000;
"""
# What the page's search finds, and the samples of the picture after the best change
BLAMED = """
const { blame } = await import("run.js"), [letters, width, height, by, hasAlpha] = given, bytes = Uint8Array.from(atob(letters), letter => letter.charCodeAt(0));
const { samples, ...found } = await blame({ width, height, left: 0, top: 0, every: 1, columns: width, rows: height, bytes, hasAlpha }, by, () => {});
return { ...found, samples: btoa(Array.from(samples ?? [], byte => String.fromCharCode(byte)).join("")) };
"""
CLUSTERS = """
const { clustersOf, spread } = await import("clusters.js"), [places, width, height] = given, mask = new Uint8Array(width * height);
for (const [x, y] of places) mask[y * width + x] = 1;
return clustersOf(mask, width).map(({ pixels, box }) => ({ pixels, box, spread: spread(pixels, width, 3) }));
"""
WINDOWED = """
const { Capture } = await import("capture.js"), [text, window] = given, capture = new Capture(new TextEncoder().encode(text));
return JSON.parse(new TextDecoder().decode(capture.bytesOf(capture.events, window)));
"""
GEOMETRY = {
    "both factors of blending",
    "both factors of alpha",
    "corner of the flat colour",
    EVERYWHERE,
    "direction of triangles",
    "a triangle too many",
    "indices left out",
    "indices doubled",
    "indices exchanged",
    "an index that is wrong",
    "a triangle that is missing",
    "a part of the state from a triangle on",
    "colour of a vertex",
    "place of a vertex",
    "depth of a vertex",
}  # kinds that the page doesn't try
RED = (200, 40, 30, 255)


class Blamed(Opened):
    """Who did it?, which the page looks for itself."""

    @classmethod
    def setUpClass(cls):
        super().setUpClass()
        cls.page = exchanged("search.js", "SECONDS = 60", "SECONDS = 6000").rename(PAGE.with_stem("patient"))

    def put(self, name, capture):
        """Shows a capture in the place of another one."""
        self.drop(name, json.dumps(capture).encode())
        self.reads("#capture", name)
        self.at(len(capture["events"]))

    def found(self, picture, by=0, has_alpha=True):
        """What is found, and whether the picture after the best change is the wanted one."""
        head, _, samples = picture.partition(b"ENDHDR\n")
        width, height = (int(re.search(rb"%b (\d+)" % side, head)[1]) for side in (b"WIDTH", b"HEIGHT"))
        found = self.browser.within(
            BLAMED, base64.b64encode(samples).decode(), width, height, by, has_alpha, seconds=1200
        )
        return found, base64.b64decode(found["samples"]) == samples

    def show_chain(self, folder):
        """The chain, compared with the picture that it should be."""
        self.show(CHAIN)
        self.at(9)
        picture = pathlib.Path(folder) / "wanted.pam"
        picture.write_bytes(test_viewer_blame.mended_picture())
        self.browser.choose("#file", picture)
        self.reads("#compared-with", "wanted.pam")

    def test_the_hunts_are_mended(self):
        """As docs/HUNTS.md says of framedbg-blame, but for the one whose indices are wrong: there the event is
        named."""
        table = re.findall(
            r"^\| `(\w+)` \| ([\d,]+) \| (\d+) \| event (\d+), (.+?) \| 0 \|$",
            (TOP / "docs/HUNTS.md").read_text(),
            re.M,
        )
        self.assertEqual([name for name, *_ in table], list(blame_testing.NAMES))
        self.show(HOUSE)
        for name, differ, _, event, change in table:
            with self.subTest(name):
                self.put(f"{name}.json", json.loads((EXAMPLES / f"hunts/{name}.json").read_text()))
                found, is_wanted = self.found(blame_testing.hunt_picture(name))
                self.assertEqual((found["differ"], found["over"]), (int(differ.replace(",", "")), False))
                if name == "doughnut":
                    self.assertEqual((found["changes"], found["findings"][0]["event"]), ([], 9))
                else:
                    self.assertEqual(
                        (found["changes"][0], is_wanted), ({"event": int(event), "change": change, "differ": 0}, True)
                    )
                    self.assertEqual([finding["left"] for finding in found["findings"]], [0] * len(found["findings"]))

    def test_kinds_of_change(self):
        """Each that the page tries, on a frame that is worked out by hand; pictures are the reference's."""
        self.show(HOUSE)
        for name, (right, wrong, number) in test_blame_kinds.CASES.items():
            if name not in GEOMETRY:
                with self.subTest(name):
                    self.put(f"{name}.json", blame_testing.capture(wrong))
                    found, is_wanted = self.found(blame_testing.pam(blame_testing.capture(right)))
                    self.assertTrue(is_wanted, found["changes"][:2])
                    if name not in (
                        "value of a depth clear",
                        "order of states",
                    ):  # another event's change does it too, of a kind that is tried before
                        self.assertEqual(found["changes"][0]["event"], number, found["changes"][:2])

    def test_channels_tolerance_and_events_off(self):
        self.show(HOUSE)
        first, last = blame_testing.clear(1, 2, 3, 4), blame_testing.clear(7, 7, 7, 7)
        self.put("plain.json", blame_testing.capture([first, last], 2, 2))
        for colour, by, has_alpha, differ in (
            ((7, 7, 7, 9), 0, True, 4),
            ((7, 7, 7, 9), 0, False, 0),
            ((7, 7, 7, 9), 2, True, 0),
            ((7, 7, 7, 9), 1, True, 4),
            ((9, 7, 7, 7), 1, True, 4),
            ((7, 4, 7, 7), 2, True, 4),
            ((7, 7, 4, 7), 2, True, 4),
            ((7, 7, 7, 7), 0, True, 0),
        ):
            found, _ = self.found(
                blame_testing.pam(blame_testing.capture([blame_testing.clear(*colour)], 2, 2)), by, has_alpha
            )
            self.assertEqual((found["differ"], len(found["findings"])), (differ, differ and 1), (colour, by))
        self.switch(2, False)
        found, is_wanted = self.found(blame_testing.pam(blame_testing.capture([blame_testing.clear(1, 2, 3, 9)], 2, 2)))
        self.assertEqual(
            (found["differ"], found["changes"][0], is_wanted),
            (4, {"event": 1, "change": "clear 1 2 3 9 in place of 1 2 3 4", "differ": 0}, True),
        )

    def test_one_pixel(self):
        """Of a frame that is large enough for a window round it, which is drawn first."""
        self.show(HOUSE)
        right = [blame_testing.clear(1, 2, 3, 4)]
        self.put(
            "pixel.json",
            blame_testing.capture([*right, blame_testing.box(50, 40, 51, 41, (200, 40, 30, 255))], 120, 90),
        )
        found, is_wanted = self.found(blame_testing.pam(blame_testing.capture(right, 120, 90)))
        self.assertEqual(
            (found["differ"], [(one["event"], one["differ"]) for one in found["changes"][:1]], is_wanted),
            (1, [(2, 0)], True),
        )

    def test_a_clear_below_glass(self):
        """Its colour stands at no pixel as it is, and has to be worked out through what was blended over it."""
        self.show(HOUSE)
        glass = [blame_testing.blend(), blame_testing.box(0, 0, 24, 18, (220, 210, 90, 120))]
        self.put("glass.json", blame_testing.capture([blame_testing.clear(90, 5, 77, 255), *glass]))
        found, is_wanted = self.found(
            blame_testing.pam(blame_testing.capture([blame_testing.clear(10, 20, 30, 255), *glass]))
        )
        self.assertEqual(
            ([(one["event"], one["change"][:6]) for one in found["changes"][:1]], is_wanted), ([(1, "clear ")], True)
        )

    def test_what_hangs_together(self):
        """Cells of four by four pixels that touch, also at a corner, and not round the edge of the target."""
        self.plain()
        places = [(3, 3), (4, 4), (12, 12), (39, 0), (0, 4), (39, 30), (0, 38)]
        found = self.browser.within(CLUSTERS, places, 40, 40)
        self.assertEqual(
            [cluster["box"] for cluster in found],
            [[0, 3, 5, 5], [39, 0, 40, 1], [12, 12, 13, 13], [39, 30, 40, 31], [0, 38, 1, 39]],
        )
        self.assertEqual(found[0]["pixels"], [3 * 40 + 3, 4 * 40, 4 * 40 + 4])
        self.assertEqual(sorted(found[0]["spread"]), found[0]["pixels"])
        spread = self.browser.within(CLUSTERS, [(x, y) for x in range(40) for y in range(40)], 40, 40)[0]["spread"]
        self.assertEqual(len({(pixel % 40 // 16, pixel // 40 // 16) for pixel in spread}), 3)

    def test_a_window(self):
        """What is drawn on it is what the whole target has there, by the reference."""
        self.plain()
        left, top, right, bottom = 5, 4, 18, 12
        sheet = lambda *place: blame_testing.painted(blame_testing.box(0, 0, 24, 18, RED), random.Random(1), *place)
        painted = [
            blame_testing.clear(9, 9, 9, 255),
            sheet(0, 0, 24, 18),
            sheet(7, 2, 3, 13),
            sheet(16, 10, 40, 40),
            sheet(0, 0, 5, 18),
        ]
        named = {
            name: test_blame_kinds.CASES[name][0]
            for name in ("rectangle of the scissor", "interpolation", "depth writes")
        }
        for name, events in (named | {"pictures": painted}).items():
            made = blame_testing.capture(events, version=3)
            window = self.browser.within(
                WINDOWED, json.dumps(made), {"left": left, "top": top, "right": right, "bottom": bottom}
            )
            rows = blame_testing.pam(made).partition(b"ENDHDR\n")[2]
            cut = b"".join(
                rows[4 * (made["width"] * y + left) : 4 * (made["width"] * y + right)] for y in range(top, bottom)
            )
            self.assertEqual(
                (window["width"], window["height"], blame_testing.pam(window).partition(b"ENDHDR\n")[2]),
                (13, 8, cut),
                name,
            )

    def test_draws_with_pictures(self):
        """A write mask under a picture with holes; what the picture discards, and how the draw is coloured, is
        changed by nothing."""
        self.show(HOUSE)
        sheet = blame_testing.painted(blame_testing.box(0, 0, 24, 18, RED), random.Random(3), 3, 2, 17, 14)
        below = blame_testing.box(0, 0, 24, 18, RED)  # so that pixels are wrong at which the picture has no texel
        right, wrong = (
            [blame_testing.clear(9, 9, 9, 255), blame_testing.blend(mask=mask), below, sheet] for mask in (15, 6)
        )
        self.put("sheet.json", blame_testing.capture(wrong, version=3))
        found, is_wanted = self.found(blame_testing.pam(blame_testing.capture(right, version=3)))
        self.assertEqual(
            (found["changes"][0]["event"], found["changes"][0]["change"], is_wanted), (2, "mask 15 in place of 6", True)
        )

    def test_a_stop_of_the_search(self):
        """One change is never drawn: the search waits for it, until it is stopped. Then it may begin anew."""
        with mock.patch.object(
            self, "page", exchanged("program.js", HELD_AT, HELD_CHANGE)
        ), tempfile.TemporaryDirectory() as folder:
            self.show_chain(folder)
            for _ in range(2):
                self.browser.run("window.told = null")
                self.browser.click("#who")
                self.browser.until(WAITS, seconds=2 * browser.PATIENCE)
                self.browser.click("#who")
                self.reads("#who", "Who did it?")
                self.assertTrue(self.browser.run("return document.getElementById('findings').hidden"))

    def test_the_time_is_over(self):
        """The best so far is told, that the time was over, and what isn't tried here."""
        with mock.patch.object(
            self, "page", exchanged("search.js", "SECONDS = 60", "SECONDS = 0")
        ), tempfile.TemporaryDirectory() as folder:
            self.show_chain(folder)
            self.browser.click("#who")
            self.reads("#findings .verdict", "No change that was tried mends it")
            self.assertEqual(
                self.browser.run("return [...document.querySelectorAll('#findings .rest')].map(e => e.innerText)"),
                [
                    "the time was over",
                    "framedbg-blame tries more: vertices, indices, triangles, both factors of blending, two "
                    "changes at once",
                ],
            )
            self.assertIn(": event 8", self.text("#findings .finding"))

    def test_a_target_that_comes_in_parts(self):
        """The whole picture is compared, and drawn after the change, though no more than some rows come at once."""
        with mock.patch.object(self, "page", exchanged("part.js", "1 << 22", "1000")):
            self.show(CHAIN)
            found, is_wanted = self.found(test_viewer_blame.mended_picture())
            self.assertEqual(
                (found["differ"], found["changes"][0]["change"], is_wanted),
                (1045, "depth function LESS in place of GREATER", True),
            )


class BlamedInChromium(Blamed, test_viewer_blame.WhoDidItInChromium):
    test_nothing_mends_it = None  # a server that says so


class BlamedInFirefox(Blamed, test_viewer_blame.WhoDidItInFirefox):
    test_kinds_of_change = (
        test_one_pixel
    ) = test_a_clear_below_glass = test_what_hangs_together = test_a_window = test_a_target_that_comes_in_parts = None


if __name__ == "__main__":
    unittest.main()
