"""What the viewer asks pixel by pixel: depths at any size, what the last draw's triangles met, how often each pixel
was drawn."""
import itertools
import json
import random
import tempfile
import threading
import unittest
from unittest import mock

import browser
import captures
import reference
from page import runs as chance
from viewer_hands import Hands
from viewer_testing import DEPTH, HOUSE, RED, Viewer, capture_of, file_of, vertices
from viewer import session as viewer_session
from viewer.runs import Runs

RANKS = ["not reached", "culled", "scissored", "discarded", "depthfailed", "drawn"]
# What a person sees who lacks one of the three kinds of cones, from linear red, green, blue (Machado, Oliveira and
# Fernandes 2009)
BLIND = {
    "none": ((1, 0, 0), (0, 1, 0), (0, 0, 1)),
    "red": ((0.152286, 1.052583, -0.204868), (0.114503, 0.786281, 0.099216), (-0.003882, -0.048116, 1.051998)),
    "green": ((0.367322, 0.860646, -0.227968), (0.280085, 0.672501, 0.047413), (-0.011820, 0.042940, 0.968881)),
    "blue": ((1.255528, -0.076749, -0.178779), (-0.078411, 0.930809, 0.147602), (0.004733, 0.691367, 0.303900)),
}
APART = 20  # CIE 1976: 2 is just seen by somebody who looks at both


# How many rows each call wants, and of each row what is told of its last column
ROWS = """const { askDepths } = await import(name("depths.js")), [columns, rows] = given, calls = [];
const told = ({ top, every, columns, rows }) => (calls.push(rows), Uint16Array.from({ length: columns * rows }, (_, i) => top + every * Math.floor(i / columns)));
const { values } = await askDepths({ depths: async (position, part) => told(part) }, 1, { left: 0, top: 5, every: 2, columns, rows }, () => true);
return [calls, Array.from({ length: rows }, (_, row) => values[columns * row + columns - 1])];"""


def lab(colour, cones):
    """A colour of 8-bit sRGB as CIELAB, as somebody with such cones sees it."""
    linear = [v / 255 / 12.92 if v <= 10 else ((v / 255 + 0.055) / 1.055) ** 2.4 for v in colour]
    seen = [min(max(sum(m * v for m, v in zip(row, linear)), 0), 1) for row in BLIND[cones]]
    rows = (0.4124, 0.3576, 0.1805), (0.2126, 0.7152, 0.0722), (0.0193, 0.1192, 0.9505)
    x, y, z = (sum(m * v for m, v in zip(row, seen)) / white for row, white in zip(rows, (0.9505, 1, 1.089)))
    fx, fy, fz = (v ** (1 / 3) if v > 0.008856 else 7.787 * v + 16 / 116 for v in (x, y, z))
    return 116 * fy - 16, 500 * (fx - fy), 200 * (fy - fz)


def slope(width, height):
    """A slope in depth from left to right: 40 a pixel."""
    corners = [
        (0, 0, 0, RED),
        (width, 0, 40 * width, RED),
        (0, height, 0, RED),
        (width, 0, 40 * width, RED),
        (width, height, 40 * width, RED),
        (0, height, 0, RED),
    ]
    return capture_of(
        width,
        height,
        [
            {"kind": "depth", "enable": True, "write": True, "func": "LESS"},
            {"kind": "draw", "interp": "linear", "vertices": vertices(*corners)},
        ],
        2,
    )


def steps(times):
    """Of each count its step on a scale of seven up to the highest, and the names of the steps."""
    lasts = [max(7, *times) * step // 7 for step in range(8)]
    named = {0: "not drawn", 1: "drawn once"}
    names = [
        f"drawn {first} to {last} times" if first < last else named.get(last, f"drawn {last} times")
        for first, last in zip([0, *(last + 1 for last in lasts)], lasts)
    ]
    return [next(step for step, last in enumerate(lasts) if count <= last) for count in times], names


def times_drawn(capture):
    """How many pixels are drawn how often at the end: none, once, .., 7 times and more."""
    frame, end = reference.Frame(capture), len(capture["events"])
    places = itertools.product(range(capture["width"]), range(capture["height"]))
    times = [
        sum(verdict == "drawn" and triangle != "-" for _, triangle, verdict, *_ in frame.replay(end, x, y)[1])
        for x, y in places
    ]
    return [sum(min(count, 7) == n for count in times) for n in range(8)]


class DepthsCalled(unittest.TestCase):
    """The server's call, without a page: depths by the definitions."""

    def opened(self, text):
        folder = tempfile.TemporaryDirectory()
        self.addCleanup(folder.cleanup)
        viewer = Viewer(file_of(folder.name, text))
        self.addCleanup(viewer.__exit__)
        return viewer

    def depths(self, viewer, *numbers, **headers):
        body = " ".join(map(str, numbers)).encode()
        status, _, answer = viewer.request(path="/depths", body=body, **headers)
        return [low + 256 * high for low, high in zip(answer[::2], answer[1::2])] if status == 200 else status

    def test_depths(self):
        """At each position, of all pixels and of some, and without what is off; the run that is shown stays."""
        viewer, frame = self.opened(DEPTH), reference.Frame(json.loads(DEPTH))
        viewer.ask("goto 2")

        def wanted(position, left, top, every, columns, rows):
            return [
                frame.replay(position, x, y)[0][1]
                for y in range(top, top + every * rows, every)
                for x in range(left, left + every * columns, every)
            ]

        for numbers in (
            (0, 0, 0, 1, 8, 8),
            (3, 0, 0, 1, 8, 8),
            (4, 0, 0, 1, 8, 8),
            (4, 1, 2, 3, 2, 2),
            (6, 0, 0, 1, 8, 8),
            (4, 7, 7, 1, 1, 1),
        ):
            self.assertEqual(self.depths(viewer, *numbers), wanted(*numbers), numbers)
        viewer.ask("off 3")
        frame.on[2] = False
        self.assertEqual(self.depths(viewer, 4, 0, 0, 1, 8, 8), wanted(4, 0, 0, 1, 8, 8))
        self.assertEqual(viewer.ask("state", "step")[0]["replies"][1]["text"], "at 3")

    def test_runs_that_have_no_lines_left(self):
        with mock.patch.object(viewer_session, "MOST_LINES", 100):
            viewer, runs = self.opened(DEPTH), set()
            for _ in range(4):
                self.assertEqual(self.depths(viewer, 4, 0, 0, 1, 8, 8)[:3], [1000] * 3)
                runs.add(viewer.server.runs.beside["depths"].run.pid)
            self.assertEqual(len(runs), 4)

    def test_many(self):
        """More lines than pipes hold: a slope of 40 a pixel, from its middle on."""
        viewer = self.opened(slope(400, 300))
        found = self.depths(viewer, 2, 0, 0, 1, 400, 300)
        self.assertTrue(
            found == [40 * x + 20 for x in range(400)] * 300, found[:800:40]
        )  # too many for a list of differences

    def test_refusals(self):
        viewer = self.opened(DEPTH)
        for numbers in (
            (4, 0, 0, 1, 8),
            (4, 0, 0, 1, 8, 8, 1),
            ("a", 0, 0, 1, 8, 8),
            (4, 0, 0, 1, 0, 8),
            (4, 0, 0, 1, 400, 400),
            (4, 1, 0, 1, 8, 8),
            (7, 0, 0, 1, 8, 8),
            (4, 9999999999, 0, 1, 1, 1),
        ):
            self.assertEqual(self.depths(viewer, *numbers), 400, numbers)
        self.assertEqual(self.depths(viewer, 4, 0, 0, 1, 8, 8, X_Token=None), 403)
        self.assertEqual(
            self.depths(self.opened(capture_of(2, 2, [captures.clear(1, 2, 3, 4)])), 1, 0, 0, 1, 2, 2), 400
        )


class Maps(Hands):
    def shows(self, text, folder):
        viewer = Viewer(file_of(folder, text))
        self.addCleanup(viewer.__exit__)
        self.open(viewer)
        self.at(len(json.loads(text)["events"]))
        return viewer

    def legend(self):
        """Of each name its colour and its count."""
        rows = self.browser.run(
            "return [...document.querySelectorAll('#legend > span')].map(e => [e.innerText, "
            "e.querySelector('.swatch').title])"
        )
        found = {}
        for text, colour in rows:
            name, _, count = text.strip().rpartition(" ")
            found[name.strip()] = (tuple(map(int, colour.split()[:3])), int(count.replace(",", "")))
        return found

    def counts(self):
        return [count for _, count in self.legend().values()]

    def picture(self, width, height):
        """The colours of the canvas, row by row."""
        data = self.browser.run(
            "return [...document.getElementById('image').getContext('2d').getImageData(0, 0, arguments[0], "
            "arguments[1]).data]",
            width,
            height,
        )
        return [tuple(data[i : i + 3]) for i in range(0, len(data), 4)]

    def look(self):
        return self.browser.run("return document.querySelector('[data-look][aria-checked=\"true\"]').dataset.look")

    def turn_to(self, key):
        """The look of a key, unless it is on or on its way already."""
        look = {"v": "fate", "o": "overdraw", "z": "depth"}[key]
        if (
            self.browser.run(
                "return document.querySelector('[data-look][aria-busy=\"true\"], "
                "[data-look][aria-checked=\"true\"]:not(:has(~ [aria-busy=\"true\"]))').dataset.look"
            )
            != look
        ):
            self.browser.press("Escape", key)
        self.comes(self.look, look)

    def capture_by_chance(self, dice, width, height):
        raster = {"kind": "raster", "cull": "back", "front_ccw": False, "scissor": True}
        states = [
            raster,
            {"kind": "scissor", "rect": [3, 2, width - 4, height - 3]},
            {"kind": "depth", "enable": True, "write": True, "func": "LESS"},
        ]
        corners = lambda count: [
            {
                "x": dice.randrange(-4, width + 4) << 16,
                "y": dice.randrange(-4, height + 4) << 16,
                "z": dice.randrange(60000),
                "color": chance.colour(dice),
            }
            for _ in range(count)
        ]
        draws = [{"kind": "draw", "interp": "flat", "vertices": corners(3 * dice.randrange(3, 12))} for _ in range(4)]
        texels = 20 * 16
        for draw in draws[::3]:
            draw |= {
                "interp": "picture",
                "picture": captures.picture(
                    4, 3, 20, 16, dice.randbytes(4 * texels), [dice.random() < 0.3 for _ in range(texels)]
                ),
            }
        return {
            "width": width,
            "height": height,
            "version": 3,
            "events": [{"kind": "clear", "color": [9, 9, 9, 255]}, *states, *draws],
        }

    def test_verdicts_and_overdraw(self):
        """At each position, by the definitions; with their counts."""
        dice, width, height = random.Random(3), 30, 24
        capture = self.capture_by_chance(dice, width, height)
        frame, places = reference.Frame(capture), [(x, y) for y in range(height) for x in range(width)]
        with tempfile.TemporaryDirectory() as folder:
            self.shows(capture_of(width, height, capture["events"], 3), folder)
            for position in (8, 7, 5, 1, 4):
                self.browser.click(self.row(position) + " .number")
                self.at(position)
                entries = [frame.replay(position, x, y)[1] for x, y in places]
                fates = [
                    max([RANKS.index(entry[2]) for entry in some if entry[0] == position], default=0)
                    for some in entries
                ]
                self.shows_values(
                    "v", fates, ["not reached", "culled", "scissored", "discarded", "depth failed", "drawn"]
                )
                times = [sum(entry[2] == "drawn" and entry[1] != "-" for entry in some) for some in entries]
                self.shows_values("o", *steps(times))
            self.browser.press("o")
            self.comes(self.look, "after")
            self.assertEqual(self.legend(), {})

    def shows_values(self, key, values, names):
        """The map of a key, in the legend's colours; it is on already where another one's key would put it on."""
        self.turn_to(key)
        self.comes(
            lambda: {name: count for name, (_, count) in self.legend().items()},
            {name: values.count(i) for i, name in enumerate(names)},
        )
        colours = [self.legend()[name][0] for name in names]
        self.assertEqual(self.picture(30, 24), [colours[value] for value in values])

    def test_under_the_pointer(self):
        """Place, colour, and how often it was drawn: each by itself."""
        with Viewer(HOUSE) as viewer:
            self.open(viewer)
            self.at(13)
            self.turn_to("o")
            self.click_pixel(50, 50, 96)
            self.reads("#hover", "50 50 125 95 55 128 drawn 3 times")

    def test_a_switch_changes_the_map(self):
        """Of every second pixel at first, and then of all of them: all events on, the first draw off, and on again."""
        capture = json.loads(HOUSE.read_text())
        drawn = times_drawn(capture)
        capture["events"][2] = {"kind": "marker", "name": "off"}
        with Viewer(HOUSE) as viewer:
            self.open(viewer)
            self.at(13)
            self.browser.press("Escape", "o")
            self.comes(self.counts, drawn)
            self.switch(3, False)
            self.comes(self.counts, times_drawn(capture))
            self.switch(3, True)
            self.comes(self.counts, drawn)

    def test_colours_for_everybody(self):
        """Also who lacks a kind of cones tells any two colours of a legend."""
        with Viewer(HOUSE) as viewer:
            self.open(viewer)
            self.at(13)
            for key in "vo":
                self.turn_to(key)
                self.comes(lambda: len(self.legend()) > 4, True)
                colours = [colour for colour, _ in self.legend().values()]
                for cones, (one, two) in itertools.product(BLIND, itertools.combinations(colours, 2)):
                    apart = sum((a - b) ** 2 for a, b in zip(lab(one, cones), lab(two, cones))) ** 0.5
                    self.assertGreater(apart, APART, (cones, one, two))

    def test_depths_by_some_rows_at_a_time(self):
        """Of a server that says the row of each pixel, every second one of 300 from row 5 on: all in their order."""
        with tempfile.TemporaryDirectory() as folder:
            self.shows(slope(64, 48), folder)
            calls, rows = self.within(ROWS, 400, 300)
            self.assertEqual((rows, calls), ([5 + 2 * row for row in range(300)], [163, 137]))

    def test_depths_at_any_size(self):
        """Every third pixel of a large target at first, and all of those in sight of what is zoomed into."""
        with tempfile.TemporaryDirectory() as folder:
            self.shows(slope(1200, 900), folder)
            self.browser.press("Escape", "z")
            told = f"of every 3rd pixel depths 20 to {40 * 1197 + 20}: nearer is lighter, and 65535 is black"
            self.comes(lambda: self.text("#difference"), told)
            self.comes(self.look, "depth")
            greys = [grey for grey, *_ in self.picture(400, 1)]
            self.assertEqual(greys, [round(240 - 180 * (120 * column) / (40 * 1197)) for column in range(400)])
            self.browser.press(*"+" * 5)
            self.comes(self.slope_in_sight, "depths from the first column to the last, light to dark")

    def test_a_map_is_refined_in_the_end(self):
        """Also where something else was wanted in the midst of it, as it is here whenever the page has asked."""
        with tempfile.TemporaryDirectory() as folder:
            self.shows(slope(1200, 900), folder)
            self.browser.run(
                "const ask = fetch; let asked = 0; window.fetch = (...words) => { if (asked++ < 20) "
                "dispatchEvent(new Event('focus')); return ask(...words); }"
            )
            self.browser.press("Escape", "z")
            self.comes(lambda: self.text("#difference").startswith("of every 3rd pixel"), True)

    def slope_in_sight(self):
        """What is told and drawn of the slope at one moment, in words where both are as they should be."""
        across, columns, told, *greys = self.browser.run(
            "const image = document.getElementById('image'), [a, b] = [image, "
            "document.getElementById('sheet')].map(e => e.getBoundingClientRect()), { width } = image;"
            "const grey = x => image.getContext('2d').getImageData(x, 3, 1, 1).data[0];"
            "return [Math.round((a.left - b.left) * 1200 / b.width), width, "
            "document.getElementById('difference').innerText, grey(0), grey(width - 1)]"
        )
        near, far = (40 * x + 20 for x in (across, across + columns - 1))
        is_right = (
            columns < 1200
            and told == f"depths {near} to {far}: nearer is lighter, and 65535 is black"
            and greys == [240, 60]
        )
        return "depths from the first column to the last, light to dark" if is_right else (across, columns, told, greys)


@unittest.skipUnless(browser.is_installed(), "Chromium and chromedriver aren't installed")
class MapsInChromium(Maps):
    def test_no_button_is_lit_over_another_picture(self):
        """While depths are on their way the image is shown, and its own button is lit."""
        go, depths = threading.Event(), Runs.depths
        slow = lambda *words: (go.wait(120), depths(*words))[1]
        with tempfile.TemporaryDirectory() as folder, mock.patch.object(Runs, "depths", slow):
            self.addCleanup(go.set)
            self.shows(slope(64, 48), folder)
            self.browser.press("Escape", "z")
            self.comes(
                lambda: self.browser.run(
                    "return document.querySelector('[data-look][aria-busy=\"true\"]')?.dataset.look"
                ),
                "depth",
            )  # the image's part is busy too, of a slow answer
            self.assertEqual((self.look(), self.drawn(5, 5)), ("after", [255, 0, 0, 255]))
            go.set()
            self.comes(self.look, "depth")
            self.assertEqual(self.drawn(0, 0), [240, 240, 240, 255])


@unittest.skipUnless(browser.Firefox.installed(), "Firefox isn't installed")
class MapsInFirefox(Maps):
    kind = browser.Firefox


del Maps  # it is tried in browsers alone
