"""The tests of who set a state, how a colour came about and why nothing was drawn, which test_viewer_answers.py tries
in each browser."""
import json
import random
import tempfile

import captures
import reference
from viewer_hands import Hands
from viewer_testing import HOUSE, Viewer, capture_of, file_of, vertices

FACTORS = [
    "ZERO",
    "ONE",
    "SRC_ALPHA",
    "INV_SRC_ALPHA",
    "DEST_ALPHA",
    "INV_DEST_ALPHA",
    "BLEND_FACTOR",
    "INV_BLEND_FACTOR",
]
COLOURS = ["SRC_COLOR", "INV_SRC_COLOR", "DEST_COLOR", "INV_DEST_COLOR"]
OPERATIONS = ["ADD", "SUBTRACT", "REV_SUBTRACT", "MIN", "MAX"]
# What the page makes of entries that were drawn, without what framedbg replied
SUMS = """
const { sumOf } = await import(name("sum.js")), names = ["r", "g", "b", "a"], colour = values => Object.fromEntries(values.map((v, i) => [names[i], v]));
return given[0].map(({ source, before, factor, blend: [enable, rgb, alpha, mask] }) => sumOf({ event: 1, triangle: 0, verdict: "drawn",
  source: colour(source), before: colour(before), after: colour(before) }, { blend: enable, rgb, alpha, mask, factor: colour(factor) }, { x: 0, y: 0 }).map(([, how, ours]) => [how, ours]));
"""


class Sums(Hands):
    """Who set a state, how a colour came about, why nothing was drawn."""

    def shows(self, text, folder):
        """A server for a capture, and the page at its end."""
        viewer = Viewer(file_of(folder, text))
        self.addCleanup(viewer.__exit__)
        self.open(viewer)
        self.at(len(json.loads(text)["events"]))
        return viewer

    def setters(self):
        """Who set each part of the state, in the order of the table."""
        return self.browser.run(
            "return [...document.querySelectorAll('#state-table dd')].map(e => "
            "[...e.querySelectorAll('.setter')].map(s => s.innerText).join(' ')).filter(said => said)"
        )

    def sum(self):
        return self.browser.run(
            "return [...document.querySelectorAll('#sum > div')].map(e => e.innerText.replace(/\\s+/g, ' ').trim())"
        )

    def test_who_set_the_state(self):
        with Viewer(HOUSE) as viewer:
            self.open(viewer)
            self.at(13)
            self.click_pixel(50, 50, 96)
            self.browser.until("return document.querySelectorAll('#history .entry').length === 4")
            self.choose_entry(11)
            self.comes(self.setters, ["set by 8 off", *["as at the start"] * 4])
            self.browser.click("#state-table .setter.go")
            self.at(8)
            self.comes(self.setters, ["as at the start"] * 5)  # before the event, when its state is told; and after it
            self.browser.click("[data-state='next']")
            self.comes(self.setters, ["set by 8 off", *["as at the start"] * 4])
            self.browser.click("[data-state='with']")
            self.choose_entry(11)
            self.browser.click("#state-table .setter.off")
            self.reads("#value", "190 60 50 128")
            self.at(11)
            self.comes(self.setters, ["as at the start"] * 5)
            self.comes(lambda: self.state()["blend"], "off")

    def test_each_part_has_its_own_event(self):
        """A scissor rectangle is set by one event and switched on by another."""
        states = [
            {"kind": "raster", "cull": "none", "front_ccw": False, "scissor": True},
            {"kind": "scissor", "rect": [1, 1, 7, 7]},
            {"kind": "factor", "color": [1, 2, 3, 4]},
            {"kind": "depth", "enable": True, "write": True, "func": "LESS"},
            {"kind": "factor", "color": [5, 6, 7, 8]},
        ]
        with tempfile.TemporaryDirectory() as folder:
            self.shows(capture_of(8, 8, states, 2), folder)
            self.browser.click("[data-state='next']")
            names = self.browser.run(
                "return [...document.querySelectorAll('#state-table dd')].filter(e => "
                "e.querySelector('.setter')).map(e => e.previousElementSibling.innerText)"
            )
            self.assertEqual(names, ["blend", "factor", "cull", "scissor", "rect", "depth"])
            self.comes(
                self.setters,
                ["as at the start", "set by 5 off", "set by 1 off", "set by 1 off", "set by 2 off", "set by 4 off"],
            )
            self.browser.click("#state-table dd:nth-of-type(5) .setter.off")
            self.comes(
                self.setters,
                ["as at the start", "set by 3 off", "set by 1 off", "set by 1 off", "set by 2 off", "set by 4 off"],
            )
            self.comes(lambda: self.state()["factor"], "1 2 3 4")

    def test_the_sum_under_an_entry(self):
        with Viewer(HOUSE) as viewer:
            self.open(viewer)
            self.at(13)
            self.click_pixel(50, 50, 96)
            self.browser.until("return document.querySelectorAll('#history .entry').length === 4")
            self.comes(self.sum, [])  # the last event did nothing to this pixel
            self.choose_entry(11)
            self.comes(
                self.sum,
                [
                    "R 190 × 128/255 + 60 × 127/255 = 125.25 → 125",
                    "G 60 × 128/255 + 130 × 127/255 = 94.86 → 95",
                    "B 50 × 128/255 + 60 × 127/255 = 54.98 → 55",
                    "A 128 × 255/255 + 255 × 0/255 = 128.00 → 128",
                ],
            )
            self.choose_entry(2)
            self.comes(self.sum, ["a clear: each pixel has its colour, whatever the state"])
            self.assertEqual(self.browser.run("return document.querySelectorAll('#sum .differs').length"), 0)

    def test_why_a_triangle_was_thrown_away(self):
        events = [
            {"kind": "depth", "enable": True, "write": True, "func": "LESS"},
            {"kind": "raster", "cull": "back", "front_ccw": False, "scissor": True},
            {"kind": "scissor", "rect": [0, 0, 4, 8]},
        ]
        one = {
            "kind": "draw",
            "interp": "flat",
            "vertices": vertices(*(((0, 0, 1000, [9, 8, 7, 6]), (16, 0, 1000, [1] * 4), (0, 16, 1000, [1] * 4)))),
        }
        far = {**one, "vertices": [{**vertex, "z": 2000} for vertex in one["vertices"]]}
        events += [one, far, {**one, "vertices": one["vertices"][::-1]}]
        with tempfile.TemporaryDirectory() as folder:
            self.shows(capture_of(8, 8, events, 2), folder)
            self.click_pixel(1, 1, 8)
            self.comes(
                self.sum, ["thrown away: cull is back, the front is clockwise, and this triangle shows its back"]
            )
            self.choose_entry(5)
            self.comes(self.sum, ["thrown away: the depth test (2000 < 1000) doesn't hold"])
            self.choose_entry(4)
            self.comes(
                self.sum,
                [
                    *(f"{name} {value}, as blending is off → {value}" for name, value in zip("RGBA", (9, 8, 7, 6))),
                    "the depth test (1000 < 65535) holds: 1000 is stored",
                ],
            )
            self.click_pixel(6, 2, 8)
            self.comes(self.sum, ["thrown away: 6 2 is outside of the scissor rectangle 0 0 to 4 8"])

    def test_why_a_pixel_was_discarded(self):
        """By a hole of the draw's picture, and beyond it; where there is a texel the sum takes that for the source."""
        box = captures.picture(0, 0, 2, 2, bytes([9, 8, 7, 6] * 4), [0, 1, 0, 0])
        blend = {
            "kind": "blend",
            "enable": True,
            "rgb": ["ONE", "ONE", "ADD"],
            "alpha": ["ONE", "ONE", "ADD"],
            "mask": 15,
        }
        corners = [captures.corner(x << 16, y << 16, 0) for x, y in ((0, 0), (16, 0), (0, 16))]
        with tempfile.TemporaryDirectory() as folder:
            self.shows(
                capture_of(8, 8, [captures.clear(1, 1, 1, 1), blend, captures.picture_draw(corners, box)], 3), folder
            )
            self.click_pixel(0, 0, 8)
            self.comes(
                self.sum,
                [
                    f"{name} {value} × 255/255 + 1 × 255/255 = {value + 1}.00 → {value + 1}"
                    for name, value in zip("RGBA", (9, 8, 7, 6))
                ],
            )
            self.click_pixel(1, 0, 8)
            self.comes(self.sum, ["thrown away: the draw's picture has no colour at 1 0"])
            self.click_pixel(4, 4, 8)
            self.comes(self.sum, ["thrown away: the draw's picture has no colour at 4 4"])
            self.browser.press("t")
            self.reads("#mesh-told", "1, with a picture of 2 by 2 at 0 0")
            self.comes(self.corners, ["0 clockwise: front, area 128", "0 0 0 0", "1 16 0 0", "2 0 16 0"])
            self.assertEqual(
                self.browser.run("return document.querySelector('[data-number=\"3\"] .what').innerText"),
                "1 triangle, a picture",
            )

    def test_a_sum_knows_the_state_before(self):
        """A draw's state is the one before it, also where another is marked in the table."""
        blend = {
            "kind": "blend",
            "enable": True,
            "rgb": ["ONE", "ONE", "ADD"],
            "alpha": ["ONE", "ONE", "ADD"],
            "mask": 7,
        }
        events = [
            blend,
            {
                "kind": "draw",
                "interp": "flat",
                "vertices": vertices(*((x, y, [9, 8, 250, 6]) for x, y in ((0, 0), (16, 0), (0, 16)))),
            },
        ]
        with tempfile.TemporaryDirectory() as folder:
            self.shows(capture_of(8, 8, [*events, events[1]]), folder)
            self.click_pixel(1, 1, 8)
            self.comes(
                self.sum,
                [
                    "R 9 × 255/255 + 9 × 255/255 = 18.00 → 18",
                    "G 8 × 255/255 + 8 × 255/255 = 16.00 → 16",
                    "B 250 × 255/255 + 250 × 255/255 = 500.00 → 255",
                    "A not written → 0",
                ],
            )
            self.browser.click("[data-state='next']")
            self.browser.click(self.row(1) + " input")
            self.comes(
                self.sum,
                [f"{name} {value}, as blending is off → {value}" for name, value in zip("RGBA", (9, 8, 250, 6))],
            )

    def test_the_sum_is_the_definitions(self):
        """Of states and colours by chance, beside the definition of blending."""
        dice, asked = random.Random(5), []
        for _ in range(3000):
            rgb, alpha = (
                [*dice.choices(factors, k=2), dice.choice(OPERATIONS)] for factors in (FACTORS + COLOURS, FACTORS)
            )
            colours = {
                name: [dice.choice((0, 255, dice.randrange(256))) for _ in range(4)]
                for name in ("source", "before", "factor")
            }
            asked.append({**colours, "blend": [dice.random() < 0.8, rgb, alpha, dice.choice((15, dice.randrange(16)))]})
        with Viewer(HOUSE) as viewer:
            self.open(viewer)
            self.at(13)
            found = self.within(SUMS, asked)
        for given, made in zip(asked, found):
            state = {"blend": given["blend"], "factor": given["factor"]}
            self.assertEqual(
                [ours for _, ours in made], list(reference.blend(state, given["source"], given["before"])), given
            )

    def test_a_sum_that_differs_is_marked(self):
        """Where page and program differ, the page says so: here it is told of another source than was drawn."""
        with Viewer(HOUSE) as viewer:
            self.open(viewer)
            self.at(13)
            self.click_pixel(50, 50, 96)
            self.browser.until("return document.querySelectorAll('#history .entry').length === 4")
            self.choose_entry(11)
            self.comes(lambda: len(self.sum()), 4)
            self.within("const { shown } = await import(name('shown.js')); shown.entries.at(-1).source.r = 200;")
            self.browser.press("Escape", "Left", "Right")
            self.comes(
                lambda: self.sum()[:1],
                ["R 200 × 128/255 + 60 × 127/255 = 130.27 → 125 (this page makes 130 of it: please tell its makers)"],
            )
