"""The view of the card: its scenes, tables by the browsers' own renderers, faults planted in WebGL, and captures."""
import base64
import json
import unittest

import folders

import browser
import captures
from viewer_hands import Hands
from viewer_testing import EXAMPLES, HOUSE, Viewer, capture_of

from driving import features

MASKED = EXAMPLES / "masked_and_scissored.json"
SECONDS = 240  # for a table
WHOLE = 1200  # for one of all features
SCENES = """const { FEATURES, sceneOf } = await import(name("features.js")), [feature, seed, bits] = given;
return feature === null ? Object.keys(FEATURES) : JSON.stringify(sceneOf(feature, seed, bits));"""
COARSE = """const { coarse } = await import(name("features.js"));
return coarse(...given);"""
# Faults of a card, each a function of WebGL that does otherwise
PLANTS = """
const its = WebGL2RenderingContext.prototype, names = ["cullFace", "scissor", "blendFuncSeparate", "colorMask"];
names.push("depthFunc", "bufferData", "blendColor", "frontFace");
const right = Object.fromEntries(names.map(of => [of, its[of]]));
const step = 1 / 16 / 2048, isPlaces = data => data instanceof Float32Array;
const moved = data => isPlaces(data) ? data.map((value, i) => i % 3 === 2 ? value : value + step) : data;
const plants = {
  none: {},
  "cull exchanged": { cullFace(face) { right.cullFace.call(this, face === this.FRONT ? this.BACK : this.FRONT); } },
  "front face ignored": { frontFace() { right.frontFace.call(this, this.CCW); } },
  "scissor one wider": { scissor(x, y, width, height) { right.scissor.call(this, x, y, width + 1, height); } },
  "destination factor": { blendFuncSeparate(a, b, ...alpha) {
    right.blendFuncSeparate.call(this, a, b === this.ONE_MINUS_SRC_ALPHA ? this.ONE : b, ...alpha);
  } },
  "factor off by 3": { blendColor(...four) { right.blendColor.call(this, ...four.map(n => Math.abs(n - 3 / 255))); } },
  "mask ignored": { colorMask() { right.colorMask.call(this, true, true, true, true); } },
  "depth function": { depthFunc(func) { right.depthFunc.call(this, func === this.LESS ? this.LEQUAL : func); } },
  "edges moved": { bufferData(target, data, use) { right.bufferData.call(this, target, moved(data), use); } },
};"""
PLANT = PLANTS + "Object.assign(its, plants[given[0]]); return true;"
# The bits of a pixel's fraction, and the rows of some features: verdict, whose rules are broken, what is counted
TRIED = (
    PLANTS
    + """
const { Trial, COLUMNS } = await import(name("card_trial.js")), { Player } = await import(name("card_player.js"));
const { openCapture } = await import(name("run.js")), [plant, only, bits] = given;
Object.assign(its, plants[plant]);
try {
  const player = new Player(), found = await new Trial(player, openCapture).run({ scenes: 1, only, bits });
  player.close();
  const rows = found.rows.map(row => [row.name, [row.verdict, row.breaks, row.pixels, row.cells]]);
  return [found.bits, Object.fromEntries(rows), COLUMNS.map(([column]) => column)];
} finally {
  Object.assign(its, right);
}"""
)
# The feature and the column that a fault is seen in
SEEN = {
    "cull exchanged": ("culling", "state"),
    "front face ignored": ("culling", "state"),
    "scissor one wider": ("scissor", "state"),
    "destination factor": ("destination factor INV_SRC_ALPHA", "by more"),
    "factor off by 3": ("source factor BLEND_FACTOR", "by more"),
    "mask ignored": ("mask", "by more"),
    "depth function": ("depth LESS", "test"),
    "edges moved": ("top-left rule", "coverage"),
}
EXACT = (
    "subpixels",
    "shared edges",
    "top-left rule",
    "flat",
    "mask",
    "scissor",
    "culling",
    "clears",
    "odd lists",
    "operation MAX",
    "depth LESS",
    "depth EQUAL",
)
ROUNDED = ("linear", "alpha over", "depth values", "every product")
COPIED = """let told = null;
Object.defineProperty(navigator, "clipboard", { configurable: true, value: { writeText: text => { told = text; } } });
document.getElementById("card-copy").onclick();
return told;"""
KEPT = """let came = null;
const made = new Promise(resolve => { came = resolve; });
URL.createObjectURL = blob => { came(blob); return "data:,"; };
HTMLAnchorElement.prototype.click = function () { window.keptAs = this.download; };
document.getElementById("card-keep").onclick();
return [window.keptAs, await (await made).text()];"""
DROPPED = """const [file, letters] = given, moved = new DataTransfer();
moved.items.add(new File([Uint8Array.from(atob(letters), letter => letter.charCodeAt(0))], file));
const dropped = new DragEvent("drop", { dataTransfer: moved, bubbles: true, cancelable: true });
document.getElementById("card").dispatchEvent(dropped);
return true;"""


class CardCalled(unittest.TestCase):
    """The server's calls, without a page."""

    def setUp(self):
        self.viewer = self.enterContext(Viewer(HOUSE))

    def started(self, capture):
        return json.loads(self.viewer.request(path="/card", body=capture.encode())[2])["run"]

    def asked(self, number, *lines):
        body = "".join(f"{line}\n" for line in lines).encode()
        status, _, answer = self.viewer.request(path="/card/commands", body=body, X_Card=str(number))
        told, _, images = answer.partition(b"\n")
        return status, told, images

    def test_a_run_of_its_own(self):
        """It has the capture that was given, one at a time, and the page's run stays where it is."""
        first = self.started(capture_of(2, 1, [captures.clear(1, 2, 3, 4)]))
        status, told, images = self.asked(first, "goto 1", "show", "pixel 1 0")
        self.assertEqual((status, images), (200, bytes((1, 2, 3, 4, 1, 2, 3, 4))))
        self.assertEqual([reply["text"].split(" ")[0] for reply in json.loads(told)["replies"]], ["at", "pam", "pixel"])
        second = self.started(capture_of(1, 1, [captures.clear(9, 9, 9, 9)]))
        self.assertEqual(self.asked(second, "goto 1", "show")[2], bytes((9, 9, 9, 9)))
        self.assertEqual(self.asked(first, "goto 1")[0], 400)
        self.assertEqual(self.viewer.ask("state")[0]["replies"][0]["text"].split(" ")[0], "state")
        self.viewer.request(path="/card/end", body=str(second).encode())
        self.assertEqual(self.asked(second, "goto 1")[0], 400)

    def test_what_is_refused(self):
        number = self.started(capture_of(1, 1, [captures.clear(1, 2, 3)]))
        status, why, _ = self.asked(number, "state")
        self.assertEqual(status, 400)
        self.assertIn(b"event 1 (clear), color", why)
        for path in ("/card", "/card/commands", "/card/end"):
            self.assertEqual(self.viewer.request(path=path, X_Token=None)[0], 403)

    def test_the_file(self):
        self.assertEqual(self.viewer.request("GET", "/capture/file", b"")[2], HOUSE.read_bytes())
        self.assertEqual(self.viewer.request("GET", "/capture/file", b"", X_Token=None)[0], 403)


class Card(Hands):
    bits = 4  # of a pixel's fraction, that the browser's renderer has

    def setUp(self):
        self.viewer = self.enterContext(Viewer(HOUSE))
        self.open(self.viewer)

    def tried(self, plant, *only, bits=None):
        found, rows, columns = self.within(TRIED, plant, only, self.bits if bits is None else bits)

        def kinds(cells):
            return [dict(zip(columns[part], cells[part])) for part in (slice(5), slice(5, None))]

        return found, {name: [*told, *kinds(cells)] for name, (*told, cells) in rows.items()}

    def opened(self):
        self.browser.click("#to-card")
        self.browser.until("return document.getElementById('card')?.open")

    def done(self, seconds=SECONDS):
        self.browser.until("return !document.getElementById('card-copy').hidden", seconds=seconds)

    def rows(self):
        return self.browser.run(
            "const rows = [...document.querySelectorAll('#card-table tbody tr')];"
            "return rows.map(row => [...row.children].map(cell => cell.innerText))"
        )

    def asks_for(self, feature, seconds=SECONDS):
        self.browser.run(
            "document.getElementById('card-only').value = arguments[0];"
            "document.getElementById('card-scenes').value = 1",
            feature,
        )
        self.browser.click("#card-try")
        self.done(seconds)

    def test_scenes(self):
        """They are those of framedbg-driver, but for the one that it lets the driver snap."""
        names = self.within(SCENES, None, 0, 0)
        self.assertEqual(names, [name for name in features.FEATURES if name not in features.UNSNAPPED])
        for name in names:
            for seed, bits in ((1, 8), (2, 4)) if not name.startswith(features.WHOLE) else ((1, 8),):
                text, wanted = self.within(SCENES, name, seed, bits), json.dumps(features.scene(name, seed, bits))
                self.assertEqual(json.loads(text), json.loads(wanted), (name, seed, bits))
        house = json.loads(HOUSE.read_text())
        for bits in (8, 4):
            self.assertEqual(self.within(COARSE, house, bits), features.coarse(house, bits))

    def test_a_table(self):
        """Coverage and state are exact, and else nothing is beyond rounding."""
        bits, rows = self.tried("none", *EXACT, *ROUNDED, bits=0)
        self.assertEqual(bits, self.bits)
        for name, (verdict, breaks, pixels, _, _) in rows.items():
            allowed = ("exact", "within 1") if name.startswith(ROUNDED) else ("exact",)
            self.assertIn(verdict, allowed, (name, rows[name]))
            self.assertEqual((breaks, pixels > 0), ("", True), name)

    def test_planted_faults(self):
        """Each is seen in the feature that means it, and by its kind; what it doesn't touch stays exact."""
        for plant, (feature, column) in SEEN.items():
            _, rows = self.tried(plant, feature, "linear, huge" if plant == "edges moved" else "flat")
            verdict, breaks, _, colours, depths = rows[feature]
            self.assertEqual(verdict, "differs", (plant, rows))
            self.assertGreater((depths if column == "test" else colours)[column], 0, (plant, rows))
            self.assertEqual(rows["flat"][0] if "flat" in rows else "exact", "exact", (plant, rows))
            self.assertIn(breaks, ("both", "Direct3D") if column == "coverage" else ("both",))

    def test_the_view(self):
        """A table that grows row by row, and the same as a text."""
        self.opened()
        self.asks_for("flat")
        [row] = self.rows()
        self.assertEqual((row[0], row[2:11], row[11:]), ("flat", ["·"] * 9, ["exact", ""]))
        head, agent, columns, flat, last, *more = self.within(COPIED).splitlines()
        self.assertRegex(head, f", {self.bits} subpixel bits; corners on {self.bits} bits, 1 scene of each feature$")
        self.assertEqual((agent, columns.split()[0]), (self.browser.run("return navigator.userAgent"), "feature"))
        self.assertEqual(flat.split(), ["flat", row[1], *["."] * 9, "exact"])
        self.assertRegex(last, r"^1 feature: 1 exact, 0 within 1, 0 differ; \d+ s$")
        self.assertEqual(more, [])

    def test_a_scene_is_kept(self):
        """The first that differs, which is framedbg-driver's."""
        self.within(PLANT, "cull exchanged")
        self.opened()
        self.asks_for("culling")
        said = self.within(COPIED).splitlines()[-1]
        self.assertRegex(
            said,
            r"^first beyond rounding: culling_1\.json, event \d+, pixel \d+ \d+, (cull|coverage): "
            r"framedbg [\d ]+, the card [\d ]+$",
        )
        name, text = self.within(KEPT)
        wanted = json.loads(json.dumps(features.scene("culling", 1, self.bits)))
        self.assertEqual((name, json.loads(text)), ("culling_1.json", wanted))

    def test_a_dropped_capture(self):
        """Event by event, and the first pixel that differs: both are what docs/DRIVERS.md shows of this fault."""
        self.within(PLANT, "mask ignored")
        self.opened()
        self.within(DROPPED, MASKED.name, base64.b64encode(MASKED.read_bytes()).decode())
        self.done()
        lines = self.within(COPIED).splitlines()
        self.assertEqual(
            lines[2:],
            [
                "frame   masked_and_scissored.json: 2 x 2, 5 events",
                "event 5: draw 1 flat, 1 pixel changed: 1 by more",
                "first   beyond rounding: event 5, pixel 0 0, by more: framedbg 200 9 202 9, the card 200 201 202 203",
                "in all  2 events judged, 5 pixels changed: 1 by more",
            ],
        )
        self.assertEqual(self.rows(), [[lines[3]]])
        self.assertEqual(self.browser.run("return document.getElementById('capture').innerText"), HOUSE.name)

    def test_this_frame(self):
        """The one that is shown, in which nothing is beyond rounding."""
        self.opened()
        self.browser.click("#card-frame")
        self.done()
        self.assertRegex(self.text("#card-told"), r": 8 events of house\.json judged, (exact|within 1)$")

    def test_refusals(self):
        self.opened()
        picture = {"left": 0, "top": 0, "width": 1, "height": 1, "texels": "AAAAAA=="}
        corners = [{"x": x, "y": y, "z": 0} for x, y in ((0, 0), (131072, 0), (0, 131072))]
        drawn = capture_of(1, 1, [{"kind": "draw", "interp": "picture", "vertices": corners, "picture": picture}], 3)
        for name, text, why in (("none.json", "[", "none.json: "), ("picture.json", drawn, "event 1 draws a picture")):
            self.within(DROPPED, name, base64.b64encode(text.encode()).decode())
            self.browser.until("return document.getElementById('card-told').innerText.startsWith(arguments[0])", why)


@unittest.skipUnless(browser.is_installed(), "Chromium and chromedriver aren't installed")
class CardInChromium(Card):
    kind = browser.DrawingChromium

    def test_the_whole_table(self):
        """Each feature is a row, in their order, with pixels and a verdict, and the text has the same rows."""
        names = [name for name in features.FEATURES if name not in features.UNSNAPPED]
        self.opened()
        self.asks_for("", seconds=WHOLE)
        rows = self.rows()
        self.assertEqual([row[0] for row in rows], names)
        for row in rows:
            self.assertIn(row[11], ("exact", "within 1"), row)
            self.assertGreater(int(row[1].replace(",", "")), 0, row)
        text = self.within(COPIED).splitlines()
        self.assertEqual([name for name, line in zip(names, text[3:]) if not line.startswith(f"{name} ")], [])
        exact = sum(row[11] == "exact" for row in rows)
        self.assertRegex(
            text[3 + len(names)], f"^{len(names)} features: {exact} exact, {len(names) - exact} within 1, 0 differ; "
        )


del Card  # it is tried in browsers alone

if __name__ == "__main__":
    unittest.main()
