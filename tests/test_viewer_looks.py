"""The viewer's page on other screens and under other hands: narrow windows, colours of the system's own, the wheel,
two fingers, and the PNG that is saved."""
import base64
import json
import pathlib
import tempfile
import unittest

import folders

import browser
import captures
from viewer_hands import Hands
from viewer_testing import DEPTH, HOUSE, RED, WINDOW, Viewer, capture_of, file_of, image, vertices

# Turns the wheel over the picture, at a place of the page
TURN = """const [x, y, more] = arguments;
document.getElementById("stage").dispatchEvent(new WheelEvent("wheel", { clientX: x, clientY: y, bubbles: true, cancelable: true, ...more }));"""
# Presses PNG, and leaves the file that is given to the browser as text. The picture comes when the page has gone on
SAVE = """const [done] = arguments, create = URL.createObjectURL, { toBlob } = HTMLCanvasElement.prototype;
HTMLCanvasElement.prototype.toBlob = function (use) {
  toBlob.call(this, blob => {
    document.body.dispatchEvent(new KeyboardEvent("keydown", { key: "ArrowLeft", bubbles: true }));
    new MutationObserver((_, watch) => { watch.disconnect(); use(blob); }).observe(document.getElementById("position"), { childList: true });
  });
};
HTMLAnchorElement.prototype.click = function () { window.saved = this.download; };
URL.createObjectURL = blob => {
  URL.createObjectURL = create;
  blob.arrayBuffer().then(buffer => { let text = ""; for (const byte of new Uint8Array(buffer)) text += String.fromCharCode(byte); setTimeout(() => done([window.saved, btoa(text)])); });
  return create.call(URL, blob);
};
document.getElementById("save-png").onclick();"""
# What of the page runs out of its right edge, and which two parts of it lie over each other
APART = """const shown = [...document.querySelectorAll("header > *, #events, #view, aside > section, footer, .head > *, .foot > *, #view > *")].filter(e => e.checkVisibility() && e.getClientRects().length);
const box = e => e.getBoundingClientRect(), name = e => e.id || e.className || e.tagName, wide = document.documentElement.clientWidth;
const out = shown.filter(e => box(e).right > wide + 0.5).map(name), over = [];
for (const one of shown) for (const two of shown) {
  if (one === two || one.contains(two) || two.contains(one) || one.closest("header") !== two.closest("header")) continue;
  const [a, b] = [box(one), box(two)];
  if (name(one) < name(two) && a.left < b.right - 1 && b.left < a.right - 1 && a.top < b.bottom - 1 && b.top < a.bottom - 1) over.push(`${name(one)} ${name(two)}`);
}
return [out, over, document.documentElement.scrollWidth > wide];"""

# Each number that is cut off without a sign: it runs out of a part of the page that neither scrolls nor ends in dots,
# or out of its own cell
CUT = """const cut = [], walker = document.createTreeWalker(document.body, NodeFilter.SHOW_TEXT), style = e => getComputedStyle(e), box = e => e.getBoundingClientRect();
for (let node; (node = walker.nextNode());) {
  const owner = node.parentElement, range = document.createRange();
  if (!/\\d/.test(node.data) || !owner.checkVisibility() || owner.closest("dialog, script, .unseen")) continue;
  range.selectNodeContents(node);
  const boxes = [...range.getClientRects()], name = at => `${at.id || at.className || at.tagName}: ${node.data}`;
  const cell = owner.closest(".row > *");
  if (cell && style(cell).textOverflow !== "ellipsis" && cell.scrollWidth > cell.clientWidth + 1) cut.push(name(cell));
  if (cell && style(cell).textOverflow !== "ellipsis" && boxes.some(b => b.right > box(cell).right + 1 || b.bottom > box(cell.parentElement).bottom + 1)) cut.push(name(cell));
  for (let at = owner; at !== document.documentElement; at = at.parentElement) {
    if (/auto|scroll/.test(style(at).overflowX)) break;
    if (style(at).overflowX !== "visible" && style(at).textOverflow !== "ellipsis" && boxes.some(b => b.right > box(at).right + 1 || b.left < box(at).left - 1)) cut.push(name(at));
  }
}
for (const list of document.querySelectorAll(".list")) if (!style(list).backgroundImage.includes("gradient")) cut.push(`${list.id}: no shadow`);
return cut;"""
FAR = 1_073_741_567  # in 1/65536 pixel: 16383.99608
# The longest numbers: a capture of version 2 whose triangle reaches far out of the target
LONG = capture_of(
    64,
    48,
    [
        {"kind": "clear", "color": [255, 255, 255, 128]},
        {"kind": "raster", "cull": "none", "front_ccw": False, "scissor": True},
        {"kind": "scissor", "rect": [-2147483648, -2147483648, 2147483647, 2147483647]},
        {"kind": "factor", "color": [255, 255, 255, 255]},
        {
            "kind": "blend",
            "enable": True,
            "rgb": ["BLEND_FACTOR", "INV_BLEND_FACTOR", "ADD"],
            "alpha": ["ONE", "ZERO", "ADD"],
            "mask": 15,
        },
        {"kind": "depth", "enable": True, "write": True, "func": "LESS_EQUAL"},
        {"kind": "depth_clear", "depth": 65535},
        {
            "kind": "draw",
            "interp": "flat",
            "vertices": [
                {"x": x, "y": y, "z": 65534, "color": [254, 253, 252, 251]}
                for x, y in ((-FAR, FAR), (FAR, -FAR), (FAR, FAR))
            ],
        },
    ],
    2,
)


@unittest.skipUnless(browser.is_installed(), "Chromium and chromedriver aren't installed")
class Looks(Hands):
    def devtools(self, command, **parameters):
        return self.browser.call("/goog/cdp/execute", {"cmd": command, "params": parameters})

    def of_size(self, width, height):
        self.devtools(
            "Emulation.setDeviceMetricsOverride", width=width, height=height, deviceScaleFactor=1, mobile=False
        )
        self.addCleanup(self.devtools, "Emulation.clearDeviceMetricsOverride")

    def shows_house(self):
        viewer = Viewer(HOUSE)
        self.addCleanup(viewer.__exit__)
        self.open(viewer)
        self.at(13)
        self.click_pixel(50, 50, 96)
        self.browser.until("return document.querySelectorAll('#history .entry').length === 4")
        return viewer

    # ---- Screens

    def test_on_a_small_screen(self):
        """The picture has half of 1280 by 720 and more; at 1024 and on a phone nothing runs out, and nothing lies
        over another thing."""
        for width, height in ((1280, 720), (1024, 768), (390, 844)):
            self.of_size(width, height)
            self.shows_house()
            self.assertEqual(self.browser.run("return [innerWidth, innerHeight]"), [width, height])
            self.comes(lambda: self.browser.run(APART), [[], [], False])
            if width == 1280:
                self.assertGreaterEqual(self.box("#view")[2] * 2, width)
                self.assertGreaterEqual(self.box("#stage")[3] * 2, height)

    def test_no_number_is_cut(self):
        """Without a sign: in the history, the lists of events and corners, the state and beside the picture, at any
        width."""
        with tempfile.TemporaryDirectory() as folder, Viewer(file_of(folder, LONG)) as viewer:
            for width, height in ((901, 800), (1000, 800), (1100, 800), (1280, 800), (1440, 900), (500, 800)):
                self.of_size(width, height)
                self.open(viewer)
                self.at(8)
                self.click_pixel(20, 20, 64)
                self.browser.until("return document.querySelectorAll('#history .entry').length === 3")
                self.browser.run(
                    "document.getElementById('wires-shown').checked || document.getElementById('wires-shown').click()"
                )
                self.browser.until("return document.querySelectorAll('#vertices .row').length === 4")
                self.comes(lambda: [width, *self.browser.run(CUT)], [width])
                self.assertEqual(
                    self.browser.run(
                        "return ['#filter', '#command'].map(s => "
                        "getComputedStyle(document.querySelector(s)).textOverflow)"
                    ),
                    ["ellipsis"] * 2,
                )
                colours = self.browser.run(
                    "return [...document.querySelectorAll('#history .entry:last-child .cell')].map(e => "
                    "e.innerText.replace(/\\s+/g, ' ').trim())"
                )
                self.assertEqual(colours, ["254 253 252 251 65534", "255 255 255 128 65535", "254 253 252 251 65534"])

    def test_a_click_shows_its_history(self):
        """On a phone, where one thing stands below another."""
        self.of_size(500, 800)
        self.shows_house()
        inside = (
            "const e = document.getElementById('history').getBoundingClientRect(), h = "
            "document.querySelector('header').getBoundingClientRect(); return e.top >= h.bottom && e.bottom <= "
            "innerHeight && e.height > 100"
        )
        self.comes(lambda: self.browser.run(inside), True)
        self.assertGreater(self.box("#stage")[1] + self.box("#stage")[3], 200)  # and of the picture enough is left

    def test_colours_of_the_system(self):
        """Swatches and the picture keep theirs, and what is chosen has a line."""
        self.shows_house()
        kept = (
            "return ['.swatch', '#image', '#ticks', '#outline'].map(s => "
            "getComputedStyle(document.querySelector(s)).forcedColorAdjust)"
            ".concat(['[data-look=after]', '.event[aria-selected=true]', '[data-channel=r]'].map(s => "
            "getComputedStyle(document.querySelector(s)).outlineStyle))"
        )
        self.devtools("Emulation.setEmulatedMedia", features=[{"name": "forced-colors", "value": "active"}])
        self.addCleanup(self.devtools, "Emulation.setEmulatedMedia", features=[])
        self.comes(lambda: self.browser.run(kept), ["none"] * 4 + ["solid"] * 3)

    # ---- Hands

    def zoom(self):
        return round(self.box("#sheet")[2] / 64, 3)

    def scrolled(self):
        return self.browser.run(
            "const s = document.getElementById('stage'); return [Math.round(s.scrollLeft), Math.round(s.scrollTop)]"
        )

    def shows_window(self):
        folder = tempfile.TemporaryDirectory()
        self.addCleanup(folder.cleanup)
        viewer = Viewer(file_of(folder.name, WINDOW))
        self.addCleanup(viewer.__exit__)
        self.open(viewer)
        self.at(4)
        left, top, wide, high = self.box("#stage")
        return left + wide / 2, top + high / 2

    def place_at(self, x, y):
        """What of the target lies at a place of the page, in pixels."""
        left, top, wide, _ = self.box("#sheet")
        return (x - left) * 64 / wide, (y - top) * 64 / wide

    def test_the_wheel(self):
        """It zooms in fine steps round where it is turned; with Shift, or turned sideways, it pans."""
        x, y = self.shows_window()
        zoom, place = self.zoom(), self.place_at(x, y)
        for turned, factor in (
            (-100, 2.718281828**0.25),
            (-100, 2.718281828**0.5),
            (-100, 2.718281828**0.75),
            (100, 2.718281828**0.5),
        ):
            self.browser.run(TURN, x, y, {"deltaY": turned})
            self.assertAlmostEqual(self.zoom() / zoom, factor, 2)
        for there, was in zip(self.place_at(x, y), place):
            self.assertAlmostEqual(there, was, delta=0.2)
        self.browser.run(TURN, x, y, {"deltaY": -800})
        zoom, (left, top) = self.zoom(), self.scrolled()
        for more, moved in (
            ({"deltaX": 30}, (30, 0)),
            ({"deltaY": 20, "shiftKey": True}, (50, 0)),
            ({"deltaX": -40, "deltaY": 5}, (10, 5)),
        ):
            self.browser.run(TURN, x, y, more)
            self.assertEqual((self.scrolled(), self.zoom()), ([left + moved[0], top + moved[1]], zoom), more)

    def test_two_fingers(self):
        """Moved apart they zoom in round their middle, and pick no pixel."""
        x, y = self.shows_window()
        zoom, place = self.zoom(), self.place_at(x, y)
        moves = [[x - 20, x - 40, x - 60], [x + 20, x + 40, x + 60]]
        fingers = [
            {
                "type": "pointer",
                "id": f"finger{i}",
                "parameters": {"pointerType": "touch"},
                "actions": [
                    {"type": "pointerMove", "x": round(some[0]), "y": round(y)},
                    {"type": "pointerDown", "button": 0},
                    *({"type": "pointerMove", "duration": 50, "x": round(at), "y": round(y)} for at in some[1:]),
                    {"type": "pointerUp", "button": 0},
                ],
            }
            for i, some in enumerate(moves)
        ]
        self.browser.call("/actions", {"actions": fingers})
        self.comes(lambda: round(self.zoom() / zoom, 1), 3.0)
        for there, was in zip(self.place_at(x, y), place):
            self.assertAlmostEqual(there, was, delta=0.5)
        self.browser.press("Escape", "Left")
        self.at(3)  # a pick would come before this move
        self.assertTrue(self.browser.run("return document.getElementById('history').hidden"))

    # ---- The range

    def shows_range(self, text, key=""):
        """A capture of 8 by 8 pixels at its end, under a look's key, with the range beside it."""
        folder = tempfile.TemporaryDirectory()
        self.addCleanup(folder.cleanup)
        viewer = Viewer(file_of(folder.name, text))
        self.addCleanup(viewer.__exit__)
        self.open(viewer)
        self.at(len(json.loads(text)["events"]))
        self.browser.press("Escape", *key, "r")

    def set_range(self, black, white):
        self.browser.run(
            "document.getElementById('black').value = arguments[0]; document.getElementById('white').value = "
            "arguments[1]; document.getElementById('white').oninput()",
            black,
            white,
        )

    def of_two(self):
        """What is drawn at 1 1, in the triangle, and at 7 7, outside of it."""
        return [self.drawn(1, 1)[:3], self.drawn(7, 7)[:3]]

    def test_the_range_of_a_dark_picture(self):
        """From black to white, of the channels that are shown and of what is in sight, with a histogram."""
        self.shows_range(
            capture_of(
                8,
                8,
                [
                    captures.clear(10, 20, 30, 255),
                    captures.draw(
                        vertices((0, 0, [40, 30, 20, 255]), (8, 0, [40, 30, 20, 255]), (0, 8, [40, 30, 20, 255]))
                    ),
                ],
            )
        )
        self.reads("#range-told", "10 to 40 in sight")
        self.assertEqual(self.of_two(), [[40, 30, 20], [10, 20, 30]])
        self.browser.click("#fit-range")
        self.comes(self.of_two, [[255, 170, 85], [0, 85, 170]])
        self.assertEqual(
            self.browser.run("return ['black', 'white'].map(id => document.getElementById(id).value)"), ["10", "40"]
        )
        bars = (
            "return [81, 82, 83, 164, 165, 166].map(x => "
            "document.getElementById('histogram').getContext('2d').getImageData(x, 39, 1, 1).data[3])"
        )
        self.assertEqual(self.browser.run(bars), [0, 255, 0, 0, 255, 0])  # of 256 from 10 to 40, those of 20 and 30
        self.set_range(20, 30)
        self.comes(self.of_two, [[255, 255, 0], [0, 0, 255]])
        self.browser.run("for (const c of 'rb') document.querySelector(`[data-channel=${c}]`).click()")
        self.reads("#range-told", "20 to 30 in sight")
        self.browser.run("for (const c of 'rb') document.querySelector(`[data-channel=${c}]`).click()")
        self.browser.click("#whole-range")
        self.comes(self.of_two, [[40, 30, 20], [10, 20, 30]])
        self.browser.run("document.getElementById('range-shown').click()")
        self.assertTrue(self.browser.run("return document.getElementById('range').hidden"))

    def test_the_range_of_depths(self):
        """Nearer is lighter, and what lies outside is as light as its end."""
        self.shows_range(capture_of(8, 8, json.loads(DEPTH)["events"][:4], 2), "z")
        self.comes(self.of_two, [[240] * 3, [60] * 3])  # depths 1000 and 2000
        for black, white, near, far in ((0, 4000, 195, 150), (1500, 2500, 240, 150), (1000, 2000, 240, 60)):
            self.set_range(black, white)
            self.comes(self.of_two, [[near] * 3, [far] * 3])

    def test_overdraw_up_to_the_highest(self):
        """Three triangles over all, and seventeen more over six pixels of a corner."""
        whole, corner = ([(0, 0, RED), (far, 0, RED), (0, far, RED)] for far in (16, 4))
        self.shows_range(capture_of(8, 8, [captures.draw(vertices(*(3 * whole + 17 * corner)))]), "o")
        told = lambda: [
            text
            for text in self.browser.run(
                "return [...document.querySelectorAll('#legend > span')].map(e => e.innerText.replace(/\\s+/g, "
                "' ').trim())"
            )
            if not text.endswith(" 0")
        ]
        self.comes(told, ["drawn 3 to 5 times 58", "drawn 18 to 20 times 6"])
        self.browser.click("#fit-range")
        self.comes(told, ["drawn 1 to 4 times 58", "drawn 18 to 20 times 6"])
        self.assertEqual(
            self.browser.run("return ['black', 'white'].map(id => document.getElementById(id).value)"), ["2", "20"]
        )

    def test_the_range_of_differences(self):
        """By how much, in place of white alone."""
        samples, head = image(HOUSE)
        samples[4 * (50 * 96 + 50) + 1] += 1
        samples[4 * (50 * 96 + 60)] += 40
        self.shows_house()
        with tempfile.TemporaryDirectory() as folder:
            driver = pathlib.Path(folder) / "driver.pam"
            driver.write_bytes(head + samples)
            self.browser.choose("#file", driver)
            self.reads("#compared-with", "driver.pam")
        of_both = lambda: [self.drawn(50, 50)[0], self.drawn(60, 50)[0], self.drawn(61, 50)[0]]
        self.browser.press("Escape", "r")
        self.comes(of_both, [1, 40, 0])
        self.browser.click("#fit-range")
        self.comes(of_both, [6, 255, 0])
        self.browser.press("Escape", "r")
        self.comes(of_both, [255, 255, image(HOUSE)[0][4 * (50 * 96 + 61)] // 4])

    # ---- Which draw is which

    def thumbnail(self, number):
        """The picture in an event's row: its size, and the colour in its middle; or none."""
        return self.browser.run(
            "const c = document.querySelector(arguments[0] + ' .thumbnail'); return c && [c.width, c.height, "
            "...c.getContext('2d').getImageData(c.width >> 1, c.height >> 1, 1, 1).data]",
            self.row(number),
        )

    def test_what_an_event_changed(self):
        """A small picture in the row of each event that the frame has stood at, of the very colours; another one
        where something is switched."""
        self.of_size(1600, 900)
        self.shows_house()
        self.assertIsNone(self.thumbnail(11))
        self.browser.click(self.row(11) + " .what")
        self.at(11)
        self.comes(lambda: self.thumbnail(11), [27, 20, 125, 95, 55, 255])  # of 32 by 24 pixels that changed
        left, top, wide, high = self.box(f"{self.row(11)} .thumbnail")
        self.assertLessEqual(left + wide, sum(self.box("#event-list")[::2]))  # in sight
        self.browser.press("Escape", "Left")
        self.at(10)
        self.assertEqual([self.thumbnail(number) for number in (10, 12)], [None, None])
        self.switch(8, False)
        self.comes(lambda: self.thumbnail(11), None)
        self.browser.press("Escape", "Right")
        self.at(11)
        self.comes(lambda: self.thumbnail(11), [27, 20, 190, 60, 50, 255])
        self.of_size(1000, 800)
        self.comes(
            lambda: self.browser.run("return document.querySelector('.thumbnail').checkVisibility()"), False
        )  # there is no room
        left, _, wide, _ = self.box("#event-list .fold")
        self.assertLessEqual(left + wide, sum(self.box("#event-list")[::2]))  # but for what folds a group

    def point_at(self, selector):
        left, top, wide, high = self.box(selector)
        move = {"type": "pointerMove", "x": round(left + wide / 2), "y": round(top + high / 2)}
        self.browser.call("/actions", {"actions": [{"type": "pointer", "id": "mouse", "actions": [move]}]})

    def test_where_an_event_draws(self):
        """Its box, while the pointer is on its row: of a draw, of a clear, and of what draws nothing none."""
        self.shows_house()
        box = lambda: self.browser.run(
            "const [b, s] = ['box', 'sheet'].map(id => document.getElementById(id)), [one, all] = [b, s].map(e "
            "=> e.getBoundingClientRect()), zoom = all.width / 96;"
            "return b.hidden ? null : [one.left - all.left, one.top - all.top, one.right - all.left, one.bottom "
            "- all.top].map(v => Math.round(v / zoom))"
        )
        for number, expected in (
            (11, [44, 36, 76, 60]),
            (2, [0, 0, 96, 64]),
            (8, None),
            (13, [56, 46, 64, 60]),
            (11, [44, 36, 76, 60]),
        ):
            self.point_at(self.row(number))
            self.comes(box, expected)
        self.browser.press("Escape", "+")
        self.comes(box, [44, 36, 76, 60])
        self.point_at("#log")
        self.comes(box, None)

    # ---- The PNG

    def test_the_png_is_the_picture(self):
        """At its place, in the target's pixels, and with the colours that framedbg writes."""
        samples, _ = image(HOUSE)
        self.shows_house()
        self.browser.press("Escape", "Left")
        self.at(12)
        self.browser.press("Right")
        self.at(13)
        name, text = self.browser.run_to_end(SAVE)
        self.assertEqual(name, "house_13.png")
        self.at(12)
        with tempfile.TemporaryDirectory() as folder:
            saved = pathlib.Path(folder) / "saved.png"
            saved.write_bytes(base64.b64decode(text))
            self.browser.press("d")
            self.browser.choose("#file", saved)
            self.reads("#compared-with", "saved.png")
            width, height, bits, kind = (
                *(int.from_bytes(saved.read_bytes()[at : at + 4], "big") for at in (16, 20)),
                *saved.read_bytes()[24:26],
            )
            self.assertEqual((width, height, bits, kind), (96, 64, 8, 6))
        opaque = bytearray(samples)
        opaque[3::4] = b"\xff" * (96 * 64)
        drawn = self.browser.run_to_end(
            "const [text, done] = arguments, it = new Image(); it.onload = () => { const c = "
            "Object.assign(document.createElement('canvas'), { width: it.width, height: it.height "
            "}).getContext('2d');"
            "c.drawImage(it, 0, 0); done([...c.getImageData(0, 0, it.width, it.height).data]); }; it.src = "
            "`data:image/png;base64,${text}`",
            text,
        )
        self.assertEqual(
            [at for at, (one, two) in enumerate(zip(drawn, opaque)) if one != two][:8], []
        )  # a list of all would be compared for hours
        self.assertEqual(len(drawn), len(opaque))


if __name__ == "__main__":
    unittest.main()
