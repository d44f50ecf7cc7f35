"""What the viewer's page answers beyond framedbg's replies: who set a state, how a colour came about, what met a
pixel. In Chromium, and in Firefox where it is installed."""
import json
import pathlib
import random
import tempfile
import threading
import time
import unittest
from unittest import mock

import browser
import reference
import viewer_sums
from viewer_testing import HOUSE, PROGRAM, Viewer, asked, capture_of, file_of, replies, vertices
from viewer.runs import Runs
from viewer.tabs import joined

# Presses F as soon as the frame stands at position 2
ONCE = """
new MutationObserver((_, watch) => {
  if (document.querySelector("#position b").innerText !== "2") return;
  watch.disconnect();
  window.pressed = true;
  document.body.dispatchEvent(new KeyboardEvent("keydown", { key: "f", bubbles: true }));
}).observe(document.getElementById("position"), { childList: true });
"""
# Drags the slider over some positions; gives the image's width and what is told on the way and at rest, and whether the
# pixels on the way are those of the whole image
DRAG = (
    "const [way, done] = arguments, slider = document.getElementById('slider'), image = "
    "document.getElementById('image');"
    "const pixels = () => new Uint32Array(image.getContext('2d').getImageData(0, 0, image.width, "
    "image.height).data.buffer);"
    "const here = () => +document.querySelector('#position b').innerText === way[0], told = () => "
    "document.getElementById('difference').innerText;"
    "const until = (holds, go) => holds() ? go() : setTimeout(() => until(holds, go), 5);"
    # which trembles until it lets go
    "const drag = () => { slider.value = way[0]; slider.dispatchEvent(new Event('input')); }, hand = "
    "setInterval(drag, 20);"
    "const go = () => until(here, () => { if (way.length === 1) return letGo(); way.shift(); drag(); go(); });"
    "const letGo = () => { clearInterval(hand); const few = [image.width, pixels(), told()];"
    "  until(() => image.width === 1900, () => { const all = pixels(), every = Math.round(1900 / few[0]);"
    "    done([few[0], image.width, few[2], told(), few[1].every((word, i) => word === all[Math.floor(i "
    "/ few[0]) * every * 1900 + i % few[0] * every])]); }); };"
    "drag(); go();"
)
# The texts in sight whose contrast with what is behind them is too small
CONTRAST = """
const parts = text => text.match(/[\\d.]+/g).map(Number), light = ([r, g, b]) => [r, g, b].map(v => v / 255).map(v => v <= 0.04045 ? v / 12.92 : ((v + 0.055) / 1.055) ** 2.4)
  .reduce((sum, v, i) => sum + v * [0.2126, 0.7152, 0.0722][i], 0);
const behind = e => { for (; e; e = e.parentElement) { const c = parts(getComputedStyle(e).backgroundColor); if (c.length === 3 || c[3] === 1) return c; } return [255, 255, 255]; };
const opacity = e => { let all = 1; for (; e; e = e.parentElement) all *= getComputedStyle(e).opacity; return all; };
return [...document.querySelectorAll("body *")].filter(e => e.checkVisibility() && !e.closest("#stage, .unseen, [aria-disabled=true]") && [...e.childNodes].some(n => n.nodeType === 3 && n.data.trim())).map(e => {
  const ground = behind(e), own = parts(getComputedStyle(e).color), by = opacity(e), [a, b] = [light(own.slice(0, 3).map((v, i) => v * by + ground[i] * (1 - by))), light(ground)];
  return [(Math.max(a, b) + 0.05) / (Math.min(a, b) + 0.05), e.className || e.id || e.tagName, e.innerText.slice(0, 20)];
}).filter(([ratio]) => ratio < 4.5);
"""


def events_of_calls():
    """Two groups, one in the other, that end with calls 40 and 20; the last clear comes from a call behind both."""
    mark = lambda name, event, until: {
        "kind": "marker",
        "name": name,
        "source": {"event": event, "name": "push", "until": until},
    }
    clear = lambda event, name: {
        "kind": "clear",
        "color": [event, 0, 0, 255],
        "source": {"event": event, "name": name},
    }
    events = [
        mark("frame", 10, 40),
        mark("shadows", 11, 20),
        clear(15, "glClear 50"),
        clear(20, "vkCmdDraw"),
        clear(30, "glFinish"),
        clear(50, "after it"),
    ]
    events[5]["source"] |= {
        "set_by": [[48, "glClearColor(1)"]],
        "textures": [{"id": 9, "name": "lit"}],
        "reads": [{"target": 9, "event": 20}],
    }
    return events


def rows_of(event):
    """The table of a draw's corners: two triangles of one area."""
    for k, number in enumerate(event.get("indices", range(len(event["vertices"])))):
        vertex = event["vertices"][number]
        if k % 3 == 0:
            yield f"{k // 3} clockwise: front, area 384"
        yield f"{number} {vertex['x'] // 65536} {vertex['y'] // 65536} {' '.join(map(str, vertex['color']))}"


class Answers(viewer_sums.Sums):
    # ---- Places

    def address(self):
        """What stands behind the # of the address."""
        return self.browser.run("return location.hash")

    def off(self):
        return self.browser.run(
            "return [...document.querySelectorAll('#event-list .event.off')].map(e => e.dataset.number).join()"
        )

    def asked(self):
        return self.browser.run("return [...document.querySelectorAll('#log .asked')].map(e => e.innerText)")

    def test_a_place_is_a_link(self):
        with Viewer(HOUSE) as viewer:
            self.open(viewer)
            self.at(13)
            self.comes(self.address, "#at=13")
            self.click_pixel(50, 50, 96)
            self.comes(self.address, "#at=13&pixel=50,50")
            self.browser.click(self.row(8) + " input")
            self.comes(self.address, "#at=13&pixel=50,50&off=8")
            self.browser.run("location.hash = '#at=11&pixel=5,5&off=10,12'")
            self.at(11)
            self.reads("#place", "5 5")
            self.comes(self.off, "10,12")
            self.assertEqual([line for line in self.asked() if line[0] == "o"], ["off 8", "on 8", "off 10", "off 12"])
            self.browser.run("location.hash = '#at=99&pixel=96,5'")
            self.at(13)
            self.comes(self.off, "")
            self.reads("#place", "5 5")  # there is no pixel 96 5
            for text in ("#pixel=1,1", "#at=x", "#at=-3"):
                self.browser.run("location.hash = arguments[0]", text)
            self.browser.press("Escape", "Left")
            self.comes(self.address, "#at=12&pixel=5,5")  # those were no places

    def test_a_place_outlasts_a_reload(self):
        """And what was told of since then is a session that leads there."""
        with Viewer(HOUSE) as viewer:
            self.open(viewer)
            self.at(13)
            self.browser.run("location.hash = '#at=11&pixel=50,50&off=8'")
            self.reads("#value", "190 60 50 128")
            self.comes(self.address, "#at=11&pixel=50,50&off=8")
            self.browser.call("/refresh", {})
            self.at(11)
            self.reads("#value", "190 60 50 128")
            self.comes(self.off, "8")
            self.reads("#place", "50 50")
            session = self.asked()
            self.assertEqual(
                replies(HOUSE, [*session, "pixel 50 50", "events"])[-15:-13], ["pixel 190 60 50 128", "events 13 at 11"]
            )

    # ---- Runs beside

    def test_a_pixel_is_picked_anywhere(self):
        """The whole frame's history, and the run that the page moves isn't moved for it."""
        with Viewer(HOUSE) as viewer:
            self.open(viewer)
            self.at(13)
            self.browser.press("Escape", "Home")
            self.at(0)
            before = viewer.session.lines
            for x, y, entries in ((50, 50, 4), (5, 5, 2)):
                self.click_pixel(x, y, 96)
                self.reads("#place", f"{x} {y}")
                self.comes(lambda: len(self.history()), entries)
            self.assertEqual(viewer.session.lines - before, 4)  # the way here and the pixel, twice
            self.browser.click(self.row(3) + " input")
            self.comes(lambda: len(self.history()), 1)
            told = self.browser.run(
                "return [...document.querySelectorAll('#log .told')].map(e => [...e.children].map(c => c.innerText))"
            )
            own = [line for line in replies(HOUSE, [asked for asked, *_ in told]) if not line[0].isdigit()]
            self.assertEqual([reply for _, reply, *_ in told], own)  # what the page tells of is a session of framedbg

    # ---- Moves

    def test_each_step_shows_the_image(self):
        """Forward and back, by rows that changed, in each look: what stands in the canvas is the image."""
        few = 96 * 64 * 4
        with Viewer(HOUSE) as viewer:
            self.open(viewer)
            self.at(13)
            whole = {
                position: asked(PROGRAM, HOUSE, [f"goto {position}", "show"]).stdout[-few:] for position in range(14)
            }
            opaque = lambda data: [255 if i % 4 == 3 else v for i, v in enumerate(data)]
            pixels = "return [...document.getElementById('image').getContext('2d').getImageData(0, 0, 96, 64).data]"
            shows = lambda position: self.browser.run(pixels) == opaque(
                whole[position]
            )  # how they differ would take minutes to tell
            self.browser.press("Escape")
            for key, position in (
                ("Left", 12),
                ("Left", 11),
                ("Left", 10),
                ("Right", 11),
                ("Right", 12),
                ("Home", 0),
                ("Right", 1),
                ("Right", 2),
                ("Right", 3),
                ("End", 13),
                ("Left", 12),
            ):
                self.browser.press(key)
                self.at(position)
                self.comes(lambda: shows(position), True)
                if position == 11:
                    self.browser.press("c")
                    self.comes(lambda: shows(11), False)
                    self.browser.press("a")
                    self.comes(lambda: shows(11), True)

    def test_no_image_holds_another(self):
        """However many were shown: those that are gone can be given back."""
        held = """const { shown } = await import(name("shown.js")), seen = new Set(), todo = [shown.after];
          while (todo.length) { const it = todo.pop(); if (it && typeof it === "object" && !seen.has(it) && !ArrayBuffer.isView(it)) { seen.add(it); todo.push(...Object.values(it)); } }
          return [...seen].filter(it => "columns" in it).length"""
        with Viewer(HOUSE) as viewer:
            self.open(viewer)
            self.at(13)
            self.browser.press("Escape")
            for position in (12, 11, 10, 9):
                self.browser.press("Left")
                self.at(position)
            self.assertEqual(self.within(held), 1)

    def test_rows_stay_and_are_right(self):
        """Of the list of events those rows alone are made anew that look otherwise after a move."""
        rows = (
            "return [...document.querySelectorAll('#event-list .event')].map(e => [+e.dataset.number, "
            "e.classList.contains('ahead'), e.classList.contains('hit'),"
            "e.getAttribute('aria-selected') === 'true'])"
        )
        with Viewer(HOUSE) as viewer:
            self.open(viewer)
            self.at(13)
            self.click_pixel(50, 50, 96)
            self.browser.until("return document.querySelectorAll('#history .entry').length === 4")
            self.comes(lambda: self.browser.run(rows), [[n, False, n in (2, 3, 6, 11), n == 13] for n in range(1, 14)])
            self.browser.run("document.querySelector(arguments[0]).marked = true", self.row(4))
            self.browser.press("Escape")
            for key, position in (("Left", 12), ("Left", 11), ("Right", 12), ("Home", 0), ("End", 13)):
                self.browser.press(key)
                self.at(position)
                self.comes(
                    lambda: self.browser.run(rows),
                    [[n, n > position, n in (2, 3, 6, 11), n == position] for n in range(1, 14)],
                )
                if key == "Right":
                    self.assertTrue(self.browser.run("return document.querySelector(arguments[0]).marked", self.row(4)))

    def test_entries_follow_the_position(self):
        """Which entries of the history are ahead, which is the last event's, and which one's triangle is outlined."""
        rows = (
            "return [...document.querySelectorAll('#history .entry')].map(e => [+e.dataset.event, "
            "e.classList.contains('ahead'), e.getAttribute('aria-selected') === 'true',"
            "e.classList.contains('outlined')])"
        )
        with Viewer(HOUSE) as viewer:
            self.open(viewer)
            self.at(13)
            self.click_pixel(50, 50, 96)
            expected = lambda position, outlined=None: [
                [n, n > position, n == position, n == outlined] for n in (2, 3, 6, 11)
            ]
            self.comes(lambda: self.browser.run(rows), expected(13))
            self.browser.press("Escape", "Left", "Left")
            self.comes(lambda: self.browser.run(rows), expected(11))
            self.browser.click("#history [data-event='11']")  # which moves nothing
            self.comes(lambda: self.browser.run(rows), expected(11, 11))
            self.choose_entry(6)
            self.comes(lambda: self.browser.run(rows), expected(6, 6))
            for key, position, outlined in (
                ("Right", 7, 6),
                ("End", 13, 6),
                ("Left", 12, 6),
                ("Home", 0, None),
                ("End", 13, None),
            ):
                self.browser.press("Escape", key)
                self.at(position)
                self.comes(lambda: self.browser.run(rows), expected(position, outlined))

    def test_marks_over_the_slider(self):
        """Of all events, of those that write higher ones, and the highest of those that wrote the chosen pixel."""
        seen = (
            "return [13, 8, 3].map(y => { const { width } = document.getElementById('ticks'), row = "
            "document.getElementById('ticks').getContext('2d').getImageData(0, y, width, 1).data;"
            "let count = 0; for (let i = 3; i < row.length; i += 4) count += row[i] > 0 && !(i > 3 && row[i - "
            "4] > 0); return count; })"
        )
        with Viewer(HOUSE) as viewer:
            self.open(viewer)
            self.at(13)
            writes = sum(
                event["kind"] in ("clear", "draw", "depth_clear") for event in json.loads(HOUSE.read_bytes())["events"]
            )
            self.comes(lambda: self.browser.run(seen), [13, writes, 0])
            for x, y, entries in ((50, 50, 4), (5, 5, 2), (50, 50, 4)):
                self.click_pixel(x, y, 96)
                self.comes(lambda: len(self.history()), entries)
                self.comes(lambda: self.browser.run(seen), [13, writes, entries])

    def test_a_film(self):
        """It plays from where the frame stands to its end, by each event, and a key stops it."""
        seen = (
            "new MutationObserver(() => { (window.seen ??= []).push(document.querySelector('#position "
            "b').innerText); }).observe(document.getElementById('position'), { childList: true });"
        )
        with Viewer(HOUSE) as viewer:
            self.open(viewer)
            self.at(13)
            self.browser.run(seen)
            began = time.monotonic()
            self.browser.press("Escape", "f")  # at the end: from the start
            self.comes(lambda: self.browser.run("return (window.seen ?? []).join(' ')"), " ".join(map(str, range(14))))
            each = (time.monotonic() - began) / 14
            self.comes(
                lambda: self.browser.run("return document.getElementById('play').getAttribute('aria-pressed')"), "false"
            )
            self.browser.press("Home")
            self.at(0)
            self.browser.run(ONCE)  # in the page, where no film is over before the key comes
            self.browser.press("f")
            self.browser.until("return window.pressed")
            self.assertLess(self.comes_to_rest(each), 13)

    def test_the_slider_is_dragged(self):
        """Every so many pixels of a large target come meanwhile, the very ones, which the page says; and all of them
        once the hand rests."""
        corners = lambda left, top, colour, by=20: vertices(
            (left, top, colour), (left + 70 * by, top, [255, 9, 80, 255]), (left, top + 55 * by, [7, 250, 130, 255])
        )
        events = [{"kind": "clear", "color": [20, 30, 40, 255]}] + [
            {"kind": "draw", "interp": "linear", "vertices": corners(50 * i, 40 * i, [40 * i, 90, 255 - 30 * i, 255])}
            for i in range(6)
        ]
        events += [
            {"kind": "draw", "interp": "linear", "vertices": corners(333 * i, 111 * i, [9, 200, 90, 255], 1)}
            for i in range(2)
        ]  # small ones, whose pixels alone are asked for
        with tempfile.TemporaryDirectory() as folder, Viewer(file_of(folder, capture_of(1900, 1500, events))) as viewer:
            self.open(viewer)
            self.at(9)
            for way in ([3], [1], [6, 8, 7]):
                few, all_of_it, told, rest, is_so = self.browser.run_to_end(DRAG, way)
                every = {950: "2nd", 634: "3rd", 475: "4th", 380: "5th"}[
                    few
                ]  # as wide as the window lets the picture be
                self.assertEqual((all_of_it, told), (1900, f"every {every} pixel, while the slider is dragged"))
                self.assertTrue(is_so)
                self.assertIn("changed", rest)
            self.browser.press("Escape", "c")  # no other look is shown by fewer pixels
            few, _, told, *_ = self.browser.run_to_end(DRAG, [5])
            self.assertEqual((few, "dragged" in told), (1900, False))

    def comes_to_rest(self, each):
        """The position, once it stays for longer than some of a film's events last, each so many seconds here."""
        read = lambda: int(self.text("#position b"))
        position = read()
        for _ in range(20):
            time.sleep(0.6 + 3 * each)
            if read() == position:
                return position
            position = read()
        raise AssertionError("the film plays on")

    # ---- Triangles

    def corners(self):
        """The rows of the table of corners."""
        return self.browser.run(
            "return [...document.querySelectorAll('#vertices .row')].map(e => [...e.children].map(c => "
            "c.innerText).filter(said => said).join(' '))"
        )

    def test_the_triangles_of_a_draw(self):
        """Outlined, with a table of corners; a click on one marks it."""
        with Viewer(HOUSE) as viewer:
            self.open(viewer)
            self.at(13)
            self.browser.press("t")
            self.browser.click(self.row(11) + " .what")
            self.at(11)
            self.reads("#mesh-told", "2, each of its first corner's colour")
            event = json.loads(HOUSE.read_text())["events"][10]
            self.comes(self.corners, list(rows_of(event)))
            wires = (
                "const c = document.getElementById('wires'), [x, y] = arguments; const zoom = c.width / 96; "
                "return [...c.getContext('2d').getImageData(Math.round(x * zoom), Math.round(y * zoom), 1, "
                "1).data]"
            )
            self.comes(
                lambda: self.browser.run(wires, 60, 48)[3] > 0, True
            )  # on the edge from 76 36 to 44 60, which both have
            self.assertEqual(self.browser.run(wires, 50, 40), [0, 0, 0, 0])
            self.browser.click("#vertices .row:nth-child(3)")
            left, top, width, _ = self.box("#sheet")
            x, y, wide, high = self.box("#mark")
            place = [round((x + wide / 2 - left) * 96 / width, 1), round((y + high / 2 - top) * 96 / width, 1)]
            self.assertEqual(place, [event["vertices"][1]["x"] / 65536, event["vertices"][1]["y"] / 65536])
            self.browser.press("Escape", "Left")
            self.at(10)
            self.reads("#mesh-told", "the last event is no draw")
            self.assertEqual(
                self.browser.run(
                    "return ['#wires', '#mark', '#vertices .row'].map(s => "
                    "document.querySelector(s)?.checkVisibility() ?? false)"
                ),
                [False] * 3,
            )
            self.browser.press("t")
            self.comes(lambda: self.browser.run("return document.getElementById('mesh').hidden"), True)

    def test_winding_and_area(self):
        """As the definitions have them: corners snapped to 1/256 pixel, and what is too thin has no area."""
        dice, shapes = random.Random(9), []
        place = lambda: dice.choice((dice.randrange(8 << 16), dice.randrange(8 << 9) << 7, dice.randrange(8) << 16))
        for _ in range(40):
            shapes += [(place(), place()) for _ in range(3)]
        shapes += [(0, 0), (65536 + 128, 0), (2 * 65536, 1), (0, 0), (65536, 128), (2 * 65536, 384)]
        corners = [{"x": x, "y": y, "z": 7 * i, "color": [i % 256] * 4} for i, (x, y) in enumerate(shapes)]
        indices = [*range(len(corners)), 0, 1][::-1]
        events = [
            {"kind": "raster", "cull": "back", "front_ccw": True, "scissor": False},
            {"kind": "draw", "interp": "linear", "vertices": corners, "indices": indices},
        ]
        told = []
        for places, *_ in reference.Frame(json.loads(capture_of(8, 8, events, 2))).events[1][1][0]:
            twice = reference.cross(*places)
            side = "back, culled" if twice > 0 else "front"
            area = (
                f"{abs(twice) / 2 / 65536:.2f}".rstrip("0").rstrip(".")
                if abs(twice) / 2 / 65536 >= 0.01
                else "below 0.01"
            )
            told.append(
                f"{'counter-' * (twice < 0)}clockwise: {side}, area {area}"
                if twice
                else "area zero: it covers no pixel"
            )
        with tempfile.TemporaryDirectory() as folder:
            self.shows(capture_of(8, 8, events, 2), folder)
            self.browser.press("t")
            self.reads("#mesh-told", "42, linear; 2 corners are left over")
            found = {}
            for row in range(0, 168, 4):
                self.browser.run("document.getElementById('vertices').scrollTop = 24 * arguments[0]", row)
                head = "return document.getElementById(arguments[0])?.querySelector('.what').innerText"
                found[row // 4] = self.browser.until(head, f"vertices-{row}")
            self.assertEqual([found[k] for k in range(42)], told)

    # ---- Hands

    def filtered(self, words):
        self.browser.run("const f = document.getElementById('filter'); f.value = arguments[0]; f.oninput()", words)

    def listed(self):
        return self.browser.run(
            "return [...document.querySelectorAll('#event-list .event')].map(e => e.dataset.number).join()"
        )

    def shows_writers(self, viewer):
        """House, with the pixel that four events wrote."""
        self.open(viewer)
        self.at(13)
        self.click_pixel(50, 50, 96)
        self.browser.until("return document.querySelectorAll('#history .entry').length === 4")

    def test_filter_words(self):
        with Viewer(HOUSE) as viewer:
            self.shows_writers(viewer)
            self.browser.click(self.row(3) + " input")
            self.comes(self.off, "3")
            kinds = [event["kind"] for event in json.loads(HOUSE.read_text())["events"]]
            draws = ",".join(str(i) for i, kind in enumerate(kinds, 1) if kind == "draw")
            for words, numbers, found in (
                ("off", "3", "1 found"),
                ("wrote", "2,6,11", "3 found"),
                ("wrote draw", "6,11", "2 found"),
                ("DRAW", draws, f"{draws.count(',') + 1} found"),
                ("sing", "", "nothing found"),
            ):
                self.filtered(words)
                self.comes(self.listed, numbers)
                self.reads("#found", found)

    def test_the_filter_follows_the_pixel(self):
        """Whose writers are others after a switch, and those of another pixel are others too."""
        with Viewer(HOUSE) as viewer:
            self.shows_writers(viewer)
            self.filtered("wrote")
            self.comes(self.listed, "2,3,6,11")
            self.browser.click(self.row(3) + " input")
            self.comes(self.listed, "2,6,11")
            self.reads("#found", "3 found")
            self.click_pixel(5, 5, 96)
            self.comes(self.listed, "2")

    def test_a_filter_before_the_history(self):
        """A switch's history comes late, and the word before it: then those are listed that are known, and later
        those that there are."""
        go, answer = threading.Event(), Runs.answer
        slow = lambda runs, lines, *more: (b"history 50 50" in lines and go.wait(120), answer(runs, lines, *more))[1]
        with Viewer(HOUSE) as viewer:
            self.shows_writers(viewer)
            with mock.patch.object(Runs, "answer", slow):
                self.addCleanup(go.set)
                self.browser.click(self.row(3) + " input")
                self.comes(self.off, "3")
                self.filtered("wrote")
                self.comes(self.listed, "2,3,6,11")
                go.set()
                self.comes(self.listed, "2,6,11")

    def test_off_all_on_and_undo(self):
        with Viewer(HOUSE) as viewer:
            self.open(viewer)
            self.at(13)
            self.browser.click(self.row(8) + " input")
            self.comes(self.off, "8")
            self.browser.click(self.row(10) + " input")  # a group
            self.comes(lambda: len(self.off().split(",")), 4)
            self.reads("#off-told", "4 events off")
            self.browser.click("#undo")
            self.comes(self.off, "8")
            self.reads("#off-told", "1 event off")
            self.browser.click("#all-on")
            self.comes(self.off, "")
            self.browser.press("Escape", "u")
            self.comes(self.off, "8")
            self.browser.press("u")
            self.comes(self.off, "")
            self.assertFalse(self.browser.run("return document.getElementById('off-bar').checkVisibility()"))

    def test_a_pixel_is_moved_by_keys(self):
        press = (
            "for (const key of arguments) document.body.dispatchEvent(new KeyboardEvent('keydown', { key, "
            "shiftKey: true, bubbles: true }))"
        )
        with Viewer(HOUSE) as viewer:
            self.open(viewer)
            self.at(13)
            for key, place in (
                ("ArrowRight", "48 32"),
                ("ArrowRight", "49 32"),
                ("ArrowDown", "49 33"),
                ("ArrowLeft", "48 33"),
                ("ArrowUp", "48 32"),
            ):
                self.browser.run(press, key)
                self.reads("#place", place)
            self.at(13)
            self.browser.run("location.hash = '#at=13&pixel=95,63'")
            self.reads("#place", "95 63")
            self.browser.run(
                press, "ArrowRight", "ArrowDown", "ArrowLeft", "ArrowLeft", "ArrowLeft"
            )  # faster than any reply
            self.reads("#place", "92 63")

    def test_the_line_remembers(self):
        with Viewer(HOUSE) as viewer:
            self.open(viewer)
            self.at(13)
            self.command("goto 4")
            self.command("pixel 1 1")
            self.browser.click("#command")
            for key, text in (
                ("Up", "pixel 1 1"),
                ("Up", "goto 4"),
                ("Up", "goto 4"),
                ("Down", "pixel 1 1"),
                ("Down", ""),
            ):
                self.browser.press(key)
                self.assertEqual(self.browser.run("return document.getElementById('command').value"), text)

    def test_bookmarks(self):
        with Viewer(HOUSE) as viewer:
            self.open(viewer)
            self.at(13)
            self.browser.run("location.hash = '#at=11&pixel=50,50&off=8'")
            self.reads("#value", "190 60 50 128")
            self.browser.press("Escape", "m", "Home")
            self.at(0)
            kept = "return [...document.getElementById('bookmarks').options].map(o => o.value).slice(1)"
            self.assertEqual(self.browser.run(kept), ["at=11&pixel=50,50&off=8"])
            self.browser.run(
                "const list = document.getElementById('bookmarks'); list.value = list.options[1].value; list.onchange()"
            )
            self.at(11)
            self.browser.press("m")
            self.comes(lambda: self.browser.run(kept), [])
            self.browser.run("localStorage.clear()")

    def test_columns(self):
        """The picture has half of the page and more; a column is dragged, moved by keys and folded."""
        with Viewer(HOUSE) as viewer:
            self.open(viewer)
            self.at(13)
            wide = lambda selector: round(self.box(selector)[2])
            self.assertGreaterEqual(2 * wide("#view"), self.browser.run("return innerWidth"))
            was, view = wide("#events"), wide("#view")
            self.browser.run("document.querySelector('[data-side=left]').focus()")
            self.browser.press("Left", "Left")
            self.comes(lambda: (wide("#events"), wide("#view")), (was - 40, view + 40))
            self.browser.press("Enter")
            self.comes(lambda: wide("#events"), 0)
            self.browser.press("Enter")
            self.comes(lambda: wide("#events"), was)
            self.browser.run("localStorage.clear()")

    def test_a_capture_without_events(self):
        with tempfile.TemporaryDirectory() as folder:
            self.shows(capture_of(4, 4, []), folder)
            self.reads("#notice", "This capture has no events")

    # ---- For everybody

    def test_contrast(self):
        """All texts have at least 4.5 to 1, in both themes, also of events ahead and of those that are off."""
        with Viewer(HOUSE) as viewer:
            self.open(viewer)
            self.at(13)
            self.click_pixel(50, 50, 96)
            self.browser.until("return document.querySelectorAll('#history .entry').length === 4")
            self.browser.click(self.row(8) + " input")
            self.comes(self.off, "8")
            self.choose_entry(6)
            for _ in range(2):
                self.assertEqual(self.browser.run(CONTRAST), [])
                self.browser.click("#theme")
            self.browser.run("localStorage.clear()")

    def test_who_hears_the_page(self):
        with Viewer(HOUSE) as viewer:
            self.open(viewer)
            self.at(13)
            self.click_pixel(50, 50, 96)
            self.browser.until("return document.querySelectorAll('#history .entry').length === 4")
            self.choose_entry(11)
            self.comes(
                lambda: self.browser.run("return document.getElementById('live').textContent"),
                "position 11 of 13: draw; pixel 50 50 is 125 95 55 128",
            )
            self.assertEqual(
                self.browser.run("return document.getElementById('image').getAttribute('aria-label')"),
                "The image at position 11 of 13: draw",
            )
            nameless = (
                "return [...document.querySelectorAll('button, input, select, canvas')].filter(e => "
                "!e.closest('[aria-hidden], dialog') && !e.hidden && !(e.innerText || e.ariaLabel || e.title || "
                "e.labels?.length)).map(e => e.outerHTML)"
            )
            self.assertEqual(self.browser.run(nameless), [])

    # ---- Where events come from

    def test_the_targets_of_a_frame(self):
        """As tabs, each a page of its own; and from a draw to what it reads, as it was made."""
        clear = lambda red: {"kind": "clear", "color": [red, 0, 0, 255]}
        long = 1000000000000000371
        frame = {
            "targets": [
                {"target": long, "name": "lit", "width": 4, "height": 4},
                {"target": 7, "name": "", "width": 4, "height": 4},
            ],
            "reads": [{"target": 7, "position": 1, "reads": long, "made": 9, "at": 2, "laid": "upside down"}],
        }
        with tempfile.TemporaryDirectory() as folder:
            paths = [pathlib.Path(folder) / f"target_{number}.json" for number in (3, 7)]
            for path, events in zip(paths, ([clear(1), clear(2), clear(3)], [clear(4), clear(5)])):
                path.write_text(capture_of(4, 4, events))
            with Viewer(paths[0]) as lit, Viewer(paths[1]) as shown:
                joined({long: lit.server, 7: shown.server}, frame)
                self.open(shown)
                self.at(2)
                self.reads("#targets", "lit 7")
                self.reads("#targets .own", "7")
                self.assertEqual(self.browser.run("return document.querySelectorAll('#origin .way').length"), 0)
                self.browser.click(self.row(1) + " .what")
                self.reads("#origin", f"to target {long}, as this draw reads it")
                self.click_pixel(1, 0, 4)
                self.reads("#place", "1 0")
                self.browser.click("#origin .way")
                self.at(2)
                self.reads("#capture", "target_3.json")
                self.reads("#place", "1 3")
                lit.leave = self.leave
                self.reads("#targets .own", "lit")
                self.browser.click("#targets .tab:not(.own)")
                self.reads("#capture", "target_7.json")
                self.assertEqual(shown.request(method="GET", path="/frame", X_Token=None)[0], 403)
                self.leave()

    def test_the_program_s_calls(self):
        """Beside the events, known to the filter, and a captured group is folded as such."""
        with tempfile.TemporaryDirectory() as folder:
            self.shows(capture_of(4, 4, events_of_calls()), folder)
            self.reads(self.row(4) + " .source", "20 vkCmdDraw")
            self.reads(
                "#origin",
                "call 50 after it set by 48 glClearColor(1) reads texture 9 lit, made by target 9, at event 20",
            )
            self.browser.click(self.row(2) + " .fold")
            self.comes(self.listed, "1,2,5,6")
            self.browser.click(self.row(2) + " .fold")
            self.browser.click(self.row(1) + " .fold")
            self.comes(self.listed, "1,6")
            self.browser.click(self.row(1) + " input")
            self.comes(self.off, "")
            self.reads("#off-told", "3 events off")
            for words, numbers in (("vkcmd", "4"), ("30", "5"), ("shadows gl", "3")):
                self.filtered(words)
                self.comes(self.listed, numbers)
            leading = (
                ("20", "Enter", 4),
                ("50", "Enter", 6),
                ("after", "Enter", 6),
                ("10", "Enter", 1),
                ("gl", "Enter", 3),
                ("20", "0", 3),
            )
            for place, (words, key, number) in enumerate(leading):
                self.browser.run(
                    "const f = document.getElementById('filter'); f.value = arguments[0]; f.oninput(); "
                    "f.onkeydown({key: arguments[1]})",
                    words,
                    key,
                )
                self.command(f"pixel {place % 4} {place // 4}")  # it waits behind whatever the key led to
                self.at(number)


@unittest.skipUnless(browser.is_installed(), "Chromium and chromedriver aren't installed")
class AnswersInChromium(Answers):
    pass


@unittest.skipUnless(browser.Firefox.installed(), "Firefox isn't installed")
class AnswersInFirefox(Answers):
    kind = browser.Firefox
    test_the_sum_is_the_definitions = (
        test_a_sum_that_differs_is_marked
    ) = test_no_image_holds_another = None  # its driver imports none of the page's scripts


del Answers  # it is tried in browsers alone
