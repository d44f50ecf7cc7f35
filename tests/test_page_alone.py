"""The page alone, opened from the disk: its answers beside those of the program, and the viewer's own tests of the
page over it."""
import base64
import json
import pathlib
import random
import time
import unittest
from unittest import mock

import folders

import browser
import test_viewer_page
from viewer_testing import DEPTH, EXAMPLES, PROGRAM, capture_of, image, png
from debugger.aligning import aligned
from viewer import image as viewer_image
from viewer.beside import Beside
from viewer.session import Session
from page import packing, runs
from page_testing import CHAIN, FOLDER, HELD_AT, HOUSE, PACKED, PAGE, Opened, exchanged, linked
from page_testing import setUpModule  # noqa: F401

SEED, RUNS = 1, 60
SMALL = 64 << 20  # bytes of memory, for a page that wants more
# Calls of the page's own run, with a window of the images: what each is answered with
ASKED = """
const { ask } = await import("run.js"), told = [];
const letters = bytes => { let text = ""; for (const byte of bytes) text += String.fromCharCode(byte); return btoa(text); };
for (const [lines, window] of given[0]) {
  const own = ({ delta, number, ...image }) => ({ ...image, bytes: letters(image.bytes) });       // without what it is made of
  told.push((await ask(lines, window)).map(({ image, ...more }) => image ? { ...more, image: own(image) } : more));
}
return told;
"""
# What another capture beside the one that is shown is told by, or why it is refused; and what its run answers where
# events of the first are off
BESIDE = """
const { ask, putBeside, wherePicturesDiffer } = await import("run.js"), [name, letters] = given;
const bytes = Uint8Array.from(atob(letters), letter => letter.charCodeAt(0));
try {
  const told = await putBeside(new File([bytes], name)), pictures = await wherePicturesDiffer();
  await ask(["off 1"]);
  const [{ lines }] = await ask(["events"], null, "other");
  return [told, pictures, lines.every(line => /^\\d+ on /.test(line))];
} catch (fault) {
  return String(fault.message);
}
"""
SAVED = """
const made = new Promise(resolve => { URL.createObjectURL = blob => { resolve(blob); return "data:,"; }; });
HTMLAnchorElement.prototype.click = function () { window.savedAs = this.download; };
document.getElementById("save-page").click();
return [await (await made).text(), window.savedAs];
"""
HELD = '    if (said.decode(lines[0]).includes("goto 13")) for (;;);\n' + HELD_AT
WITHOUT = "delete WebAssembly.Suspending; WebAssembly.validate = () => false;"


class Alone(Opened):
    """What is tried in each browser."""

    def test_sessions(self):
        self.plain()
        pairs = [line.split() for line in (EXAMPLES / "sessions.txt").read_text().splitlines()]
        asked = [
            runs.Run(
                ["run", "CAPTURE"],
                (EXAMPLES / f"{capture}.json").read_bytes(),
                [(EXAMPLES / f"{session}.session").read_bytes()],
                1 << 20,
            )
            for session, capture in pairs
        ]
        for (session, _), (out, *_) in zip(pairs, runs.in_page(self.browser, asked)):
            self.assertEqual(out, (EXAMPLES / f"{session}.expected").read_bytes(), session)

    def test_runs_by_chance(self):
        self.plain()
        self.assertEqual(list(runs.compare(self.browser, list(runs.runs(random.Random(SEED), RUNS)))), [])

    def test_more_workers_than_threads(self):
        """No thread can be had here, and the work of all is done."""
        self.plain()
        capture, session = (EXAMPLES / "crowd.json").read_bytes(), (EXAMPLES / "crowd.session").read_bytes()
        asked = [
            runs.Run([word, "--workers", str(count), "CAPTURE"], capture, [session], 1 << 20)
            for word in ("run", "image")
            for count in (1, 2, 4, 64)
        ]
        self.assertEqual(list(runs.compare(self.browser, asked)), [])

    def test_large_blocks_of_memory(self):
        """A capture whose lists grow by doubling, and an image of as many bytes."""
        self.plain()
        dice = random.Random(SEED)
        corners = [
            {
                "x": dice.randrange(1 << 25),
                "y": dice.randrange(1 << 25),
                "z": 5,
                "color": [9, 9, dice.randrange(256), 99],
            }
            for _ in range(300)
        ]
        many = {"kind": "draw", "interp": "flat", "vertices": corners, "indices": [at % 300 for at in range(5000)]}
        events = (
            [runs.event(dice, 600, 500, 2) for _ in range(20)]
            + [{"kind": "marker", "name": str(at)} for at in range(5000)]
            + [many]
        )
        capture, session = (
            capture_of(600, 500, events, 2).encode(),
            b"goto 20\nshow\nhistory 60 50\ngoto 5021\nevents\npixel 20 20\ngoto 10\nshow\n",
        )
        self.assertEqual(
            list(runs.compare(self.browser, [runs.Run(["run", "CAPTURE"], capture, [session], 1 << 20)])), []
        )

    def test_answers_as_the_server_does(self):
        """Replies, lists and parts of images are those of the viewer's server."""
        dice = random.Random(SEED)
        calls = [
            (
                [
                    f"goto {dice.randrange(15)}",
                    "show",
                    "state",
                    "events",
                    "sing",
                    f"history {dice.randrange(99)} 50",
                    "show",
                ],
                dice.choice(
                    [None, sorted(dice.randrange(70) for _ in range(4)), [dice.randrange(200) for _ in range(4)]]
                ),
            )
            for _ in range(40)
        ]
        session = Session(PROGRAM, str(HOUSE), 1)
        try:
            for most in (1 << 22, 1000, 7):
                with mock.patch.object(self, "page", exchanged("part.js", "1 << 22", str(most))), mock.patch.object(
                    viewer_image, "MOST_PIXELS", most
                ):
                    self.show(HOUSE)
                    found = self.browser.within(ASKED, calls)
                    self.assertEqual(found, [self.answered(session, *call) for call in calls])
        finally:
            session.close()

    def answered(self, session, lines, window):
        replies, images, _ = session.answer([line.encode() for line in lines], window)
        images = iter(images)
        return [
            {**reply, "image": {**reply["image"], "bytes": base64.b64encode(next(images)).decode()}}
            if "image" in reply
            else reply
            for reply in replies
        ]

    def test_another_capture(self):
        """Captures are dropped one after another, and nothing of one is left in the next."""
        self.show(HOUSE)
        self.at(13)
        self.browser.run("window.loaded = 'once'")
        self.click_pixel(50, 50, 96)
        self.browser.until("return document.querySelectorAll('#history .entry').length === 4")
        self.choose_entry(11)
        self.browser.press("Escape", "p")
        self.reads("#difference", "no pixel differs")
        self.drop("depth.json", DEPTH.encode())
        self.at(6)
        self.reads("#capture", "depth.json")
        self.reads("#size", "8 × 8")
        self.assertEqual(self.browser.run("return [document.title, window.loaded]"), ["depth.json – framedbg", "once"])
        self.assertEqual(
            self.browser.run(
                "return ['#history', '#cross', '#comparison'].map(s => document.querySelector(s).checkVisibility())"
            ),
            [False] * 3,
        )
        self.assertEqual(
            self.browser.run("return document.querySelector('#outline polygon').getAttribute('points') || ''"), ""
        )
        self.assertEqual(
            self.browser.run("return [...document.querySelectorAll('#log .asked')].map(e => e.innerText)"), ["goto 6"]
        )
        self.assertEqual(self.drawn(1, 1), [255, 0, 0, 255])
        self.click_pixel(1, 1, 8)
        self.reads("#depth-here", "depth 3000")
        self.drop("house.json", HOUSE.read_bytes(), "header")
        self.at(13)
        self.assertEqual(self.drawn(50, 50), [125, 95, 55, 255])

    def test_another_capture_is_filtered(self):
        """By the groups of its own."""
        clear = {"kind": "clear", "color": [1, 2, 3, 4]}
        self.show(HOUSE)
        self.at(13)
        self.browser.run("const f = document.getElementById('filter'); f.value = 'stars'; f.oninput()")
        self.reads("#found", "nothing found")
        self.drop(
            "stars.json", capture_of(4, 4, [clear, clear, {"kind": "marker", "name": "stars"}, clear, clear]).encode()
        )
        self.at(5)
        self.comes(
            lambda: self.browser.run(
                "return [...document.querySelectorAll('#event-list .event')].map(e => e.dataset.number).join()"
            ),
            "3,4,5",
        )

    def test_another_triangle(self):
        """The outline is that of the capture that is shown."""
        self.show(HOUSE)
        self.at(13)
        self.assertEqual(
            self.browser.within("return (await import('run.js')).triangle(11, 0)"), [[44, 36], [76, 36], [44, 60]]
        )
        self.assertEqual(
            self.browser.within(
                "const { triangle } = await import('run.js'); return [await triangle(11, 2), await triangle(10, "
                "0), await triangle(14, 0)]"
            ),
            [None] * 3,
        )
        self.drop("indexed.json", (EXAMPLES / "indexed.json").read_bytes())
        self.reads("#capture", "indexed.json")
        capture = json.loads((EXAMPLES / "indexed.json").read_text())
        number, event = next((number, event) for number, event in enumerate(capture["events"], 1) if "indices" in event)
        corners = [event["vertices"][at] for at in event["indices"][3:6] or event["indices"][:3]]
        found = self.browser.within(
            "return (await import('run.js')).triangle(...given)", number, int(len(event["indices"]) >= 6)
        )
        self.assertEqual(found, [[corner["x"] / 65536, corner["y"] / 65536] for corner in corners])

    def test_depths_of_version_1(self):
        """They are passed over, whatever they are."""
        corners = [{"x": x << 16, "y": y << 16, "z": "deep", "color": [9] * 4} for x, y in ((0, 0), (4, 0), (0, 4))]
        self.show(HOUSE)
        self.at(13)
        self.drop("deep.json", capture_of(4, 4, [{"kind": "draw", "interp": "flat", "vertices": corners}], 1).encode())
        self.reads("#capture", "deep.json")
        told = self.browser.within("return (await import('run.js')).draw(1)")
        self.assertEqual([vertex[2] for vertex in told["vertices"]], [None] * 3)

    def test_another_capture_while_it_answers(self):
        self.show(HOUSE)
        self.at(13)
        asking = (
            "const asking = async () => { for (;;) await ask(Array(99).fill(['goto 13', 'show', 'goto 0']).flat()); };"
        )
        self.browser.within(
            f"const {{ ask }} = await import('run.js'); {asking} asking().catch(fault => {{ "
            f"document.body.dataset.refused = fault.message; }});"
        )
        self.drop("depth.json", DEPTH.encode())
        self.at(6)
        self.reads("#capture", "depth.json")
        self.assertEqual(self.browser.until("return document.body.dataset.refused"), "depth.json is shown now")

    def test_two_captures(self):
        """What differs, and where the pictures do, is told as the viewer's server tells it; what is off is off in
        the first alone."""
        moved = json.loads(HOUSE.read_text())
        moved["events"].insert(8, moved["events"].pop(10))
        moved["events"][0]["name"] = "another"
        plain = pathlib.Path(FOLDER.name) / "moved.json"
        plain.write_text(json.dumps(moved))
        for one, other in (
            (HOUSE, plain),
            (CHAIN, CHAIN.with_stem("chain_mended")),
            (EXAMPLES / "indexed.json", EXAMPLES / "row01.json"),
        ):
            self.show(one)
            told = self.browser.within(BESIDE, other.name, base64.b64encode(other.read_bytes()).decode())
            beside = Beside((PROGRAM, str(one), None), str(other))
            try:
                self.assertEqual(told[:2], [json.loads(json.dumps(beside.differs())), beside.pictures()], other.name)
            finally:
                beside.close()
            self.assertTrue(told[2], other.name)
        text = capture_of(1, 1, [{"kind": "clear", "color": [1, 2, 3]}])
        refused = self.browser.within(BESIDE, "bad.json", base64.b64encode(text.encode()).decode())
        self.assertIn("event 1 (clear), color: an array of 4 is wanted", refused)

    def test_pairs_by_chance(self):
        """Lists of few letters and of many, some of them shuffled, are paired as in Python."""
        self.plain()
        dice, lists = random.Random(SEED), []
        for _ in range(200):
            letters, one = dice.choice((2, 4, 9, 200)), []
            one = [str(dice.randrange(letters)) for _ in range(dice.randrange(dice.choice((3, 30, 90))))]
            other = [letter for letter in one if dice.random() < 0.9] + [
                str(dice.randrange(letters)) for _ in range(dice.randrange(3))
            ]
            if dice.random() < 0.3:
                dice.shuffle(other)
            lists.append((one, other, [[letter[-1] for letter in some] for some in (one, other)]))
        found = self.browser.within(
            "const { aligned } = await import('aligned.js'); return given[0].map(lists => aligned(...lists));", lists
        )
        self.assertEqual(found, [[list(step) for step in aligned(*some)] for some in lists])

    def test_a_dropped_picture(self):
        """It is compared with, as in the viewer, and is no capture."""
        self.show(HOUSE)
        self.at(13)
        samples, _ = image(HOUSE)
        samples[4 * (50 * 96 + 60)] += 40
        self.drop("driver.png", png(samples, 96, 64))
        self.reads("#compared-with", "driver.png")
        self.reads("#difference", "1 px differ by ≤ 40, 60 50 to 60 50")

    def test_a_refused_capture(self):
        """The page says why over the frame that was there, which stays and goes on; then it takes the next one."""
        self.show(HOUSE)
        self.at(13)
        self.switch(8, False)
        self.drop("README.md", b"# no capture")
        self.reads(
            "#refusal p",
            "README.md: refused, 2 not json line 1, column 1: a value is wanted here house.json is shown as before.",
        )
        self.assertLessEqual(sum(self.box("#refusal")[1::2]), self.box("#stage")[1])
        self.assertEqual(
            self.browser.run(
                "return [document.querySelectorAll('#event-list .event').length, ...['#capture', '#size'].map(s "
                "=> document.querySelector(s).innerText)]"
            ),
            [13, "house.json", "96 × 64"],
        )
        self.assertEqual(self.drawn(50, 50), [190, 60, 50, 255])
        self.browser.press("Escape", "Left")
        self.at(12)
        self.assertEqual(self.browser.run("return document.querySelectorAll('#event-list .event.off').length"), 1)
        self.drop("depth.json", DEPTH.encode())
        self.at(6)
        self.assertFalse(self.browser.run("return document.querySelector('#refusal').checkVisibility()"))

    def test_a_refused_capture_is_explained(self):
        """Member and place are named, in the first choice too, which stays until there is a capture to show."""
        self.plain()
        text = (
            '{"format":"framedbg","version":1,"width":4,"height":4,\n"events":[{"kind":"clear","color":[1,2,3,4]'
            '},\n  {"kind":"clear","color":[1,2,300,4]}]}'
        )
        why = "line 3, column 32: event 2 (clear), color 2: a whole number from 0 to 255 is wanted, not 300"
        wrong = pathlib.Path(FOLDER.name) / "wrong.json"
        wrong.write_text(text)
        self.browser.choose("#capture-file", wrong)
        self.reads("#choice #refusal p", f"wrong.json: refused, 8 bad field 2 {why}")
        self.browser.click("#own-capture")
        self.at(13)
        self.assertFalse(self.browser.run("return document.getElementById('choice').open"))
        for text, why in (
            (
                '{"events":[], "format":"framedbg","version":1,"width":4,"height":4,"x":[{"events":[9]}],"events'
                '":[{"kind":"marker","name":"],\\"{"},{"kind":"claer"}]}',
                '7 unknown event 2 line 1, column 140: event 2, kind: there is no kind "claer" (did you mean clear?)',
            ),
            (
                '{"format":"framedbg","version":4,"width":4,"height":4,"events":[]}',
                "4 version line 1, column 32: version: 1, 2 or 3 is wanted, not 4",
            ),
        ):
            self.drop("wrong.json", text.encode())
            self.reads("#refusal p", f"wrong.json: refused, {why} house.json is shown as before.")
        self.browser.click("#refusal button")
        self.assertTrue(self.browser.run("return document.getElementById('refusal').hidden"))

    def test_a_file_of_another_kind(self):
        """A frame of RenderDoc, a trace of apitrace, a picture where a capture is wanted: what to do with each."""
        self.plain()
        samples, _ = image(HOUSE)
        driver = pathlib.Path(FOLDER.name) / "driver.png"
        driver.write_bytes(png(samples, 96, 64))
        self.browser.choose("#capture-file", driver)
        self.reads(
            "#choice #refusal p",
            "driver.png is a picture, and no capture. Open a capture first; then drop the picture on its frame, "
            "to see what differs.",
        )
        self.browser.click("#own-capture")
        self.at(13)
        self.browser.choose("#capture-file", driver)
        self.reads(
            "#refusal p",
            "driver.png is a picture, and no capture. Drop it on the frame, or open it at Compared, to see what "
            "differs. house.json is shown as before.",
        )
        for name, data, advice in (
            (
                "town.rdc",
                b"RDOC\0",
                "a frame that RenderDoc took. Turn it into a capture at a terminal, and open that: "
                "renderdoc_to_capture town.rdc > town.json",
            ),
            (
                "game.trace",
                b"at",
                "a trace of apitrace. Turn it into a capture at a terminal, and open that: apitrace_to_capture "
                "game.trace > game.json",
            ),
        ):
            self.drop(name, data)
            self.reads("#refusal p", f"{name} is {advice} house.json is shown as before.")

    def test_the_sample(self):
        self.plain()
        self.browser.until("return document.getElementById('choice').open")
        self.browser.click("#own-capture")
        self.at(13)
        self.reads("#capture", "house.json")

    def test_the_hunts(self):
        """The start has the ten of them with their pictures; one is opened by a click."""
        self.plain()
        names = sorted(file.stem for file in (EXAMPLES / "hunts").glob("*.json") if not file.stem.endswith("_mended"))
        self.assertEqual(
            self.browser.until("return [...document.querySelectorAll('#hunts button')].map(b => b.innerText.trim())"),
            names,
        )
        self.assertEqual(len(names), 10)
        pixels = (
            "return [...document.querySelectorAll('#hunts canvas')].map(c => "
            "[...c.getContext('2d').getImageData(60, 60, 1, 1).data])"
        )
        own = [[*image(EXAMPLES / f"hunts/{name}.json")[0][4 * (60 * 120 + 60) :][:3], 255] for name in names]
        self.comes(lambda: self.browser.run(pixels), own, 60)
        self.browser.click(f"#hunts button:nth-child({names.index('chain') + 1})")
        self.at(9)
        self.reads("#capture", "chain.json")

    def test_the_hunts_again(self):
        """Open.. leads to them while a frame is shown, which stays where nothing is chosen."""
        self.show(HOUSE)
        self.at(13)
        self.browser.click("#open-capture")
        self.browser.until("return document.getElementById('choice').open")
        self.browser.click("#choice-guide")
        self.browser.until("return document.getElementById('guide').open")
        self.browser.press("Escape")
        self.browser.until("return !document.getElementById('guide').open")
        self.browser.press("Escape")
        self.browser.until("return !document.getElementById('choice').open")
        self.reads("#capture", "house.json")
        self.browser.click("#open-capture")
        chain = "[...document.querySelectorAll('#hunts button')].find(b => b.innerText.trim() === 'chain')"
        self.browser.until(
            f"return {chain}?.querySelector('canvas').getContext('2d').getImageData(60, 60, 1, 1).data[3] === 255"
        )  # drawn, though the choice was closed meanwhile
        self.browser.run(f"{chain}.click()")
        self.reads("#capture", "chain.json")
        self.at(9)
        self.assertFalse(self.browser.run("return document.getElementById('choice').open"))

    def test_it_is_loaded_again(self):
        """With the frame that was shown, at its place; opened anew it asks."""
        self.show(CHAIN)
        self.at(9)
        self.browser.click(self.row(8) + " .what")
        self.at(8)
        self.browser.until("return location.hash === '#at=8' && Object.keys(sessionStorage).length > 0")
        self.browser.call("/refresh", {})
        self.browser.until("return document.querySelector('#position b') !== null")
        self.at(8)
        self.reads("#capture", "chain.json")
        self.plain()
        self.assertTrue(self.browser.run("return document.getElementById('choice').open"))

    def test_it_ends_and_starts_again(self):
        self.show(HOUSE)
        self.at(13)
        self.browser.click(self.row(8) + " input")
        self.browser.until(f"return document.querySelector(\"{self.row(8)}\").classList.contains('off')")
        self.browser.click("#command")
        self.browser.press(*"quit", "Enter")
        self.reads("#log .told:last-child .reply", "bye")
        self.browser.press("Escape", "Left")
        self.browser.until(
            "return document.getElementById('notice').innerText.includes('framedbg has ended (status 0)')"
        )
        self.browser.click("#notice button")
        self.browser.until("return document.getElementById('notice').hidden")
        self.browser.press("Home")
        self.at(0)
        self.browser.press("End")
        self.at(13)
        self.assertEqual(self.drawn(50, 50), [190, 60, 50, 255])  # event 8 is off as it was

    def test_a_move_without_end_is_stopped(self):
        """A run that never comes to the end of the frame is ended, and another has the same events off."""
        with mock.patch.object(self, "page", exchanged("program.js", HELD_AT, HELD)):
            self.show(HOUSE)
            self.stopped_at_the_start()
            self.browser.click(self.row(8) + " input")
            self.browser.until(f"return document.querySelector(\"{self.row(8)}\").classList.contains('off')")
            self.browser.press("Escape", "End")
            self.stopped_at_the_start()
            self.browser.click(self.row(12) + " .what")
            self.at(12)
            self.comes(lambda: self.drawn(50, 50), [190, 60, 50, 255])  # event 8 is off as it was
            self.assertEqual(self.browser.run("return document.querySelectorAll('#event-list .event.off').length"), 1)
            self.drop("chain.json", CHAIN.read_bytes())
            self.at(9)
            self.assertEqual(self.browser.run("return document.querySelectorAll('#event-list .event.off').length"), 0)
            told = self.browser.within(
                "const { ask, stop } = await import('run.js'); await stop(); return JSON.stringify(await "
                "ask(['events']))"
            )
            self.assertIn("9 on ", told)
            self.assertNotIn("8 off ", told)  # the run that begins after a stop has all events of the other capture on

    def stopped_at_the_start(self):
        self.stop()
        self.stopped_at(0)

    def test_a_capture_inside(self):
        """A page with a capture shows it at once; saved with another, it shows that one."""
        with mock.patch.object(self, "page", PACKED):
            self.show(None)
            self.at(13)
            self.reads("#capture", "house.json")
        self.show(HOUSE)
        self.at(13)
        self.drop("the chain's <1> & \"2\".json", CHAIN.read_bytes())
        self.at(9)
        text, name = self.browser.within(SAVED)
        self.assertEqual(name, "framedbg_the chain's <1> & \"2\".html")
        saved = PAGE.with_stem("saved")
        saved.write_text(text)
        self.browser.open(saved.as_uri())
        self.at(9)
        self.reads("#capture", "the chain's <1> & \"2\".json")
        self.comes(
            lambda: self.browser.run("return document.querySelectorAll('#event-list .event').length"), 9
        )  # and not those of another capture, at the same place
        again, _ = self.browser.within(SAVED)
        self.assertEqual(again, text)

    def test_nothing_is_sent(self):
        self.plain()
        self.browser.within(
            "addEventListener('securitypolicyviolation', fault => { window.refused = fault.effectiveDirective; "
            "}); fetch('http://127.0.0.1:9/').catch(() => {});"
        )
        self.assertEqual(
            self.browser.within(
                "while (!window.refused) await new Promise(resolve => setTimeout(resolve, 10)); return window.refused"
            ),
            "connect-src",
        )

    def test_without_memory(self):
        """Where memory is wanted the session stays where it stands, and goes on."""
        page = PAGE.with_stem("small")
        page.write_text(packing.page(linked(most_memory=SMALL), HOUSE))
        self.plain(page)
        colours = (
            [255, 0, 9, 99],
            [0, 255, 200, 0],
            [40, 90, 0, 255],
        )  # a span of one colour takes no memory: these change every few pixels
        corners = [
            {"x": x << 16, "y": y << 16, "color": colour}
            for (x, y), colour in zip(((0, 0), (2048, 0), (0, 2048)), colours)
        ]
        capture, steps = (
            capture_of(1024, 1024, [{"kind": "draw", "interp": "linear", "vertices": corners}] * 24).encode(),
            24,
        )
        # a step back leaves memory for a history, of which there may be none before
        then = b"pixel 3 3\nback\nhistory 3 3\nstep\ngoto 0\nstep\nquit\n"
        ((out, errors, ending),) = runs.in_page(
            self.browser, [runs.Run(["run", "CAPTURE"], capture, [b"step\n" * steps + then], 1 << 20)]
        )
        stands = out.count(b"\n", 0, out.index(b"stopped"))
        self.assertGreater(stands, 0)
        told = [b"at %d\n" % at for at in range(1, stands + 1)] + [b"stopped %d\n" % stands] * (steps - stands)
        replies = runs.by_program(runs.Run(["run", "CAPTURE"], capture, [b"goto %d\n%s" % (stands, then)], 1))[
            0
        ].partition(b"\n")[2]
        self.assertEqual((out, errors, ending), (b"".join(told) + replies, "", "status 0"))


@unittest.skipUnless(browser.is_installed(), "Chromium and chromedriver aren't installed")
class InChromium(Alone, test_viewer_page.Page):
    # Of the server alone
    test_two_pages_at_once = (
        test_the_file_for_the_browser_leads_to_the_page
    ) = test_without_the_token = test_stopped_and_ended = None
    test_a_long_move_is_stopped = test_a_long_history_is_stopped = test_a_look_that_waits_outlasts_a_stop = None

    def test_nothing_is_sent(self):
        super().test_nothing_is_sent()
        end = time.time() + 10
        while not self.browser.complaints() and time.time() < end:  # the one that is wanted here comes when it comes
            time.sleep(0.02)

    def test_dark_and_light(self):
        with mock.patch.object(self, "page", PACKED):
            super().test_dark_and_light()

    def test_a_target_that_is_too_large_at_once(self):
        with mock.patch.object(self, "page", exchanged("part.js", "1 << 22", "1000")):
            super().test_a_target_that_is_too_large_at_once()

    def test_a_browser_that_lacks_something(self):
        added = self.browser.call(
            "/goog/cdp/execute", {"cmd": "Page.addScriptToEvaluateOnNewDocument", "params": {"source": WITHOUT}}
        )
        try:
            self.browser.open(self.page.as_uri())
            self.reads(
                "body",
                "This browser can't run framedbg: its WebAssembly lacks 64-bit memory and JavaScript promise "
                "integration. "
                "Chromium 156 and Firefox 153 have both, and tools/view needs neither.",
            )
        finally:
            self.browser.call("/goog/cdp/execute", {"cmd": "Page.removeScriptToEvaluateOnNewDocument", "params": added})


@unittest.skipUnless(browser.is_installed() and browser.Firefox.installed(), "Firefox isn't installed")
class InFirefox(Alone, test_viewer_page.Page):
    @classmethod
    def setUpClass(cls):
        cls.browser = browser.Firefox()


# Of the viewer's tests, those that are tried in Firefox too
for test in [name for name in dir(test_viewer_page.Page) if name.startswith("test_")]:
    if test not in ("test_who_painted_the_house_wrong", "test_events_off_and_on", "test_depths"):
        setattr(InFirefox, test, None)


if __name__ == "__main__":
    unittest.main()
