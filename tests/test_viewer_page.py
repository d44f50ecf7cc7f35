"""The viewer's page in a real browser: Chromium by chromedriver, where both are installed. What answers a question
is in test_viewer_answers.py."""
import pathlib
import random
import tempfile
import unittest
from unittest import mock

import folders

import browser
from viewer_hands import Hands
from viewer_testing import DEPTH, EXAMPLES, HOLDING, STOPPING, WINDOW, Viewer, image, png, program_of, replies
from viewer import image as viewer_image
from viewer.handover import Handover

HOUSE = EXAMPLES / "house.json"
NO_PICTURES = {  # files that are none, and what the page says of them
    "a town.rdc": "a town.rdc is a frame that RenderDoc took. Turn it into a capture at a terminal, and open that: "
    "renderdoc_to_capture './a town.rdc' > './a town.json' Close",
    "game.trace": "game.trace is a trace of apitrace. Turn it into a capture at a terminal, and open that: "
    "apitrace_to_capture game.trace > game.json Close",
    "README.md": "README.md is no PNG, PAM or PPM",
}


@unittest.skipUnless(browser.is_installed(), "Chromium and chromedriver aren't installed")
class Page(Hands):
    def test_who_painted_the_house_wrong(self):
        with Viewer(HOUSE) as viewer:
            self.open(viewer)
            self.at(13)
            self.assertEqual(self.browser.run("return document.querySelectorAll('#event-list .event').length"), 13)
            self.reads(self.row(11), "11 draw 2 triangles")
            self.comes(lambda: self.drawn(50, 50), [125, 95, 55, 255])
            self.click_pixel(50, 50, 96)
            self.reads("#place", "50 50")
            self.reads("#value", "125 95 55 128")
            self.browser.until("return document.querySelectorAll('#history .entry').length === 4")
            expected = [
                line for line in (EXAMPLES / "house_find.expected").read_text().splitlines() if " drawn " in line
            ]
            self.comes(self.history, [line.replace(" - ", " – ") for line in expected])
            self.choose_entry(11)
            self.browser.until(
                "return document.querySelector('#outline polygon').getAttribute('points') === '44,36 76,36 44,60'"
            )
            self.comes(lambda: self.state()["blend"], "on")
            self.comes(lambda: self.state()["colour"], "src × src.a + dst × 1−src.a")
            self.browser.press("Escape", "Left")
            self.at(10)
            self.reads("#value", "60 130 60 255")
            self.browser.click("[data-state='next']")
            self.comes(lambda: self.state()["blend"], "on")
            self.browser.press("Left", "Left")
            self.at(8)
            self.reads("#state-table .changed .said", "on")
            self.browser.click("[data-state='with']")
            self.reads("#state-table .changed .said", "off")
            for key, position in (("[", 6), ("]", 11), ("Up", 9), ("Down", 11), ("End", 13), ("Home", 0)):
                self.browser.press(key)
                self.at(position)

    def test_before_after_and_changed(self):
        with Viewer(HOUSE) as viewer:
            self.open(viewer)
            self.at(13)
            self.browser.click(self.row(11) + " .what")
            self.at(11)
            self.reads("#difference", "768 px changed, 44 36 to 75 59")
            self.browser.press("c")
            self.comes(lambda: self.drawn(50, 50), [125, 95, 55, 255])
            self.assertEqual(len(set(self.drawn(5, 5)[:3])), 1)
            self.browser.press("a")
            self.browser.click("[data-look='before']")
            self.comes(lambda: self.drawn(50, 50), [60, 130, 60, 255])
            self.browser.press("a")
            self.comes(lambda: self.drawn(50, 50), [125, 95, 55, 255])

    def test_events_off_and_on(self):
        with Viewer(HOUSE) as viewer:
            self.open(viewer)
            self.at(13)
            self.click_pixel(50, 50, 96)
            self.browser.until("return document.querySelectorAll('#history .entry').length === 4")
            self.choose_entry(11)
            self.browser.press("End")
            self.at(13)
            self.browser.click(self.row(8) + " input")
            self.reads("#value", "190 60 50 128")
            self.browser.until("return document.querySelectorAll('#history .outlined').length === 1")
            self.comes(lambda: self.drawn(50, 50), [190, 60, 50, 255])
            self.comes(lambda: self.history()[-1:], ["11 0 drawn 190 60 50 128 60 130 60 255 190 60 50 128"])
            self.browser.click(self.row(8) + " input")
            self.reads("#value", "125 95 55 128")
            self.browser.click(self.row(10) + " input")  # the group of a marker
            self.reads("#value", "60 130 60 255")
            self.assertEqual(self.browser.run("return document.querySelectorAll('#event-list .event.off').length"), 3)
            self.browser.click(self.row(10) + " input")
            self.reads("#value", "125 95 55 128")

    def test_commands_as_typed(self):
        with Viewer(HOUSE) as viewer:
            self.open(viewer)
            self.at(13)
            for line, reply in (
                ("goto 99", "refused 3 no such position"),
                ("step", "refused 1 at end"),
                ("on 8", "refused 5 already so"),
                ("pixel 96 0", "refused 6 no such pixel"),
                ("sing", "bad 1 unknown command"),
                ("goto", "bad 2 arguments"),
            ):
                self.assertEqual(self.command(line), reply)
                self.reads("#notice", reply)
            self.assertEqual(self.command("goto 4"), "at 4")
            self.at(4)
            self.assertEqual(self.command("back"), "at 3")
            self.at(3)
            self.assertEqual(self.command("history 0 0"), "history 2")
            self.reads("#place", "0 0")
            self.click_pixel(5, 5, 96)
            self.reads("#place", "5 5")
            self.browser.click(self.row(8) + " input")
            self.browser.until("return document.querySelector('#log .told:last-child .asked').innerText === 'off 8'")
            told = self.browser.run(
                "return [...document.querySelectorAll('#log .told')].map(e => [...e.children].map(c => c.innerText))"
            )
            own = [line for line in replies(HOUSE, [asked for asked, *_ in told]) if not line[0].isdigit()]
            self.assertEqual([reply for _, reply, *_ in told], own)  # what the page tells of is a session of framedbg

    def test_the_focus_lasts(self):
        focused = "return document.activeElement.id"
        with Viewer(HOUSE) as viewer:
            self.open(viewer)
            self.at(13)
            self.browser.run("document.getElementById('event-list').focus()")
            for key, position in (("Up", 12), ("Up", 11), ("Up", 10), ("Down", 11)):
                self.browser.press(key)
                self.at(position)
                self.assertEqual(self.browser.run(focused), "event-list")
                active = "document.getElementById(document.activeElement.getAttribute('aria-activedescendant'))"
                self.assertEqual(
                    self.browser.run(f"return [{active}.dataset.number, {active}.getAttribute('aria-selected')]"),
                    [str(position), "true"],
                )
            self.browser.press(" ")
            self.browser.until(f"return document.querySelector(\"{self.row(11)}\").classList.contains('off')")
            self.assertEqual(self.browser.run(focused), "event-list")
            self.browser.press(" ")
            self.browser.until(f"return !document.querySelector(\"{self.row(11)}\").classList.contains('off')")
            self.browser.press("Up", "Enter")  # at the marker: its group is folded
            self.browser.until("return document.querySelectorAll('#event-list .event').length === 10")
            self.browser.press("Enter", " ")
            self.browser.until("return document.querySelectorAll('#event-list .event.off').length === 3")
            self.browser.run("document.getElementById('last').focus()")
            self.browser.press("Enter")
            self.at(13)
            self.assertEqual(self.browser.run(focused), "last")  # it does nothing now, and keeps the focus
            self.click_pixel(50, 50, 96)
            self.browser.until("return document.querySelectorAll('#history .entry').length > 0")
            self.browser.run("document.getElementById('history').focus()")
            self.browser.press("Up")
            self.at(3)
            self.browser.press("Down")
            self.at(6)
            self.assertEqual(self.browser.run(focused), "history")

    def test_the_guide_and_the_words_of_a_history(self):
        """Both are a click away; of each word of the head that isn't plain there is a line."""
        with Viewer(HOUSE) as viewer:
            self.open(viewer)
            self.at(13)
            self.browser.click("#to-guide")
            self.browser.until(
                "return document.getElementById('guide').open && document.querySelectorAll('#guide li').length >= 5"
            )
            self.browser.press("Escape", "?")
            self.browser.until("return document.getElementById('help').open")
            words = (
                "return [...document.querySelectorAll('#history-words dt')].filter(e => e.checkVisibility() && "
                "e.nextElementSibling.innerText).map(e => e.innerText)"
            )
            self.assertEqual(self.browser.run(words), ["tri", "verdict", "source"])
            self.browser.press("Escape")

    def test_dark_and_light(self):
        shades = (
            "return ['body', '#stage', '#event-list'].map(s => "
            "getComputedStyle(document.querySelector(s)).backgroundColor)"
        )
        with Viewer(HOUSE) as viewer:
            self.open(viewer)
            self.at(13)
            themes = []
            for _ in range(2):
                themes.append(self.browser.run("return document.documentElement.dataset.theme"))
                for shade in self.browser.run(shades)[:2]:
                    self.assertEqual(len(set(shade.strip("rgb()").split(", "))), 1, shade)  # a neutral grey
                self.comes(lambda: self.drawn(50, 50), [125, 95, 55, 255])
                self.browser.click("#theme")
            self.assertEqual(sorted(themes), ["dark", "light"])
            self.browser.click("#theme")
            kept = self.browser.run("return document.documentElement.dataset.theme")
            self.browser.call("/refresh", {})
            self.at(13)
            self.assertEqual(self.browser.run("return document.documentElement.dataset.theme"), kept)
            self.browser.run("localStorage.clear()")

    def test_two_pages_at_once(self):
        with Viewer(HOUSE) as viewer:
            self.open(viewer)
            self.at(13)
            self.click_pixel(50, 50, 96)
            self.reads("#value", "125 95 55 128")
            first, second = self.browser.window(), self.browser.new_window()
            self.open(viewer)
            self.at(13)
            self.browser.click(self.row(8) + " input")
            self.browser.until(f"return document.querySelector(\"{self.row(8)}\").classList.contains('off')")
            self.browser.press("Home")
            self.at(0)
            self.browser.switch_to(first)
            self.reads("#value", "190 60 50 128")  # told by the other page, and where this one stood
            self.at(13)
            self.comes(lambda: self.drawn(50, 50), [190, 60, 50, 255])
            viewer.session.answer([b"goto 2"])  # by a page of another browser
            self.click_pixel(10, 60, 96)
            self.reads("#place", "10 60")
            self.reads("#value", "60 130 60 255")
            self.click_pixel(50, 50, 96)
            self.reads("#value", "190 60 50 128")
            viewer.session.answer([b"on 8", b"goto 2"])
            self.browser.press("Left")
            self.at(12)
            self.reads("#value", "125 95 55 128")
            self.comes(lambda: self.drawn(50, 50), [125, 95, 55, 255])
            self.assertEqual(self.browser.run("return document.querySelectorAll('#event-list .event.off').length"), 0)
            self.browser.switch_to(second)
            self.browser.close_window()
            self.browser.switch_to(first)

    def test_depths(self):
        with tempfile.TemporaryDirectory() as folder:
            file = pathlib.Path(folder) / "depth.json"
            file.write_text(DEPTH)
            with Viewer(file) as viewer:
                self.open(viewer)
                self.at(6)
                self.click_pixel(1, 1, 8)
                self.browser.until("return document.querySelectorAll('#history .entry').length === 4")
                self.reads("#depth-here", "depth 3000")
                rows = [" ".join(line.split()) for line in self.history()]
                self.assertEqual(
                    rows,
                    [
                        "1 – drawn 40 40 40 255 0 0 0 0 0 65535 40 40 40 255 65535",
                        "3 0 drawn 255 0 0 255 1000 40 40 40 255 65535 255 0 0 255 1000",
                        "4 0 depthfailed 0 0 255 128 2000 255 0 0 255 1000 255 0 0 255 1000",
                        "6 – drawn 0 0 0 0 3000 255 0 0 255 1000 255 0 0 255 3000",
                    ],
                )
                self.choose_entry(4)
                self.reads("#depth-here", "depth 1000")
                self.comes(lambda: self.state()["depth"], "on passes where src < stored written")
                self.browser.click("[data-look='depth']")
                self.reads("#difference", "depths 1000 to 2000: nearer is lighter, and 65535 is black")
                self.assertEqual(
                    [self.drawn(x, y) for x, y in ((1, 1), (7, 7))], [[240, 240, 240, 255], [60, 60, 60, 255]]
                )
                self.browser.press("Escape", "Left")
                self.at(3)
                self.browser.until(
                    "return document.getElementById('image').getContext('2d').getImageData(7, 7, 1, 1).data[0] === 0"
                )
                self.browser.press("Right", "Right")
                self.at(5)
                self.browser.click("[data-state='next']")
                self.comes(lambda: self.state()["depth"], "on passes where src ≥ stored written")
                self.browser.press("a")
                self.comes(lambda: self.drawn(1, 1), [255, 0, 0, 255])
                self.reads(self.row(5), "5 depth src ≥ stored, not written")

    def test_a_target_that_is_too_large_at_once(self):
        samples, _ = image(HOUSE)
        at = lambda x, y: [*samples[4 * (y * 96 + x) : 4 * (y * 96 + x) + 3], 255]
        with mock.patch.object(viewer_image, "MOST_PIXELS", 1000), Viewer(HOUSE) as viewer:
            self.open(viewer)
            self.at(13)
            self.reads("#part", "Every 3rd pixel is shown: the target's 96 × 64 are too many at once. Zoom in for all.")
            self.assertEqual(
                [self.drawn(x, y) for x, y in ((16, 16), (26, 5), (1, 20))], [at(48, 48), at(78, 15), at(3, 60)]
            )
            self.reads("#size", "96 × 64")
            self.click_pixel(50, 50, 96)
            self.reads("#place", "50 50")
            self.reads("#value", "125 95 55 128")
            self.browser.run("document.querySelector('#history [data-event=\"11\"]').click()")
            self.at(11)
            self.browser.until(
                "return /^\\d+ shown px changed, 45 36 to 75 57$/.test(document.getElementById('difference').innerText)"
            )
            self.browser.press("+", "+", "+")
            self.reads("#part", "Of the target's 96 × 64 pixels those in sight were fetched.")
            places = (44, 40), (43, 40), (40, 30)
            self.comes(lambda: self.drawn_of(96, *places), [at(x, y) for x, y in places])
            self.browser.press("a", "Left")
            self.at(10)
            r, g, b, _ = map(int, replies(HOUSE, ["goto 10", "pixel 50 40"])[1].split()[1:])
            self.comes(lambda: self.drawn_of(96, (50, 40)), [[r, g, b, 255]])
            self.browser.press("0")
            self.browser.until("return document.getElementById('part').innerText.startsWith('Every 3rd')")

    def test_compared_with_another_picture(self):
        samples, head = image(HOUSE)
        samples[4 * (50 * 96 + 50) + 1] += 1
        samples[4 * (50 * 96 + 60)] += 40
        with tempfile.TemporaryDirectory() as folder, Viewer(HOUSE) as viewer:
            driver, pam, ppm, other = (
                pathlib.Path(folder) / name for name in ("driver.png", "driver.pam", "driver.ppm", "other.png")
            )
            driver.write_bytes(png(samples, 96, 64))
            pam.write_bytes(head + samples)
            ppm.write_bytes(b"P6 # a comment\n96 64\n255\n" + bytes(v for i, v in enumerate(samples) if i % 4 < 3))
            other.write_bytes(png(samples, 64, 96))
            self.open(viewer)
            self.at(13)
            self.browser.press("d")
            for file in (driver, pam, ppm):
                self.browser.choose("#file", file)
                self.reads("#compared-with", file.name)
                self.reads("#difference", "2 px differ by ≤ 40, 50 50 to 60 50")
            self.browser.press("n")
            self.reads("#place", "50 50")
            self.browser.until("return document.querySelectorAll('#history .entry').length === 4")
            self.browser.press("n")
            self.reads("#place", "60 50")
            self.reads("#other", "driver.ppm has 110 45 25")
            self.browser.choose("#file", driver)
            self.reads("#difference", "2 px differ by ≤ 40, 50 50 to 60 50")
            self.browser.run("const t = document.getElementById('tolerance'); t.value = 1; t.oninput()")
            self.reads("#difference", "1 px differ by ≤ 40, 60 50 to 60 50")
            self.browser.choose("#file", other)
            self.reads("#notice", "other.png is 64 × 96, the target 96 × 64")
            for name, advice in NO_PICTURES.items():
                strange = pathlib.Path(folder) / name
                strange.write_bytes(b"strange")
                self.browser.choose("#file", strange)
                self.reads("#notice", advice)
            self.comes(
                lambda: [self.drawn(x, y) for x, y in ((60, 50), (50, 50))], [[255, 255, 255, 255], [31, 23, 13, 255]]
            )  # white where they differ

    def test_compared_with_a_png_of_noise(self):
        few = random.Random(1)
        samples = bytes(few.randrange(7) for _ in range(4 * 96 * 64))  # many ties for the filters of PNG
        with tempfile.TemporaryDirectory() as folder, Viewer(HOUSE) as viewer:
            noise = pathlib.Path(folder) / "noise.png"
            noise.write_bytes(png(samples, 96, 64))
            self.open(viewer)
            self.at(13)
            self.browser.choose("#file", noise)
            self.reads("#compared-with", "noise.png")
            for x, y in ((94, 63), (1, 4), *((95, y) for y in range(4, 60, 5))):
                self.click_pixel(x, y, 96)
                at = 4 * (y * 96 + x)
                self.reads("#other", "noise.png has " + " ".join(map(str, samples[at : at + 4])))
                self.browser.press("n")
                self.reads("#place", f"{(x + 1) % 96} {(y + (x == 95)) % 64}")

    def test_compared_with_a_pinned_image(self):
        with Viewer(HOUSE) as viewer:
            self.open(viewer)
            self.at(13)
            self.browser.press("p")
            self.reads("#difference", "no pixel differs")
            self.browser.click("#event-list [data-number='8'] input")
            shown = (EXAMPLES / "house_show.expected").read_bytes().split(b"ENDHDR\n")
            pairs = [(shown[1][i : i + 4], shown[2][i : i + 4]) for i in range(0, 4 * 96 * 64, 4)]
            by = [max(abs(a - b) for a, b in zip(one, two)) for one, two in pairs]
            at = [(i % 96, i // 96) for i, much in enumerate(by) if much]
            box = " to ".join(" ".join(str(f(c)) for c in zip(*at)) for f in (min, max))
            self.reads("#difference", f"{len(at)} px differ by ≤ {max(by)}, {box}")

    def test_compared_in_alpha_alone(self):
        samples, head = image(HOUSE)
        samples[4 * (50 * 96 + 50) + 3] += 2
        with tempfile.TemporaryDirectory() as folder, Viewer(HOUSE) as viewer:
            alpha, none = (pathlib.Path(folder) / name for name in ("alpha.pam", "none.ppm"))
            alpha.write_bytes(head + samples)
            none.write_bytes(b"P6 96 64 255\n" + bytes(v for i, v in enumerate(samples) if i % 4 < 3))
            self.open(viewer)
            self.at(13)
            self.browser.choose("#file", alpha)
            self.reads("#difference", "1 px differ by ≤ 2, 50 50 to 50 50")
            self.browser.choose("#file", none)
            self.reads("#difference", "no pixel differs")

    def channel_by_channel(self, r, g, a):
        """The pixel 10 6, whose channels are given: without blue, with alpha, of alpha alone and of green alone."""
        self.browser.click("[data-channel='b']")
        self.comes(lambda: self.drawn(10, 6), [r, g, 0, 255])
        self.browser.click("[data-channel='b']")
        self.browser.click("[data-channel='a']")
        self.comes(lambda: self.drawn(10, 6)[3], a)
        for channel in "rgb":
            self.browser.click(f"[data-channel='{channel}']")
        self.comes(lambda: self.drawn(10, 6), [a, a, a, 255])
        self.browser.click("[data-channel='a']")
        self.browser.click("[data-channel='g']")
        self.comes(lambda: self.drawn(10, 6), [g, g, g, 255])

    def test_channels_zoom_and_scissor(self):
        with tempfile.NamedTemporaryFile("w", suffix=".json") as file:
            file.write(WINDOW)
            file.flush()
            with Viewer(file.name) as viewer:
                self.open(viewer)
                self.at(4)
                shown = {
                    tuple(c): viewer.session.answer([b"goto 4", b"pixel %d %d" % c])[0][1]["text"]
                    for c in ((10, 6), (50, 6), (20, 20))
                }
                self.assertEqual(shown[50, 6], "pixel 30 60 90 255")
                r, g, b, a = map(int, shown[10, 6].split()[1:])
                self.comes(lambda: self.drawn(10, 6), [r, g, b, 255])
                left, top, width, _ = self.box("#image")
                scale = width / 64
                self.assertEqual(
                    [round(v) for v in self.box("#scissor")],
                    [round(v) for v in (left + 8 * scale, top + 4 * scale, 32 * scale, 26 * scale)],
                )
                self.channel_by_channel(r, g, a)
                self.browser.click("#larger")
                self.assertGreater(self.box("#image")[2], width)
                for x, inside in ((19, 0.85), (20, 0.15), (21, 0.85), (20, 0.5)):
                    self.click_pixel(x, 20, 64, inside)
                    self.reads("#place", f"{x} 20")
                self.reads("#value", shown[20, 20].removeprefix("pixel "))
                self.browser.press("0")
                self.assertEqual(self.box("#image")[2], width)
                self.click_pixel(50, 6, 64)
                self.browser.until("return document.querySelectorAll('#history .entry.scissored').length === 1")
                self.browser.press("Home")
                self.at(0)
                self.browser.press(*["Right"] * 4)
                self.at(4)

    def test_the_file_for_the_browser_leads_to_the_page(self):
        """The token is gone from the address before the page has a place that it tells there: it is held on its way
        to the first one."""
        with tempfile.TemporaryDirectory() as folder:
            hold, held = (pathlib.Path(folder) / name for name in ("hold", "held"))
            hold.touch()
            with Viewer(EXAMPLES / "row01.json", program_of(HOLDING, folder)) as viewer:
                handover, viewer.leave = Handover(viewer.server.address), self.leave
                try:
                    self.browser.open(handover.page.as_uri())
                    self.comes(held.exists, True)
                    self.assertEqual(self.browser.run("return location.href"), viewer.server.origin + "/")
                finally:
                    handover.close()
                hold.unlink()
                self.stop()
                self.stopped_at(0)

    def test_without_the_token(self):
        with Viewer(HOUSE) as viewer:
            viewer.leave = self.leave
            self.browser.open(viewer.server.origin + "/")
            self.reads("#notice", "403 no token")
            self.open(viewer)
            self.at(13)
            self.browser.call("/refresh", {})
            self.at(13)
            self.assertEqual(
                self.browser.until("return location.hash && location.href"), viewer.server.origin + "/#at=13"
            )  # and no token

    def test_stopped_and_ended(self):
        with tempfile.TemporaryDirectory() as folder:
            with Viewer(EXAMPLES / "row01.json", program_of(STOPPING, folder)) as viewer:
                self.open(viewer)
                self.at(2)
                self.reads("#notice", "stopped 2")
                self.browser.press("Home")
                self.at(0)
                self.browser.press("End")
                self.at(2)
                self.assertEqual(self.text("#log .told:last-child .reply"), "stopped 2")
                self.browser.click("#command")
                self.browser.press(*"sing", "Enter")
                self.browser.until(
                    "return document.getElementById('notice').innerText.includes('framedbg: memory (status 5)')"
                )
                self.browser.click("#notice button")
                self.browser.until("return document.getElementById('notice').hidden")
                self.browser.press("Left")
                self.at(1)

    def stopped_twice(self, held):
        """On the way to 2 it is held, and on the way back to 3 too."""
        self.browser.press("Left")
        for _ in range(2):
            self.comes(held.exists, True)
            held.unlink()
            self.stop()
        self.stopped_at(0)

    def test_a_long_move_is_stopped(self):
        """The page stays where it stood, with the events off that were off, and what waited is dropped."""
        with tempfile.TemporaryDirectory() as folder:
            hold, held = (pathlib.Path(folder) / name for name in ("hold", "held"))
            with Viewer(EXAMPLES / "row01.json", program_of(HOLDING, folder)) as viewer:
                self.open(viewer)
                self.at(3)
                self.browser.click(self.row(3) + " input")
                self.browser.until(f"return document.querySelector(\"{self.row(3)}\").classList.contains('off')")
                self.browser.press("Escape", "Home")
                self.at(0)
                hold.touch()
                self.browser.press("End")
                self.browser.until("return document.getElementById('stop').getAttribute('aria-disabled') === 'false'")
                self.assertTrue(self.browser.run("return document.getElementById('busy').checkVisibility()"))
                self.browser.press("Left")  # a move, a switch and a pixel wait, and are dropped
                self.browser.click(self.row(2) + " input")
                self.assertFalse(self.browser.run(f"return document.querySelector(\"{self.row(2)} input\").checked"))
                self.click_pixel(0, 0, 1)
                self.stop()
                self.stopped_at(0)
                self.assertTrue(self.browser.run(f"return document.querySelector(\"{self.row(2)} input\").checked"))
                self.assertTrue(self.browser.run("return document.getElementById('history').hidden"))
                self.assertFalse(self.browser.run("return document.getElementById('busy').checkVisibility()"))
                off = "return [...document.querySelectorAll('#event-list .off')].map(e => e.dataset.number)"
                self.assertEqual(self.browser.run(off), ["3"])
                lines = ["1 on clear 1 2 3 4", "2 on clear 1 2 3 4", "3 off clear 1 2 3 4"]
                told = viewer.ask("events")[0]["replies"][0]
                self.assertEqual(told, {"text": "events 3 at 0", "lines": lines, "left_out": 0})
                self.browser.press("Right")
                self.at(1)
                hold.unlink()
                self.browser.press("End")
                self.at(3)
                hold.touch()
                held.unlink()
                self.stopped_twice(held)
                asked = self.browser.run("return [...document.querySelectorAll('#log .asked')].map(e => e.innerText)")
                self.assertEqual(asked, ["goto 3", "off 3", "goto 0", "step", "goto 3", "goto 0"])

    def test_a_look_that_waits_outlasts_a_stop(self):
        """Or its button would say for ever that it comes."""
        with tempfile.TemporaryDirectory() as folder:
            hold, held = (pathlib.Path(folder) / name for name in ("hold", "held"))
            with Viewer(EXAMPLES / "row01.json", program_of(HOLDING, folder)) as viewer:
                self.open(viewer)
                self.at(3)
                self.browser.press("Escape", "Home")
                self.at(0)
                hold.touch()
                self.browser.press("End")
                self.comes(held.exists, True)
                hold.unlink()
                self.browser.press("o")
                self.stop()
                self.stopped_at(0)
                lit = (
                    "return ['aria-checked', 'aria-busy'].map(name => "
                    "document.querySelector('[data-look=overdraw]').getAttribute(name)).join(' ')"
                )
                self.comes(lambda: self.browser.run(lit), "true false")

    def test_a_long_history_is_stopped(self):
        """The pixel that was chosen stays chosen, with its history."""
        with tempfile.TemporaryDirectory() as folder:
            hold = pathlib.Path(folder) / "hold"
            with Viewer(EXAMPLES / "row01.json", program_of(HOLDING, folder)) as viewer:
                self.open(viewer)
                self.at(3)
                self.browser.press("Escape", "Home")
                self.at(0)
                hold.touch()
                self.click_pixel(0, 0, 1)
                self.stop()
                self.stopped_at(0)
                self.assertTrue(self.browser.run("return document.getElementById('history').hidden"))
                hold.unlink()
                self.click_pixel(0, 0, 1)
                self.browser.until("return document.querySelectorAll('#history .entry').length === 1")
                hold.touch()
                self.browser.press("End")
                self.stop()
                self.stopped_at(0)
                self.assertEqual(self.browser.run("return document.querySelectorAll('#history .entry').length"), 1)
                self.reads("#value", "0 2 3 4")


if __name__ == "__main__":
    unittest.main()
