"""What if an event were another one: the server's call, and the line in the page. In Chromium, and in Firefox where
it is installed."""
import json
import tempfile
import unittest

import folders

import browser
from captures import clear
from changes_testing import KINDS, LINES
from viewer_hands import Hands
from viewer_testing import HOUSE, Viewer, file_of

FRAME = {"format": "framedbg", "version": 1, "width": 2, "height": 2, "events": [clear(1, 2, 3, 4), clear(9, 9, 9, 9)]}
# Presses Keep, and leaves the file that is given to the browser: its name and its text
KEEP = """const create = URL.createObjectURL, made = new Promise(resolve => { URL.createObjectURL = blob => { resolve(blob); return "data:,"; }; });
HTMLAnchorElement.prototype.click = function () { window.keptAs = this.download; };
document.getElementById("changed-keep").onclick();
const text = await (await made).text();
URL.createObjectURL = create;
return [window.keptAs, text];"""
# What becomes of some lines, with events of some kinds: a change, or a sentence
READ = """const { readChange } = await import(name("whatif.js")), events = given[1].map((kind, i) => ({ number: i + 1, kind }));
return given[0].map(line => { try { return readChange(line, events); } catch (fault) { return fault.message; } });"""


class ChangedCalled(unittest.TestCase):
    """The server's calls, without a page."""

    def setUp(self):
        folder = tempfile.TemporaryDirectory()
        self.addCleanup(folder.cleanup)
        self.viewer = Viewer(file_of(folder.name, json.dumps(FRAME)))
        self.addCleanup(self.viewer.__exit__)

    def asked(self, change, path="/changed", **headers):
        status, _, answer = self.viewer.request(
            path=path, body=change if isinstance(change, bytes) else json.dumps(change).encode(), **headers
        )
        return status, answer

    def colour(self, change):
        """The one colour of the picture after a change."""
        status, answer = self.asked(change)
        told, _, samples = answer.partition(b"\n")
        self.assertEqual((status, json.loads(told), samples), (200, {"width": 2, "height": 2}, 4 * samples[:4]))
        return tuple(samples[:4])

    def test_a_change(self):
        self.assertEqual(self.colour({"set": 2, "members": {"color": [5, 6, 7, 8]}}), (5, 6, 7, 8))
        self.assertEqual(self.colour({"move": 2, "to": 1}), (1, 2, 3, 4))
        self.assertEqual(self.colour({"move": 1, "to": 2}), (1, 2, 3, 4))
        self.viewer.ask("off 2")
        self.assertEqual(self.colour({"set": 1, "members": {"color": [5, 6, 7, 8]}}), (5, 6, 7, 8))

    def test_it_is_kept(self):
        """All of the capture, with the change alone; the file stays as it is."""
        status, answer = self.asked({"set": 1, "members": {"color": [5, 6, 7, 8]}}, "/changed/capture")
        self.assertEqual(
            (status, json.loads(answer)), (200, {**FRAME, "events": [clear(5, 6, 7, 8), clear(9, 9, 9, 9)]})
        )
        self.assertEqual(json.loads(self.viewer.server.changed.capture.read_text()), FRAME)

    def test_refusals(self):
        for change in (
            b"",
            b"{",
            b"[]",
            b"7",
            b"{}",
            {"set": 1},
            {"set": 1, "members": 7},
            {"move": 1},
            {"set": 1, "members": {"kind": "factor"}},
            {"set": 1, "members": {"mask": 7}},
            *({"set": number, "members": {}} for number in (0, 3, -1, True, "1", None, 1.0)),
            {"move": 1, "to": 3},
        ):
            self.assertEqual(self.asked(change)[0], 400, change)
        status, why = self.asked({"set": 2, "members": {"color": [5, 6, 7]}})
        self.assertEqual(
            (status, why.decode().partition(": ")[2]),
            (400, "event 2 (clear), color: an array of 4 is wanted, not an array of 3\n"),
        )
        for path in ("/changed", "/changed/capture"):
            self.assertEqual(self.asked({"move": 1, "to": 2}, path, X_Token=None)[0], 403)


class WhatIf(Hands):
    def type(self, line):
        self.browser.click("#command")
        self.browser.press(*line, "Enter", "Escape")

    def test_lines(self):
        with Viewer(HOUSE) as viewer:
            self.open(viewer)
            self.at(13)
            self.assertEqual(dict(zip(LINES, self.within(READ, list(LINES), KINDS))), LINES)

    def test_what_if(self):
        """A state's value and an event's place, drawn and compared at the end of the frame, and kept; the frame
        itself stays."""
        with Viewer(HOUSE) as viewer:
            self.open(viewer)
            self.at(13)
            self.browser.press("Escape", "Left")
            self.at(12)
            self.type("set 8 enable off")
            self.reads("#changed-told", "set 8 enable off")
            self.at(13)
            self.comes(lambda: self.drawn(50, 50), [190, 60, 50, 255])
            self.comes(
                lambda: self.text("#difference").partition(" px differ")[0], "824"
            )  # 12 by 14 of event 9 and 32 by 24 of event 11, but for 8 by 14 that event 13 covers
            self.browser.click("#changed-shown")
            self.comes(lambda: self.drawn(50, 50), [125, 95, 55, 255])
            kept_as, text = self.within(KEEP)
            wanted = json.loads(HOUSE.read_text())
            wanted["events"][7]["enable"] = False
            self.assertEqual((kept_as, json.loads(text)["events"]), ("house_changed.json", wanted["events"]))
            self.type("move 11 after 2")  # below the sky and the hill
            self.comes(lambda: self.drawn(50, 50), [60, 130, 60, 255])
            self.browser.click("#changed-forget")
            self.comes(lambda: self.drawn(50, 50), [125, 95, 55, 255])
            self.assertTrue(self.browser.run("return document.getElementById('what-if').hidden"))
            self.type("set 8 mask 16")
            self.browser.until(
                "return /^line \\d+, column \\d+: event 8 \\(blend\\), mask: a whole number from 0 to 15 is "
                "wanted, not 16$/.test(document.getElementById('notice').innerText)"
            )


@unittest.skipUnless(browser.is_installed(), "Chromium and chromedriver aren't installed")
class WhatIfInChromium(WhatIf):
    pass


@unittest.skipUnless(browser.Firefox.installed(), "Firefox isn't installed")
class WhatIfInFirefox(WhatIf):
    kind = browser.Firefox


del WhatIf  # it is tried in browsers alone

if __name__ == "__main__":
    unittest.main()
