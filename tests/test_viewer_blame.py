"""Who made the image differ from the compared picture: the server's call and its stop, and the page's list. In
Chromium, and in Firefox where it is installed."""
import json
import pathlib
import tempfile
import threading
import time
import unittest
from unittest import mock

import folders

import browser
from framedbg_client import Image, read_pam
from framedbg_client.replies import images_of
from viewer_hands import Hands
from viewer_testing import EXAMPLES, RED, Viewer, capture_of, file_of

from viewer.blame import Blame, without
from viewer.doors import MAX_BODY, MAX_PICTURE, Refused

CHAIN = EXAMPLES / "hunts/chain.json"
WIDTH = 120  # of the hunts' target
SILENT = """#!/usr/bin/env python3
import pathlib
import time
pathlib.Path(__file__).with_name("asked").touch()
time.sleep(60)
"""


def mended_picture():
    """The picture that the chain should be, by the reference: docs/HUNTS.md says that event 8 did it."""
    return images_of((EXAMPLES / "hunts/chain_mended_show.expected").read_bytes())[0]


def pam_of(width, height, samples):
    return Image(width, height, samples).pam()


class BlameCalled(unittest.TestCase):
    """The server's call, without a page."""

    def asked(self, viewer, body, **headers):
        status, _, answer = viewer.request(path="/blame", body=body, **headers)
        told, _, samples = answer.partition(b"\n")
        return status, told, samples

    def test_what_is_found(self):
        with Viewer(CHAIN) as viewer:
            status, told, samples = self.asked(viewer, mended_picture())
        found = json.loads(told)
        self.assertEqual(
            (status, found["differ"], found["mended"], found["changes"][0]["event"], samples),
            (200, 1045, True, 8, read_pam(mended_picture()).samples),
        )
        x, y = found["findings"][0]["pixel"]
        wrong = read_pam(*images_of((EXAMPLES / "hunts/chain_show.expected").read_bytes())).samples
        at = 4 * (y * WIDTH + x)
        self.assertNotEqual(wrong[at : at + 4], samples[at : at + 4])

    def test_events_that_are_off(self):
        """They are none for it, and the others keep their numbers."""
        right, wrong = ({"kind": "clear", "color": color} for color in ([1, 2, 3, 4], [9, 9, 9, 9]))
        with tempfile.TemporaryDirectory() as folder, Viewer(
            file_of(folder, capture_of(2, 2, [right, {"kind": "clear", "color": RED}, wrong]))
        ) as viewer:
            viewer.ask("off 3")
            found = json.loads(self.asked(viewer, pam_of(2, 2, bytes([1, 2, 3, 4] * 4)))[1])
        self.assertEqual((found["mended"], found["suspects"][0]["event"]), (True, 2))
        made = json.loads(without(json.loads(capture_of(2, 2, [right, wrong])), {1}))
        self.assertEqual([event["kind"] for event in made["events"]], ["marker", "clear"])

    def test_depths_of_version_1(self):
        """They are passed over, whatever they are."""
        corners = [{"x": x << 16, "y": y << 16, "z": "deep", "color": RED} for x, y in ((0, 0), (9, 0), (0, 9))]
        events = [{"kind": "clear", "color": [1, 2, 3, 4]}, {"kind": "draw", "interp": "flat", "vertices": corners}]
        with tempfile.TemporaryDirectory() as folder, Viewer(file_of(folder, capture_of(2, 2, events))) as viewer:
            status, told, _ = self.asked(viewer, pam_of(2, 2, bytes([1, 2, 3, 4] * 4)))
        self.assertEqual((status, json.loads(told)["differ"], json.loads(told)["suspects"][0]["event"]), (200, 4, 2))

    def test_tolerance(self):
        with tempfile.TemporaryDirectory() as folder, Viewer(
            file_of(folder, capture_of(2, 2, [{"kind": "clear", "color": [1, 2, 3, 4]}]))
        ) as viewer:
            picture = pam_of(2, 2, bytes([2, 2, 3, 9] * 4))
            for tolerance, differ in (("0 0 0 0", 4), ("1 1 1 255", 0), ("0 1 1 255", 4), ("1 1 1 4", 4)):
                self.assertEqual(
                    json.loads(self.asked(viewer, picture, X_Tolerance=tolerance)[1])["differ"], differ, tolerance
                )
            for tolerance in ("", "1", "1 1 1", "1 1 1 x", "-1 0 0 0"):
                self.assertEqual(self.asked(viewer, picture, X_Tolerance=tolerance)[0], 400, tolerance)

    def test_doors(self):
        with Viewer(CHAIN) as viewer:
            for path in ("/blame", "/blame/stop"):
                self.assertEqual(viewer.request(path=path, body=b"", X_Token=None)[0], 403)
            self.assertEqual(
                self.asked(viewer, b"no picture")[:2], (400, b"wanted.pam: no picture: PAM, PPM or PNG is wanted")
            )
            self.assertEqual(self.asked(viewer, pam_of(1, 1, bytes(4)))[0], 400)
            self.assertEqual(viewer.request(path="/blame", body=b"", Content_Length=str(MAX_PICTURE + 1))[0], 413)
            self.assertEqual(viewer.request(path="/blame/stop", body=b"", Content_Length=str(MAX_BODY + 1))[0], 413)

    def test_a_stop(self):
        """Of a search in which framedbg itself says nothing; a second one is refused meanwhile, and none is left."""
        with tempfile.TemporaryDirectory() as folder:
            program = file_of(folder, SILENT, "program")
            program.chmod(0o755)
            blame, found = Blame(str(program), str(CHAIN)), []
            search = threading.Thread(target=lambda: found.append(blame.answer(mended_picture(), (0, 0, 0, 0), set())))
            search.start()
            end = time.monotonic() + 60
            while not pathlib.Path(folder, "asked").exists() and time.monotonic() < end:
                time.sleep(0.02)
            with self.assertRaises(Refused) as refused:
                blame.answer(b"", (0, 0, 0, 0), set())
            run = blame.run
            blame.stop()
            search.join(60)
        self.assertEqual(
            (refused.exception.status, found, run.poll() is not None), (409, [({"stopped": True}, b"")], True)
        )


class WhoDidIt(Hands):
    def compared(self, viewer, folder):
        picture = pathlib.Path(folder) / "wanted.pam"
        picture.write_bytes(mended_picture())
        self.open(viewer)
        self.browser.until("return /^[1-9]/.test(document.querySelector('#position b').innerText)")
        self.browser.choose("#file", picture)
        self.reads("#compared-with", "wanted.pam")

    def test_the_list_leads_there(self):
        wanted = read_pam(mended_picture()).samples
        with tempfile.TemporaryDirectory() as folder, Viewer(CHAIN) as viewer:
            self.compared(viewer, folder)
            self.reads("#difference", "1,045 px differ by ≤ 186, 48 27 to 97 59")
            self.browser.click("#who")
            self.reads(
                "#findings .verdict", "Event 8, depth function LESS in place of GREATER: no pixel differs after it"
            )
            said = self.text("#findings .finding")
            x, y = map(int, said.partition(" at ")[2].partition(":")[0].split())
            self.assertEqual(
                said, f"1: 1,045 pixels at {x} {y}: event 8, mended by depth function LESS in place of GREATER"
            )
            right = list(wanted[4 * (y * WIDTH + x) : 4 * (y * WIDTH + x) + 4])
            self.assertNotEqual(self.drawn(x, y)[:3], right[:3])
            self.browser.click("#findings .mended")
            self.reads("#difference", "no pixel differs")
            self.assertEqual(self.drawn(x, y)[:3], right[:3])
            self.browser.click("#findings .mended")
            self.reads("#difference", "1,045 px differ by ≤ 186, 48 27 to 97 59")
            self.browser.click("#findings .finding")
            self.at(8)
            self.reads("#place", f"{x} {y}")

    def test_what_was_found_is_of_its_picture_and_events(self):
        with tempfile.TemporaryDirectory() as folder, Viewer(CHAIN) as viewer:
            self.open(viewer)
            self.at(9)
            self.browser.press("d")
            self.browser.until("return document.getElementById('who').checkVisibility()")
            self.browser.click("#who")
            self.reads("#notice", "A whole picture to compare with is wanted: pin this image, or open or drop one")
            for other in (lambda: self.browser.press("p"), lambda: self.switch(8, False)):
                self.compared(viewer, folder)
                self.browser.click("#who")
                self.browser.until("return document.querySelector('#findings .finding') !== null")
                other()
                self.browser.until("return document.getElementById('findings').hidden")


@unittest.skipUnless(browser.is_installed(), "Chromium and chromedriver aren't installed")
class WhoDidItInChromium(WhoDidIt):
    def test_nothing_mends_it(self):
        """It isn't told in the colour of good news."""
        nothing = {"differ": 5, "changes": [], "findings": [], "over": True}
        with mock.patch.object(
            Blame, "answer", lambda *_: (nothing, b"")
        ), tempfile.TemporaryDirectory() as folder, Viewer(CHAIN) as viewer:
            self.compared(viewer, folder)
            self.browser.click("#who")
            self.reads("#findings .verdict", "No change that was tried mends it")
            self.assertTrue(
                self.browser.run(
                    "const all = document.getElementById('findings'), good = document.createElement('span'); "
                    "good.className = 'verdict';"
                    "all.append(good); return getComputedStyle(good).color !== "
                    "getComputedStyle(all.querySelector('.verdict')).color"
                )
            )


@unittest.skipUnless(browser.Firefox.installed(), "Firefox isn't installed")
class WhoDidItInFirefox(WhoDidIt):
    kind = browser.Firefox


del WhoDidIt  # it is tried in browsers alone

if __name__ == "__main__":
    unittest.main()
