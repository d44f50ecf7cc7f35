"""Two captures side by side: the server's calls, the program's words, and the page. In Chromium, and in Firefox where
it is installed. What is expected is worked out by hand."""
import http.client
import json
import re
import signal
import subprocess
import tempfile
import unittest

import folders

import browser
from captures import clear, marker
from folders import TOOLS
from viewer_hands import Hands
from viewer_testing import HOUSE, PROGRAM, Viewer, capture_of, file_of

ONE = capture_of(2, 2, [clear(1, 2, 3, 4), marker("a"), clear(9, 9, 9, 9)])
OTHER = capture_of(2, 2, [clear(1, 2, 3, 4), clear(5, 5, 5, 5), marker("a"), clear(9, 9, 9, 8)])
COUNTS = {"same": 2, "changed": 1, "moved": 0, "went": 0, "came": 1}
DIFFERS = {
    "name": "b.json",
    "last": 4,
    "size": [2, 2],
    "steps": [[1, 1, 1], [0, 2, 1], [2, 3, 2]],
    "left_out": 0,
    "told": [["came", 1, 2, "clear 5 5 5 5"], ["changed", 3, 4, "clear 9 9 9 9, and then clear 9 9 9 8"]],
    "counts": COUNTS,
}
PICTURES = [
    "pictures first differ at 1 and 2",
    "images: 4 of 4 pixels differ, in the box 0 0 2 2",
    "most at 0 0: 1 2 3 4, and then 5 5 5 5",
    "at the end",
    "images: 4 of 4 pixels differ, in the box 0 0 2 2",
    "most at 0 0: 9 9 9 9, and then 9 9 9 8",
]
# Where the other stands for each position of the one, by the steps through both
PLACES = """const { placesOf } = await import(name("beside.js"));
return given[0].map(([steps, last]) => placesOf({ steps, last }));"""
WALKS = [
    ([[1, 1, 1], [0, 2, 1], [2, 3, 2]], 4),
    ([[1, 1, 2], [0, 3, 2]], 4),
    ([[1, 1, 1], [2, 0, 1], [3, 2, 1]], 2),
    ([[0, 1, 1], [1, 0, 2]], 1),
]
BESIDE = """const canvas = document.getElementById("image-beside");
return [...canvas.getContext("2d").getImageData(arguments[0], arguments[1], 1, 1).data];"""
SHOWN = "return ['beside', 'stage-beside', 'differences'].map(id => !document.getElementById(id).hidden)"


def house_changed():
    """The house without its blending: event 8 is another."""
    capture = json.loads(HOUSE.read_text())
    capture["events"][7]["enable"] = False
    return json.dumps(capture)


class BesideCalled(unittest.TestCase):
    """The server's calls, without a page."""

    def setUp(self):
        folder = tempfile.TemporaryDirectory()
        self.addCleanup(folder.cleanup)
        self.viewer = Viewer(file_of(folder.name, ONE))
        self.addCleanup(self.viewer.__exit__)

    def call(self, path, body=None, **headers):
        how = {} if body is not None else {"method": "GET"}
        status, _, answer = self.viewer.request(path=path, body=body if body is not None else b"", **how, **headers)
        return status, json.loads(answer) if status == 200 else answer.decode().strip()

    def put(self, capture=OTHER, **headers):
        return self.call("/beside", capture.encode(), X_Name='"b.json"', **headers)

    def pixel(self, position, **headers):
        _, _, answer = self.viewer.request(path="/commands", body=f"goto {position}\npixel 0 0\n".encode(), **headers)
        return json.loads(answer.partition(b"\n")[0])["replies"][1]["text"]

    def test_what_differs(self):
        self.assertEqual(self.call("/beside"), (200, None))
        self.assertEqual(self.put(), (200, DIFFERS))
        self.assertEqual(self.call("/beside"), (200, DIFFERS))
        self.assertEqual(self.call("/beside/pictures", b""), (200, PICTURES))

    def test_pictures_of_a_change(self):
        """The first clear is another, and the last one covers it."""
        self.put(ONE.replace("[1, 2, 3, 4]", "[1, 2, 3, 5]").replace("[1,2,3,4]", "[1,2,3,5]"))
        self.assertEqual(
            self.call("/beside/pictures", b"")[1],
            [
                "pictures first differ at 1 and 1",
                "images: 4 of 4 pixels differ, in the box 0 0 2 2",
                "most at 0 0: 1 2 3 4, and then 1 2 3 5",
                "at the end",
                "images: the same",
            ],
        )

    def test_a_run_of_its_own(self):
        """It goes where it is asked to, with all of its events on; the run that is shown stays."""
        self.put()
        self.viewer.ask("off 1")
        self.assertEqual(
            [self.pixel(1, X_Run="other"), self.pixel(2, X_Run="other"), self.pixel(1)],
            ["pixel 1 2 3 4", "pixel 5 5 5 5", "pixel 0 0 0 0"],
        )
        self.assertEqual(self.pixel(4, X_Run="other"), "pixel 9 9 9 8")
        self.viewer.server.runs.other.session.run.kill()
        self.assertEqual(self.viewer.request(path="/commands", body=b"state", X_Run="other")[0], 410)
        self.assertEqual(self.pixel(2, X_Run="other"), "pixel 5 5 5 5")

    def test_images_of_each_follow_on_its_own(self):
        """Between two of the capture that is shown one of the other's comes, which is whole, and doesn't part them."""
        self.put()

        def shown(position, base, **headers):
            told = self.viewer.request(
                path="/commands", body=f"goto {position}\nshow\n".encode(), X_Base=str(base), **headers
            )
            line, _, data = told[2].partition(b"\n")
            return json.loads(line)["replies"][1]["image"], data

        first, data = shown(1, 0)
        self.assertEqual((first["bytes"], data), (16, bytes([1, 2, 3, 4] * 4)))
        other, data = shown(2, first["number"], X_Run="other")
        self.assertEqual(("number" in other, "base" in other, data), (False, False, bytes([5] * 16)))
        image, data = shown(2, first["number"])
        self.assertEqual((image["base"], image["bands"], data), (first["number"], [], b""))

    def test_another_one_and_none(self):
        self.put()
        before = self.viewer.server.runs.other
        self.assertEqual(self.put(ONE)[1]["told"], [])
        self.assertEqual((before.session.run.poll() is None, before.room is None), (False, False))
        self.assertEqual(self.call("/beside", b""), (200, None))
        self.assertEqual(self.viewer.request(path="/commands", body=b"state", X_Run="other")[0], 400)
        self.assertEqual(self.call("/beside/pictures", b"")[0], 400)

    def test_other_sizes(self):
        self.assertEqual(self.put(capture_of(3, 2, [clear(1, 2, 3, 4)]))[1]["size"], [3, 2])
        self.assertEqual(self.call("/beside/pictures", b""), (200, ["pictures have other sizes"]))

    def test_refusals(self):
        """What framedbg refuses is told as framedbg-explain tells it, and what is beside stays."""
        self.put()
        status, said = self.put(OTHER.replace("[5, 5, 5, 5]", "[5, 5, 5]"))
        self.assertEqual(
            (status, said.partition(": ")[2]),
            (400, "event 2 (clear), color: an array of 4 is wanted, not an array of 3"),
        )
        self.assertEqual(self.call("/beside"), (200, DIFFERS))
        self.assertEqual(self.put(X_Token=None)[0], 403)
        for name in ("b.json", "7", '"' + 256 * "b" + '"', "{"):
            self.assertEqual(self.call("/beside", OTHER.encode(), X_Name=name)[0], 400, name)


class Words(unittest.TestCase):
    def test_two_captures(self):
        with tempfile.TemporaryDirectory() as folder:
            one, other = file_of(folder, ONE, "a.json"), file_of(folder, OTHER, "b.json")
            run = subprocess.Popen(
                [TOOLS / "view", "--no-browser", "--program", PROGRAM, one, other],
                text=True,
                stdout=subprocess.PIPE,
                stderr=subprocess.PIPE,
            )
            try:
                port, token = re.fullmatch(r"http://127.0.0.1:(\d+)/#(.*)\n", run.stdout.readline()).groups()
                home = http.client.HTTPConnection("127.0.0.1", int(port), timeout=60)
                home.request("GET", "/beside", headers={"X-Token": token})
                self.assertEqual(json.loads(home.getresponse().read()), DIFFERS)
            finally:
                run.send_signal(signal.SIGINT)
                said = run.communicate(timeout=60)[1]
            self.assertEqual((run.returncode, said), (0, ""))

    def test_what_can_not_be_shown_beside(self):
        with tempfile.TemporaryDirectory() as folder:
            wrong = file_of(folder, "[]", "wrong.json")
            for path, said in (
                (f"{folder}/none", f"view: {folder}/none: No such file or directory\n"),
                (
                    wrong,
                    "view: framedbg: capture refused 3 not a capture (status 2)\n"
                    "line 1, column 1: a capture is an object; this is an array of 0\n",
                ),
            ):
                run = subprocess.run(
                    [TOOLS / "view", "--no-browser", "--program", PROGRAM, HOUSE, path],
                    capture_output=True,
                    text=True,
                    timeout=60,
                )
                self.assertEqual((run.returncode, run.stdout, run.stderr), (1, "", said))


class Beside(Hands):
    def test_where_the_other_stands(self):
        """What it alone has comes with the next event that both have, and at the end all of it."""
        with Viewer(HOUSE) as viewer:
            self.open(viewer)
            self.at(13)
            self.assertEqual(self.within(PLACES, WALKS), [[0, 1, 3, 4], [0, 1, 4], [0, 1, 1, 2], [0, 1, 1]])

    def test_side_by_side(self):
        """The house and the house without its blending: in step, compared, and at the first difference."""
        with tempfile.TemporaryDirectory() as folder, Viewer(HOUSE) as viewer:
            changed = file_of(folder, house_changed(), "plain.json")
            self.open(viewer)
            self.at(13)
            self.assertEqual(self.browser.run(SHOWN), [False] * 3)
            self.browser.press("d")
            self.browser.choose("#file", changed)
            self.reads("#beside-name", "plain.json at 13")
            self.reads("#beside-told", "12 same, 1 changed")
            self.comes(lambda: self.browser.run(BESIDE, 50, 50), [190, 60, 50, 255])
            self.reads("#compared-with", "plain.json at 13")
            self.comes(lambda: self.text("#difference").partition(" px differ")[0], "824")
            self.browser.press("Escape", "Left", "Left", "Left")
            self.reads("#beside-name", "plain.json at 10")
            self.comes(lambda: self.text("#difference").partition(" px differ")[0], "168")
            self.browser.press("a")
            self.comes(lambda: [self.drawn(50, 50), self.browser.run(BESIDE, 50, 50)], [[60, 130, 60, 255]] * 2)
            self.browser.until("return !document.getElementById('beside-first').hidden")
            self.browser.click("#beside-first")
            self.at(9)
            self.reads("#beside-name", "plain.json at 9")
            self.reads(
                "#beside-pictures",
                "pictures first differ at 9 and 9: 168 of 6144 pixels differ, in the box 24 36 36 50",
            )
            self.browser.click("#differences .row")
            self.at(8)
            self.assertEqual(self.browser.run(SHOWN), [True] * 3)
            self.browser.click("#beside-close")
            self.assertEqual(self.browser.run(SHOWN), [False] * 3)
            self.comes(lambda: viewer.server.runs.other, None)

    def test_in_step_over_what_came(self):
        with tempfile.TemporaryDirectory() as folder, Viewer(file_of(folder, ONE)) as viewer:
            self.open(viewer)
            self.at(3)
            self.browser.choose("#file", file_of(folder, OTHER, "b.json"))
            self.reads("#beside-told", "2 same, 1 changed, 1 came")
            for key, here, there in (("Home", 0, 0), ("Right", 1, 1), ("Right", 2, 3), ("Right", 3, 4)):
                self.browser.press("Escape", key)
                self.at(here)
                self.reads("#beside-name", f"b.json at {there}")
            self.browser.click("#differences .came")
            self.at(1)
            self.reads("#beside-name", "b.json at 2")
            self.comes(lambda: self.browser.run(BESIDE, 0, 0), [5, 5, 5, 255])


@unittest.skipUnless(browser.is_installed(), "Chromium and chromedriver aren't installed")
class BesideInChromium(Beside):
    pass


@unittest.skipUnless(browser.Firefox.installed(), "Firefox isn't installed")
class BesideInFirefox(Beside):
    kind = browser.Firefox


del Beside  # it is tried in browsers alone

if __name__ == "__main__":
    unittest.main()
