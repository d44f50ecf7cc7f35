"""framedbg-blame as it is called: the hunts, findings, reports, JSON, statuses, what it keeps, and how it ends.
Pictures are the reference's."""
import json
import os
import pathlib
import pty
import signal
import subprocess
import sys
import tempfile
import threading
import time
import unittest
from unittest import mock

import folders

from blame_testing import (
    HUNTS,
    NAMES,
    PROGRAM,
    TOOLS,
    Folder,
    blend,
    box,
    capture,
    clear,
    draw,
    hunt_picture,
    launched,
    pam,
    raster,
    reference,
    told,
    value_of,
)

from full_disk import LACKING, OF_NULL, full_device, made_device

from blaming import trying
from framedbg_client import Image, read_pam

SKY, RED, GREEN, GLASS = (10, 20, 30, 255), (200, 40, 30, 255), (30, 180, 60, 255), (220, 210, 90, 120)
RIGHT = [clear(*SKY), box(2, 2, 14, 12, RED), blend(), box(6, 5, 20, 16, GLASS)]
WRONG = [*RIGHT[:2], blend(mask=6), RIGHT[3]]
# of each hunt, the events by which a person finds it: docs/HUNTS.md
GUILTY = {
    "lantern": {10, 12},
    "balloons": {11},
    "island": {11, 16},
    "fish": {12, 13},
    "planet": {8, 10},
    "lighthouse": {10},
    "vase": {9},
    "doughnut": {9},
    "chain": {8},
}
# The program, which says nothing of a capture that the tool has changed
SLOW = """#!/usr/bin/env python3
import os
import pathlib
import sys
import time
if any("framedbg-blame-" in word for word in sys.argv[1:]):
    pathlib.Path(sys.argv[0]).with_name("asked").touch()
    time.sleep(60)
os.execv(%r, ["framedbg", *sys.argv[1:]])
"""


class Hunts(Folder):
    def test_each_is_named_and_mended(self):
        for name in NAMES:
            with self.subTest(name):
                outcome = self.found(json.loads((HUNTS / f"{name}.json").read_text()), hunt_picture(name))
                self.assertTrue(outcome.is_mended, name)
                self.assertTrue(
                    GUILTY[name] & {suspect.event for suspect in outcome.suspects[:2]},
                    [suspect.event for suspect in outcome.suspects],
                )
                wanted = read_pam(hunt_picture(name)).samples
                self.assertEqual(self.drawn(outcome.changes[0].change.events), wanted)

    def drawn(self, events):
        path = self.written("again.json", self.frame.text(events))
        return read_pam(subprocess.run([PROGRAM, "image", path], capture_output=True, check=True).stdout).samples


class Findings(Folder):
    def two(self):
        """Two bugs far from each other: a glass that is opaque, and a box of another colour's order."""
        right = [clear(*SKY), box(1, 1, 9, 9, RED), box(4, 3, 11, 11, GREEN), blend(), box(40, 30, 60, 44, GLASS)]
        wrong = [right[0], right[2], right[1], blend(False), right[4]]
        return capture(wrong, 64, 48), capture(right, 64, 48)

    def test_each_place_has_its_own(self):
        outcome = self.found(*self.two())
        self.assertEqual(
            [finding["box"] for finding in value_of(outcome)["findings"]], [[40, 30, 60, 44], [4, 3, 9, 9]]
        )
        self.assertEqual([finding["pixels"] for finding in value_of(outcome)["findings"]], [280, 30])
        self.assertTrue(outcome.is_mended)
        told_ = self.report(outcome)
        self.assertEqual(told_[0], "310 of 3,072 pixels differ, in 2 places")
        self.assertIn("sure    no pixel differs after it", told_)

    def test_one_that_is_not_mended(self):
        """A draw is missing, and no event like it is there: the other place is mended all the same."""
        right = [clear(*SKY), draw((2, 2, RED), (9, 3, RED), (4, 12, RED)), blend(), box(40, 30, 60, 44, GLASS)]
        outcome = self.found(capture([right[0], blend(False), right[3]], 64, 48), capture(right, 64, 48), seconds=20.0)
        self.assertFalse(outcome.is_mended)
        first, second = value_of(outcome)["findings"]
        self.assertNotIn("change", second)
        self.assertEqual((first["box"], first["event"], first["left"]), ([40, 30, 60, 44], 2, 0))
        self.assertTrue(any(line.startswith("sure    fewer differ after it") for line in self.report(outcome)))
        self.assertFalse(any("no pixel differs" in line for line in self.report(outcome)))

    def test_a_window_is_not_the_whole(self):
        """Blending off mends the window; beside it, it spoils what no one looks at: it is not said to mend all."""
        glass = lambda at: box(at, 10, at + 40, 40, GLASS)
        right = [clear(*SKY), blend(), glass(10), blend(False), glass(500)]
        wrong = [right[0], blend(), glass(10), glass(500)]
        outcome = self.found(capture(wrong, 600, 400, 1), self.picture(capture(right, 600, 400, 1)))
        self.assertEqual((outcome.wrong, outcome.is_mended), (1200, True))
        off = [one for one in outcome.tried if one.change.says == "blending off"]
        self.assertTrue(off and all(one.is_whole and one.left == 1200 for one in off))
        self.assertFalse(any(one.change.says == "blending off" for one in outcome.changes))
        self.assertTrue({4, 2} & {suspect.event for suspect in outcome.suspects[:2]})

    def test_what_mends_is_drawn_whole_when_the_time_is_over(self):
        right = [clear(*SKY), box(10, 10, 40, 40, RED)]
        wrong = [clear(*SKY), box(10, 10, 40, 40, RED), box(20, 10, 60, 40, GLASS)]
        with mock.patch.object(trying.Trials, "is_over", lambda trials: trials.best == 0):
            outcome = self.found(capture(wrong, 600, 400, 1), self.picture(capture(right, 600, 400, 1)))
        self.assertEqual(
            (outcome.is_mended, outcome.changes[0].change.event, outcome.changes[0].is_whole), (True, 3, True)
        )

    def picture(self, made):
        """A large picture whose pixels are of few kinds: the reference asks one pixel of each run."""
        frame = reference.Frame(made)
        frame.position = len(frame.events)
        columns = [bytes(frame.replay(frame.position, x, 20)[0][0]) for x in range(frame.width)]
        bare = bytes(frame.replay(frame.position, 0, 0)[0][0]) * frame.width
        rows = [b"".join(columns) if 10 <= y < 40 else bare for y in range(frame.height)]
        return Image(frame.width, frame.height, b"".join(rows)).pam()

    def test_what_no_event_touches(self):
        outcome = self.found(capture([raster()]), capture([clear(*SKY)]))
        self.assertEqual((outcome.wrong, outcome.suspects), (24 * 18, []))
        self.assertIn("no event touches a pixel that differs", self.report(outcome)[1])

    def test_suspects_beyond_the_first(self):
        """A layer below the last of twelve, with as little evidence as the others: the list isn't cut before it."""
        layer = lambda i, interp="linear": draw(
            (1, 1, (20 * i, 90, 200, 90)),
            (23, 1, (250, 10 * i, 0, 120)),
            (23, 17, (0, 0, 99, 160)),
            (1, 17, (70, 200, 3 * i, 100)),
            interp=interp,
            indices=[0, 1, 2, 0, 2, 3],
        )
        right = [clear(*SKY), blend(), *[layer(i) for i in range(12)]]
        wrong = [*right[:12], layer(10, "flat"), right[13]]
        outcome = self.found(capture(wrong), capture(right))
        self.assertEqual(
            (outcome.is_mended, outcome.suspects[0].event, outcome.changes[0].change.says),
            (True, 13, "linear in place of flat"),
        )
        self.assertEqual({suspect.event for suspect in outcome.suspects}, set(range(1, 15)))

    def test_suspects_of_a_large_frame(self):
        """Forty layers, each as suspect as the others but the last: the one whose triangles are shaded wrong is the
        thirtieth."""
        layer = lambda i, interp="linear": draw(
            (1, 1, (6 * i, 90, 200, 90)),
            (23, 1, (250, 5 * i, 0, 120)),
            (23, 17, (0, 0, 99, 160)),
            (1, 17, (70, 200, 3 * i, 100)),
            interp=interp,
            indices=[0, 1, 2, 0, 2, 3],
        )
        right = [clear(*SKY), blend(rgb="ONE ONE ADD"), *[layer(i) for i in range(40)]]
        wrong = [*right[:31], layer(29, "flat"), *right[32:]]
        dim = lambda events: [
            event
            if event["kind"] != "draw"
            else event
            | {
                "vertices": [
                    corner | {"color": [value // 40 for value in corner["color"]]} for corner in event["vertices"]
                ]
            }
            for event in events
        ]
        outcome = self.found(capture(dim(wrong)), capture(dim(right)))
        self.assertEqual(
            (outcome.is_mended, outcome.suspects[0].event, outcome.changes[0].change.says),
            (True, 32, "linear in place of flat"),
        )

    def test_a_scissor_that_is_missing(self):
        """It is nowhere in the frame. Two boxes that it leaves are wrong; the rectangle round both, or round the one
        that there is, mends all."""
        first, cut = {"kind": "scissor", "rect": [1, 1, 5, 5]}, {"kind": "scissor", "rect": [12, 3, 23, 15]}
        for boxes in ([box(0, 0, 24, 18, GREEN)], [box(12, 3, 13, 17, GREEN), box(20, 2, 24, 18, GREEN)]):
            drawn = [
                {
                    "kind": "draw",
                    "interp": "flat",
                    "vertices": [vertex for one in boxes for vertex in one["vertices"]],
                    "indices": [4 * number + i for number, one in enumerate(boxes) for i in one["indices"]],
                }
            ]
            right = [clear(*SKY), raster(scissor=True), first, box(0, 0, 24, 18, RED), cut, *drawn]
            outcome = self.found(capture([*right[:4], *drawn]), capture(right))
            self.assertEqual(
                (outcome.is_mended, outcome.changes[0].change.event, outcome.changes[0].change.says),
                (True, 5, "with scissor 12 3 23 15"),
            )

    def test_the_event_that_a_change_stands_in_for(self):
        """The blending of the lower glass is wrong. That the one behind it is set earlier mends all too, and is
        tried first; but the event that is there says more."""
        right = [
            clear(*SKY),
            box(5, 5, 17, 13, RED),
            box(5, 5, 17, 13, GREEN),
            blend(),
            box(5, 5, 17, 13, GLASS),
            blend() | {"source": 1},
            box(4, 4, 18, 14, GLASS),
        ]
        wrong = [*right[:3], blend(rgb="SRC_ALPHA INV_SRC_ALPHA REV_SUBTRACT"), *right[4:]]
        outcome = self.found(capture(wrong), capture(right))
        self.assertIn("set before event 5", {one.change.says for one in outcome.changes if one.left == 0})
        self.assertEqual(
            (outcome.suspects[0].event, outcome.changes[0].change.event, outcome.changes[0].change.kind),
            (4, 4, "operation of blending"),
        )

    def test_the_event_whose_state_is_replaced(self):
        """Where no change of its own mends all, the event whose state another one stands in for is a suspect behind
        it."""
        right = [
            clear(*SKY),
            box(4, 4, 18, 14, RED),
            blend(),
            box(5, 5, 17, 13, GLASS),
            blend() | {"source": 1},
            box(4, 4, 18, 14, GLASS),
        ]
        wrong = [*right[:2], blend(False, "ZERO ZERO MIN", "ZERO ZERO MAX", 3), *right[3:]]
        outcome = self.found(capture(wrong), capture(right))
        self.assertEqual((outcome.is_mended, outcome.changes[0].change.event), (True, 5))
        self.assertIn(3, [suspect.event for suspect in outcome.suspects[:3]])

    def test_off_and_what_is_spoilt(self):
        """Without the box that is drawn last the ones below show, 20 pixels as they should be; 30 that were right
        aren't any more."""
        right = [clear(*SKY), box(2, 2, 12, 7, RED), box(2, 7, 12, 10, GREEN)]
        wrong = [clear(*SKY), box(2, 2, 12, 7, RED), box(2, 5, 12, 10, GREEN)]
        without = next(
            one for one in value_of(self.found(capture(wrong), capture(right)))["suspects"] if one["event"] == 3
        )["without"]
        self.assertEqual(without, {"right": 20, "wrong": 30})

    def test_when_it_shows(self):
        lines = self.report(self.found(capture(WRONG), capture(RIGHT)))
        self.assertEqual(lines[2], "who     event 3: blend 1 SRC_ALPHA INV_SRC_ALPHA ADD ONE INV_SRC_ALPHA ADD 6")
        self.assertTrue(lines[3].startswith("since   event 4, which is drawn with it: pixel "), lines)
        x, y = map(int, lines[3].split("pixel ")[1].split()[:2])
        pixel = lambda events: " ".join(map(str, reference.Frame(capture(events)).replay(4, x, y)[0][0]))
        self.assertTrue(lines[3].endswith(f"is {pixel(WRONG)} in the end, and should be {pixel(RIGHT)}"), lines[3])
        self.assertIn("        blend   1 SRC_ALPHA INV_SRC_ALPHA ADD ONE INV_SRC_ALPHA ADD 6, set by event 3", lines)
        self.assertIn("state   raster  as at the start", lines)


class Tolerances(Folder):
    def nearly(self, by, channel=0):
        """The right picture, a channel of all pixels a little off, as hardware rounds."""
        image = read_pam(pam(capture(RIGHT)))
        made = bytearray(image.samples)
        for at in range(channel, len(made), 4):
            made[at] = min(255, made[at] + by)
        return Image(image.width, image.height, bytes(made)).pam()

    def test_by_channel(self):
        same = lambda picture, tolerance: self.found(capture(RIGHT), picture, tolerance=tolerance).wrong
        self.assertEqual(same(self.nearly(0), (0, 0, 0, 0)), 0)
        for channel in range(4):
            tolerance = tuple(2 if c == channel else 0 for c in range(4))
            picture = self.nearly(2, channel) if channel < 3 else self.nearly(2, 3)
            self.assertEqual(same(picture, tolerance), 0)
            self.assertEqual(
                self.found(capture(RIGHT), self.nearly(2, 0), tolerance=(1, 9, 9, 9), seconds=0.1).wrong, 24 * 18
            )

    def test_a_driver_that_rounds_otherwise(self):
        """The driver ignored the mask, and rounds reds one up."""
        outcome = self.found(capture(WRONG), self.nearly(1), tolerance=(1, 0, 0, 0))
        self.assertEqual(
            (outcome.is_mended, outcome.changes[0].change.event, outcome.changes[0].change.says),
            (True, 3, "mask 15 in place of 6"),
        )
        self.assertIn("the driver drew as with event 3, mask 15 in place of 6", self.report(outcome, is_driver=True))

    def test_a_picture_without_alpha(self):
        """Alpha is compared where the picture has one."""
        wrong = [clear(10, 20, 30, 7), *RIGHT[1:2]]
        right = [clear(10, 20, 30, 255), *RIGHT[1:2]]
        whole = pam(capture(right))
        three = b"P6 24 18 255\n" + read_pam(whole).colours()
        self.assertEqual(self.found(capture(wrong), three).wrong, 0)
        outcome = self.found(capture(wrong), whole)
        self.assertEqual((outcome.wrong, outcome.is_mended, outcome.suspects[0].event), (24 * 18 - 120, True, 1))


class Called(Folder):
    def files(self, wrong=WRONG, right=RIGHT):
        return self.written("wrong.json", capture(wrong)), self.written("wanted.pam", pam(capture(right)))

    def test_alike(self):
        self.assertEqual(told(*self.files(RIGHT)), (0, ["no pixel differs"], ""))

    def test_one_pixel_is_told_as_one(self):
        of_one = lambda red: capture([clear(red, 20, 30, 255)], 1, 1)
        wrong, wanted = self.written("one.json", of_one(99)), self.written("one.pam", pam(of_one(10)))
        status, lines, errors = told(wrong, wanted)
        self.assertEqual((status, lines[0], errors), (1, "1 of 1 pixel differs, in 1 place", ""))
        self.assertIn("why     it drew the pixel last (1 of 1 pixel asked)", lines)

    def test_json(self):
        status, lines, errors = told(*self.files(), "--json")
        value = json.loads("\n".join(lines))
        self.assertEqual((status, errors, value["differ"], value["mended"]), (1, "", 154, True))
        self.assertEqual(
            (value["suspects"][0]["event"], value["changes"][0]),
            (3, {"event": 3, "change": "mask 15 in place of 6", "differ": 0, "kind": "write mask", "also": []}),
        )
        differ = [change["differ"] for change in value["changes"]]
        self.assertEqual(differ, sorted(differ))
        self.assertTrue(all(number < value["differ"] for number in differ))

    def test_write(self):
        kept = self.folder / "mended.json"
        self.assertEqual(told(*self.files(), "--write", kept)[0], 1)
        self.assertIsNone(reference.fault(kept.read_bytes()))
        self.assertEqual(pam(json.loads(kept.read_text())), pam(capture(RIGHT)))
        self.assertEqual(kept.stat().st_mode & 0o777, 0o644)
        self.assertEqual(told(*self.files(), "--write", self.folder / "nowhere/mended.json")[0], 3)

    def test_write_through(self):
        """What isn't a plain file stays what it is."""
        there, link, device = self.folder / "there.json", self.folder / "link.json", self.folder / "device"
        link.symlink_to(there.name)
        device.symlink_to(self.enterContext(made_device(OF_NULL)) or self.skipTest(LACKING))
        for kept in (link, device):
            self.assertEqual(told(*self.files(), "--write", kept)[::2], (1, ""))
            self.assertTrue(kept.is_symlink())
        self.assertEqual(pam(json.loads(there.read_text())), pam(capture(RIGHT)))
        with full_device() as full:
            if full:
                self.assertEqual(
                    told(*self.files(), "--write", full)[::2], (3, f"framedbg-blame: {full}: No space left on device\n")
                )

    def test_depths_of_version_1(self):
        """They are passed over, whatever they are."""
        wrong, right = (json.loads(json.dumps(capture(events, version=1))) for events in (WRONG, RIGHT))
        for depths in ("deep", None, -1, [2]):
            for event in wrong["events"]:
                for vertex in event.get("vertices", ()):
                    vertex["z"] = depths
            status, lines, errors = told(self.written("wrong.json", wrong), self.written("wanted.pam", pam(right)))
            self.assertEqual((status, errors), (1, ""), depths)
            self.assertIn("mends   event 3, mask 15 in place of 6", lines)

    def test_no_room_for_changed_captures(self):
        with mock.patch.object(tempfile, "mkstemp", side_effect=OSError(28, "No space left on device", "/tmp/x")):
            self.assertEqual(told(*self.files()), (3, [], "framedbg-blame: /tmp/x: No space left on device\n"))

    def test_nothing_stays(self):
        room = self.folder / "tmp"
        room.mkdir()
        ran = launched(*self.files(), "--program", PROGRAM, env={**os.environ, "TMPDIR": str(room)}, cwd=room)
        self.assertEqual((ran[0], list(room.iterdir())), (1, []))

    def test_what_is_at_fault(self):
        wrong, picture = self.files()
        small = self.written("small.pam", pam(capture(RIGHT, 4, 4)))
        text = self.written("text", "no picture")
        for words, status, said in (
            ((wrong, text), 2, "no picture"),
            ((wrong, small), 2, "target is 24 by 18, the picture 4 by 4"),
            ((wrong, self.folder / "nothing"), 3, "No such file"),
            ((text, picture), 2, "refused 2 not json"),
            ((self.folder / "nothing", picture), 3, "cannot read capture"),
            ((self.written("bad.json", capture([{"kind": "clear"}])), picture), 2, "refused 8 bad field 1"),
        ):
            ended = told(*words)
            self.assertEqual((ended[0], ended[1]), (status, []), words)
            self.assertIn(said, ended[2])
            self.assertEqual(ended[2].count("\n"), 1)

    def test_words(self):
        for words in (
            (),
            ("one",),
            ("--tolerance", "1,2", "a", "b"),
            ("--tolerance", "256", "a", "b"),
            ("--seconds", "0", "a", "b"),
            ("--seconds", "x", "a", "b"),
            ("--processes", "0", "a", "b"),
        ):
            status, out, errors = launched(*words)
            self.assertEqual((status, out), (2, ""), words)
            self.assertIn("framedbg-blame: ", errors)
        self.assertEqual(launched("--help")[0], 0)

    def test_nobody(self):
        self.assertEqual(told(*self.files([raster()], [clear(*SKY)]))[0], 4)

    def test_a_program_that_is_not_there(self):
        status, out, errors = launched(*self.files(), "--program", self.folder / "nothing")
        self.assertEqual((status, out, errors.count("\n")), (3, "", 1))

    def test_a_budget(self):
        """An index slip in a draw of many triangles, and no time for it: evidence at least, and it says so."""
        strip = [(x, 2 + 12 * (x % 2), (9 * x % 256, 200 - 3 * x, 80, 255)) for x in range(23)]
        order = [i for x in range(21) for i in ((x, x + 1, x + 2) if x % 2 == 0 else (x + 1, x, x + 2))]
        right, wrong = (
            [clear(*SKY), raster("none"), draw(*strip, interp="linear", indices=some)]
            for some in (order, order[:10] + order[11:])
        )
        outcome = self.found(capture(wrong), capture(right), seconds=1e-9)
        self.assertTrue(outcome.is_over and outcome.suspects)
        self.assertTrue(any("and then the time was over" in line for line in self.report(outcome)))

    def test_interrupted(self):
        """While the program is at a changed capture, and says nothing."""
        program = pathlib.Path(self.written("program", SLOW % str(PROGRAM)))
        program.chmod(0o755)
        words = [
            sys.executable,
            str(TOOLS / "framedbg-blame"),
            str(HUNTS / "doughnut.json"),
            self.written("wanted.pam", hunt_picture("doughnut")),
            "--program",
            str(program),
        ]
        signal.signal(signal.SIGINT, signal.default_int_handler)  # what is ignored here would be there too
        for number in (signal.SIGINT, signal.SIGTERM):
            with self.subTest(number):
                self.ended_by(number, words, program.with_name("asked"))

    def ended_by(self, number, words, asked):
        asked.unlink(missing_ok=True)
        with tempfile.TemporaryDirectory() as room, subprocess.Popen(
            words, stdout=subprocess.PIPE, stderr=subprocess.PIPE, env={**os.environ, "TMPDIR": room}
        ) as run:
            while not asked.exists() and run.poll() is None:
                time.sleep(0.01)
            run.send_signal(number)
            out, errors = run.communicate(timeout=30)
            self.assertEqual((run.returncode, out, errors), (130, b"", b"framedbg-blame: interrupted\n"))
            self.assertEqual(list(pathlib.Path(room).iterdir()), [])

    def test_a_run_that_begins_as_it_is_broken_off(self):
        """It is ended too, though nobody knew of it yet, and none begins where a Ctrl-C comes."""
        begun, runs, threads = threading.Event(), [], []

        class Late(subprocess.Popen):
            def __init__(self, *words, **given):
                super().__init__(*words, **given)
                runs.append(self)
                threads.append(threading.current_thread())
                begun.set()
                trials.broken_off.wait(30)

        with mock.patch.object(trying.subprocess, "Popen", Late):
            with self.assertRaises(KeyboardInterrupt), trying.Trials("", 1, 0, None) as trials:
                asked = threading.Thread(target=trials.answer, args=(["sleep", "30"],))
                asked.start()
                begun.wait(30)
                raise KeyboardInterrupt
            asked.join()
            self.assertEqual(runs[0].returncode, -signal.SIGKILL)
            with trying.Trials("", 1, 0, None) as trials:
                trials.broken_off.set()
                trials.answer(["true"])
        self.assertNotIn(threading.main_thread(), threads)

    def test_progress_on_a_terminal(self):
        ours, theirs = pty.openpty()
        words = [sys.executable, str(TOOLS / "framedbg-blame"), *self.files(), "--program", PROGRAM]
        with subprocess.Popen(words, stdout=subprocess.PIPE, stderr=theirs) as run:
            os.close(theirs)
            out = run.communicate(timeout=60)[0]
        shown = os.read(ours, 65536).decode()
        os.close(ours)
        self.assertRegex(shown, r"^\r\x1b\[K\d+ changes tried, after the best of them \d+ pixels? differ")
        self.assertTrue(shown.endswith("\r\x1b[K"))
        self.assertNotIn(b"\x1b", out)

    def test_a_capture_that_drives_the_terminal(self):
        made = capture([{"kind": "marker", "name": "x\u009b2J"}, *WRONG])
        status, lines, _ = told(self.written("wrong.json", made), self.written("wanted.pam", pam(capture(RIGHT))))
        self.assertEqual(status, 1)
        self.assertTrue(all(line.isprintable() for line in lines))


if __name__ == "__main__":
    unittest.main()
