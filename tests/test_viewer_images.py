"""The viewer without a browser: the images that its server sends, whole, in parts, as changed rows, and those near."""
import json
import random
import struct
import tempfile
import unittest
from unittest import mock

import folders

from page import runs as chance
from viewer_testing import EXAMPLES, HOLDING, PROGRAM, Viewer, capture_of, file_of, image, program_of, replies
from viewer import image as viewer_image, nearby as viewer_nearby, session as viewer_session
from viewer.capture import Capture
from viewer.session import Ended, Session

HOUSE = EXAMPLES / "house.json"


class ChangedRows(unittest.TestCase):
    def test_the_rows_that_changed(self):
        """Put over the image before they are the image, whatever the moves were."""
        with Viewer(HOUSE) as viewer:
            base, whole, few = 0, None, 0
            for position in (0, 13, 12, 3, 4, 4, 6, 11, 10, 11, 13, 0):
                told, data = self.shown(viewer, position, base)
                own = viewer.session.answer([b"show"])[1][0]
                if "bands" in told:
                    self.assertEqual(told["base"], base)
                    self.assertEqual(sum(count for _, count in told["bands"]) * 96 * 4, len(data))
                    for first, count in told["bands"]:
                        whole = whole[: 384 * first] + data[: 384 * count] + whole[384 * (first + count) :]
                        data = data[384 * count :]
                    few += 1
                else:
                    whole = data
                self.assertEqual(whole, own)
                base = told["number"]
            self.assertGreaterEqual(few, 6)
            self.assertEqual(self.shown(viewer, 13, base)[0]["bytes"], 96 * 64 * 4)  # all but nothing is another

    def test_another_base(self):
        """A page that has another image gets all of it, and so does one that looks at another part."""
        with Viewer(HOUSE) as viewer:
            number = self.shown(viewer, 13, 0)[0]["number"]
            for base, window in ((0, None), (99, None), (number, (0, 0, 9, 9))):
                told, data = self.shown(viewer, 12, base, window)
                self.assertNotIn("bands", told)
                number = told["number"]
            left = self.shown(viewer, 0, 0, (0, 0, 40, 64))[0]["number"]
            self.assertNotIn("bands", self.shown(viewer, 0, left, (40, 0, 80, 64))[0])  # of the same bytes

    def test_a_picture_that_was_not_sent(self):
        """The rows that changed are those since the last one that was."""
        with Viewer(HOUSE) as viewer:
            told, whole = self.shown(viewer, 10, 0)
            viewer.session.answer([b"goto 11", b"show"])
            told, data = self.shown(viewer, 10, told["number"])
            self.assertEqual((told.get("bands"), data), ([], b""))
            viewer.session.answer([b"goto 11", b"show"])
            told, data = self.shown(viewer, 11, told["number"])
            self.assertEqual(whole[: 384 * 36] + data + whole[384 * 60 :], viewer.session.answer([b"show"])[1][0])

    def shown(self, viewer, position, base, window=None):
        given = {"X_Window": " ".join(map(str, window))} if window else {}
        told, _, data = viewer.request(body=b"goto %d\nshow\n" % position, X_Base=str(base), **given)[2].partition(
            b"\n"
        )
        return json.loads(told)["replies"][1]["image"], data


class NearPictures(unittest.TestCase):
    """The picture of a position near the last one, put together from the pixels that may be others: byte for byte
    the one that framedbg writes."""

    def walk(self, file, events, dice, moves):
        """How many of the pictures on a way by chance weren't asked for as a whole; events are switched on it, and
        parts of the target looked at."""
        capture, near = Capture(file), 0
        session, own = Session(PROGRAM, str(file), 1, capture.boxes_between), Session(PROGRAM, str(file), 1)
        self.addCleanup(session.close)
        self.addCleanup(own.close)
        position, window = events, None
        for _ in range(moves):
            others = [position + by for by in (-1, 1, 1, -3, 5)]
            position = max(0, min(events, dice.choice((*others, dice.randrange(events + 1)))))
            if dice.random() < 0.1:
                window = dice.choice((None, (3, 2, 20, 19), (0, 0, 11, 30), (0, 0, 32, 28, 2), (3, 2, 20, 19, 3)))
            number = (
                dice.choice(sorted(session.off))
                if session.off and dice.random() < 0.5
                else dice.randrange(1, events + 1)
            )
            switch = [b"%s %d" % (b"on" if number in session.off else b"off", number)]
            if dice.random() < 0.1:
                session.answer(switch)
                own.answer(switch)
            looked = [*switch, b"goto %d" % (number - 1), b"show", b"goto %d" % number, b"show"]
            lines = [*(looked if dice.random() < 0.1 else []), b"goto %d" % position, b"show", b"show"]
            (replies, images, _), (wanted, theirs, _) = session.answer(lines, window), own.answer(lines, window)
            self.assertEqual([reply["text"] for reply in replies], [reply["text"] for reply in wanted])
            self.assertEqual([bytes(image) for image in images], [bytes(image) for image in theirs], lines)
            near += "since" in replies[-2]["image"]
        return near

    def test_they_are_the_program_s(self):
        dice, near = random.Random(11), 0
        with tempfile.TemporaryDirectory() as folder:
            for _ in range(24):
                events = [
                    event
                    for event in (chance.event(dice, 32, 28, 3) for _ in range(60))
                    if event["kind"] != "clear" or dice.random() < 0.2
                ]
                for event in events:
                    if event["kind"] == "draw" and dice.random() < 0.8:
                        self.make_small(dice, event)
                near += self.walk(file_of(folder, capture_of(32, 28, events, 3)), len(events), dice, 40)
        self.assertGreater(near, 200)

    def test_a_switch_in_the_same_call(self):
        """What a call switches on is drawn in its pictures, also in those near each other."""
        corners = [{"x": x << 16, "y": y << 16, "color": [9, 9, 9, 255]} for x, y in ((0, 0), (5, 0), (0, 5))]
        events = [{"kind": "clear", "color": [1, 2, 3, 4]}, {"kind": "draw", "interp": "flat", "vertices": corners}]
        with tempfile.TemporaryDirectory() as folder:
            file = file_of(folder, capture_of(9, 9, events))
            near, own = (Session(PROGRAM, str(file), 1, boxes) for boxes in (Capture(file).boxes_between, None))
            for session in (near, own):
                self.addCleanup(session.close)
                session.answer([b"off 2"])
            lines = [b"on 2", b"goto 1", b"show", b"goto 2", b"show"]
            pictures, theirs = ([bytes(image) for image in session.answer(lines)[1]] for session in (near, own))
            self.assertEqual(pictures, theirs)
            self.assertNotEqual(*pictures)

    def make_small(self, dice, event):
        """Its corners near each other, some on the middles of pixels and beside them."""
        left, top = dice.randrange(-3, 32), dice.randrange(-3, 28)
        place = (
            lambda start: (start << 16)
            + dice.choice((0, 32768, 32768 - 128, 32768 + 128, 32768 - 129, 32768 + 129, dice.randrange(65536)))
            + (dice.randrange(4) << 16)
        )
        for vertex in event["vertices"]:
            vertex.update(x=place(left), y=place(top))
        if dice.random() < 0.3:  # edges at the left and at the top that are moved onto the middles of pixels
            x, y = ((start << 16) + 32768 + 128 for start in (left, top))
            for i, vertex in enumerate(event["vertices"]):
                vertex.update(x=x + (3 << 16) * (i % 3 == 1), y=y + (3 << 16) * (i % 3 == 2))

    def test_each_pixel_once(self):
        """Of boxes that meet, lie inside of each other or beside each other, or have no pixels; of a part those that
        are kept, in lines that fit any pipe."""
        dice, boxes = random.Random(5), [(0, 0, 9, 3), (2, 1, 5, 2), (9, 0, 11, 2), (20, 0, 20, 9), (3, 3, 4, 3)]
        for some in [boxes] + [
            [
                (x, y, x + dice.randrange(6), y + dice.randrange(4))
                for x, y in ((dice.randrange(9), dice.randrange(6)) for _ in range(5))
            ]
            for _ in range(50)
        ]:
            inside = {
                (y, x) for left, top, right, bottom in some for y in range(top, bottom) for x in range(left, right)
            }
            for window in ((0, 0, 640, 480), (2, 1, 8, 7), (1, 2, 9, 9, 2), (0, 0, 640, 480, 3)):
                near = viewer_nearby.Nearby(lambda *_: some)
                near.keep(1, "", viewer_image.kept_part(640, 480, window), b"")
                runs, (left, top, right, bottom, every) = near.places(2, (), window), (*window, 1)[:5]
                lines = list(near.lines(runs))
                kept = sorted(
                    (y, x)
                    for y, x in inside
                    if left <= x < right and top <= y < bottom and (x - left) % every == (y - top) % every == 0
                )
                self.assertEqual(
                    [line for text, _ in lines for line in text.split(b"\n")],
                    [b"pixel %d %d" % (x, y) for y, x in kept],
                )
                self.assertEqual([count for _, count in lines], [text.count(b"\n") + 1 for text, _ in lines])

    def test_lines_that_fit_any_pipe(self):
        """Some at a time, however long a row is; of a target one pixel in so many at most, or the whole image comes."""
        near = viewer_nearby.Nearby(lambda *_: [(100, 3, 900, 8)])
        near.keep(1, "", viewer_image.kept_part(1024, 2048, None), b"")
        lines = list(near.lines(near.places(2, (), None)))
        self.assertEqual([count for _, count in lines], [256] * 15 + [160])
        self.assertTrue(all(len(text) < 4096 for text, _ in lines))
        for side, is_near in ((2000, True), (1999, False)):  # 4,000 pixels are one in 512, or more
            near.keep(1, "", viewer_image.kept_part(1024, side, None), b"")
            self.assertEqual(near.places(2, (), None) is not None, is_near)

    def test_a_run_that_ends_amid_pixels(self):
        """Its picture isn't put together of fewer."""
        few = (
            HOLDING.replace(
                '    elif word == "pixel":\n',
                '    elif word == "pixel" and rest[0] == "7":\n        break\n    elif word == "pixel":\n',
            )
            .replace("pam 69", "pam 321")
            .replace("WIDTH 1\\", "WIDTH 8\\")
        )
        few = few.replace("HEIGHT 1\\", "HEIGHT 8\\").replace("chr(position) * 4", "chr(position) * 256")
        with tempfile.TemporaryDirectory() as folder:
            session = Session(program_of(few, folder), str(HOUSE), 1, lambda *_: [(0, 0, 8, 8)])
            self.addCleanup(session.close)
            session.answer([b"goto 1", b"show"])
            with self.assertRaises(Ended):
                session.answer([b"goto 2", b"show"])

    def test_few_lines_are_asked(self):
        """Of a draw one for each pixel of its box, 32 by 24, and of state events, or of what is off, none at all."""
        with Viewer(HOUSE) as viewer:

            def lines(*asked):
                before = viewer.session.lines
                viewer.ask(*asked, "show")
                return viewer.session.lines - before - len(asked)

            self.assertEqual([lines(f"goto {position}") for position in (10, 11, 10)], [1, 32 * 24, 32 * 24])
            self.assertEqual([lines("off 11", "goto 10"), lines("goto 11"), lines("goto 10")], [1, 0, 0])
            self.assertEqual([lines("on 11", "goto 8"), lines("goto 7"), lines("goto 8")], [1, 0, 0])

    def test_the_triangles_of_a_draw_by_themselves(self):
        """Of one of two triangles far from each other only their pixels are asked for; of one of many all that lies
        between."""
        place = lambda x, y: [
            {"x": (x + dx) << 16, "y": (y + dy) << 16, "color": [9, 9, 9, 255]} for dx, dy in ((0, 0), (4, 0), (0, 3))
        ]
        two = {"kind": "draw", "interp": "flat", "vertices": place(2, 1) + place(90, 50)}
        many = {**two, "vertices": two["vertices"] * 33}
        with tempfile.TemporaryDirectory() as folder:
            capture = Capture(file_of(folder, capture_of(96, 64, [two, many])))
            self.assertEqual(sorted(capture.boxes_between(0, 1)), [(2, 1, 6, 4), (90, 50, 94, 53)])
            self.assertEqual(capture.boxes_between(1, 2), [(2, 1, 94, 53)])
            self.assertEqual(capture.boxes_between(0, 2, {1}), [(2, 1, 94, 53)])

    def test_another_file(self):
        """Where the file may not be what framedbg has read, nothing is known of its events."""
        with tempfile.TemporaryDirectory() as folder:
            file = file_of(folder, HOUSE.read_text())
            capture = Capture(file)
            self.assertEqual(
                [capture.boxes_between(*way) for way in ((7, 8), (10, 11), (8, 8))], [[], [(44, 36, 76, 60)], []]
            )
            file.write_text(HOUSE.read_text() + " ")
            self.assertEqual([capture.boxes_between(*way) for way in ((7, 8), (10, 11))], [None, None])
            self.assertIsNone(Capture("no capture").boxes_between(7, 8))

    def test_a_run_without_lines_left(self):
        """Another stands in its place, with the same events off."""
        with mock.patch.object(viewer_session, "MOST_LINES", 2000), mock.patch.object(
            viewer_nearby, "MOST_PIXELS", 800
        ), Viewer(HOUSE) as viewer:
            viewer.ask("off 8")
            processes = set()
            for *others, position in (
                (13,),
                (11,),
                (10, 11),
                (10,),
                (11,),
                (10,),
                (11,),
                (10, 11),
            ):  # each picture beside the last one is 768 lines
                told = viewer.ask(
                    *(line for other in others for line in (f"goto {other}", "show")),
                    f"goto {position}",
                    "pixel 50 50",
                    "show",
                )[0]["replies"]
                self.assertEqual(told[-2]["text"], "pixel 190 60 50 128" if position > 10 else "pixel 60 130 60 255")
                processes.add(viewer.session.run.pid)
                self.assertLessEqual(viewer.session.lines, 2000)
            self.assertGreater(len(processes), 1)
            self.assertEqual(viewer.ask("state")[0]["switches"], [2, 2])

    def test_the_next_run_is_begun_before(self):
        """It stands where the other one stood, and what was switched meanwhile is switched there too."""
        with mock.patch.object(viewer_session, "MOST_LINES", 4000), mock.patch.object(
            viewer_session, "BEGUN_BEFORE", 2000
        ), Viewer(HOUSE) as viewer:
            session, lines = viewer.session, [f"pixel {i % 96} {i // 96}" for i in range(1500)]
            viewer.ask("off 8", "off 12", "goto 11")
            viewer.ask(*lines)
            self.assertIsNone(session.begun)
            viewer.ask(*lines)
            first, begun = session.run.pid, session.begun[0].process.pid
            viewer.ask("on 12", "off 10", "off 3", "goto 9")
            self.assertEqual((session.run.pid, session.begun[0].process.pid), (first, begun))
            told, _ = viewer.ask("goto 13", *lines, "events")
            self.assertEqual((session.run.pid, session.begun), (begun, None))
            self.assertEqual(
                [reply["text"] for reply in told["replies"][1:-1]],
                replies(HOUSE, ["off 3", "off 8", "off 10", "goto 13", *lines])[4:],
            )
            self.assertEqual(
                [line.split()[0] for line in told["replies"][-1]["lines"] if line.split()[1] == "off"], ["3", "8", "10"]
            )
            self.assertEqual(told["switches"], [6, 6])
            viewer.ask(*lines)
            ended = session.begun[0].process
        self.assertIsNotNone(ended.poll())


class Rows:
    """A PAM of a square target, made row by row as it is read: at each pixel its column and its row, of 16 bits
    each."""

    def __init__(self, side):
        self.side, self.row = side, 0
        self.blank = bytes(4 * side)
        self.header = iter(
            f"P7\nWIDTH {side}\nHEIGHT {side}\nDEPTH 4\nMAXVAL 255\nTUPLTYPE RGB_ALPHA\nENDHDR\n".encode().splitlines(
                True
            )
        )

    def readline(self):
        return next(self.header)

    def read(self, size):
        rows, rest = divmod(size, 4 * self.side)
        assert rest == 0
        y, self.row = self.row, self.row + rows
        return b"".join(
            self.blank if row < self.side - 9 else b"".join(struct.pack("<HH", x, row) for x in range(self.side))
            for row in range(y, y + rows)
        )


class Parts(unittest.TestCase):
    """What is kept of an image that is too large, or of which a window is wanted."""

    def kept(self, viewer, window=None):
        told, pixels = viewer.ask("goto 13", "show", window=window)
        return told["replies"][1]["image"], pixels

    def expected(self, samples, part):
        at = lambda x, y: samples[4 * (y * 96 + x) : 4 * (y * 96 + x) + 4]
        places = [
            (part["left"] + c * part["every"], part["top"] + r * part["every"])
            for r in range(part["rows"])
            for c in range(part["columns"])
        ]
        return b"".join(bytes(at(x, y)) for x, y in places)

    def test_parts_of_an_image(self):
        samples, _ = image(HOUSE)
        with Viewer(HOUSE) as viewer:
            part, pixels = self.kept(viewer)
            self.assertEqual((part["columns"], part["rows"], part["every"], pixels), (96, 64, 1, bytes(samples)))
            cases = [
                (6144, None, 96, 64, 1),
                (6143, None, 48, 32, 2),
                (100, None, 12, 8, 8),
                (6144, (10, 20, 31, 25), 21, 5, 1),
                (30, (10, 20, 31, 25), 7, 2, 3),
                (6144, (90, 60, 200, 200), 6, 4, 1),
                (6144, (500, 500, 600, 600), 1, 1, 1),
                (6144, (5, 5, 5, 5), 1, 1, 1),
                (6144, (0, 0, 96, 64, 3), 32, 22, 3),
                (6144, (10, 20, 31, 25, 2), 11, 3, 2),
                (30, (10, 20, 31, 25, 2), 7, 2, 3),
                (6144, (0, 0, 96, 64, 0), 96, 64, 1),
                (6144, (9, 9, 96, 64, 500), 1, 1, 500),
            ]
            for most, window, columns, rows, every in cases:
                with mock.patch.object(viewer_image, "MOST_PIXELS", most):
                    part, pixels = self.kept(viewer, window)
                self.assertEqual(
                    (part["width"], part["height"], part["columns"], part["rows"], part["every"]),
                    (96, 64, columns, rows, every),
                    (most, window),
                )
                self.assertLessEqual(columns * rows, most)
                self.assertEqual(pixels, self.expected(samples, part), (most, window))

    def test_a_corner_of_the_largest_image(self):
        window = (16384 - 5, 16384 - 3, 16384, 16384)
        part, pixels = viewer_image.read_image(Rows(16384), 0, window)
        self.assertEqual((part["columns"], part["rows"], part["every"]), (5, 3, 1))
        self.assertEqual(
            pixels, b"".join(struct.pack("<HH", x, y) for y in range(window[1], 16384) for x in range(window[0], 16384))
        )

    def test_the_largest_target(self):
        part = viewer_image.kept_part(16384, 16384, None)
        self.assertEqual((part["columns"], part["rows"], part["every"]), (2048, 2048, 8))
        part = viewer_image.kept_part(16384, 16384, (16000, 3000, 17000, 3500))
        self.assertEqual(
            (part["left"], part["top"], part["columns"], part["rows"], part["every"]), (16000, 3000, 384, 500, 1)
        )


if __name__ == "__main__":
    unittest.main()
