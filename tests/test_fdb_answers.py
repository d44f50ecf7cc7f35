"""fdb without a terminal: what its words answer, and the images that it shows and writes. What is expected comes from
docs/FORMATS.md, from the replies in examples/, which build/reference.py made, and from captures that are worked out
by hand."""
import base64
import io
import re
import stat
import unittest
import zlib

import folders

from fdb_testing import EXAMPLES, HOUSE, HUNTS, PROGRAM, Folder, batch, cells, stand_in, unsixeled
from full_disk import LACKING, OF_NULL, made_device
from test_client import sessions, shown_house

from debugger import drawing
from debugger.faults import Slip
from debugger.frame import DebuggedFrame
from debugger.screen import Screen
from debugger.session import Session
from debugger.telling import PLAIN
from debugger.words import WORDS
from framedbg_client import Client, Image, read_pam
from framedbg_client.replies import lines_of
from writing import files


class Answers(Folder):
    def test_histories_and_pixels(self):
        expected = (EXAMPLES / "house_find.expected").read_text().splitlines()
        at = expected.index("history 4")
        self.assertEqual(
            self.told(["who 50 50", "p 50 50", "print 50 50"], capture=HOUSE),
            expected[at : at + 5] + [expected[at - 1]] * 2,
        )
        self.assertEqual(
            self.told(["who 96 0", "p 0 64", "who 0 0"], "--at", "0", capture=HOUSE),
            ["refused 6 no such pixel"] * 2 + ["history 0"],
        )

    def test_states_and_who_set_them(self):
        told = self.told(["i", "off 2", "i", "g 1", "i", "info"])
        start = [
            "scissor 0 0 0 0 as at the start",
            "blend 0 ONE ZERO ADD ONE ZERO ADD 15 as at the start",
            "factor 255 255 255 255 as at the start",
        ]
        self.assertEqual(
            told,
            [
                "raster none 0 0 set by 2",
                *start,
                "at 6",
                "raster back 0 0 as at the start",
                *start,
                "at 1",
                "1 on clear 10 20 30 40",
            ]
            + ["raster back 0 0 as at the start", *start] * 2,
        )
        told = self.told(["i", "g 7", "i", "off 8", "i"], capture=HUNTS / "chain.json")
        self.assertEqual(
            [line for line in told if line.startswith("depth")],
            ["depth 1 1 GREATER set by 8", "depth 1 1 LESS set by 4", "depth 1 1 LESS set by 4"],
        )
        self.assertEqual(self.told(["g 2", "i"])[2], "raster none 0 0 set by 2")  # what the event here has just set

    def test_draws_with_pictures(self):
        """What a picture discards is told as framedbg tells it, and is no change: neither a watched pixel nor `last`
        stops there."""
        tested, blended = EXAMPLES / "picture_tested.json", EXAMPLES / "picture_blended.json"
        expected = (EXAMPLES / "picture_tested.expected").read_text().splitlines()
        at = [i for i, line in enumerate(expected) if line == "history 3"][1]
        self.assertEqual(self.told(["who 0 1"], capture=tested), expected[at : at + 4])
        self.assertEqual(self.told(["l 3 4"], capture=tested), ["3 on draw 1 picture", "4 on draw 1 flat"])
        self.assertEqual(self.told(["last 1 1", "g 3", "last 1 0"], capture=blended)[0], "at 1")
        self.assertEqual(self.told(["last 0 1"], capture=tested), ["at 2", "2 on draw 2 flat", expected[at + 1]])
        stops = [
            line
            for line in self.told(["watch 1 1", "c", "c"], "--at", "0", capture=blended)
            if line.startswith(("at", "pixel", "no "))
        ]
        self.assertEqual(stops, ["pixel 1 1 from 0 0 0 0 to 100 100 100 100", "at 1", "no breakpoint after 1", "at 3"])

    def test_a_later_event_hides_an_earlier_one(self):
        told = self.told(["i"], capture=HUNTS / "island.json")
        self.assertEqual(told[:2], ["raster none 0 1 set by 11", "scissor 82 4 116 30 set by 10"])

    def test_lists(self):
        events = [
            f"{i} on {line}"
            for i, line in enumerate(
                [
                    "clear 10 20 30 40",
                    "raster none 0 0",
                    "draw 2 flat",
                    "clear 1 2 3 4",
                    "marker again",
                    "clear 1 2 3 4",
                ],
                1,
            )
        ]
        self.assertEqual(self.told(["l"], "--at", "0"), events[:5])
        self.assertEqual(self.told(["list 3 4", "l 9", "l 5 99"]), events[2:4] + events[3:] + events[4:])
        self.assertEqual(
            self.told(["i off", "off 2 4", "info off", "on 4 2", "i off"]),
            ["all events are on", "at 6", "2 off raster none 0 0", "4 off clear 1 2 3 4", "at 6", "all events are on"],
        )

    def test_several_switches(self):
        with Client(self.steps(), PROGRAM) as client:
            session = Session(DebuggedFrame(client), PLAIN, Screen(io.StringIO(), {}))
            session.execute("off 2 3 3")
            for line in ("off 1 7", "off 4 0", "off 4 2", "on 2 5", "off 4 x"):
                self.assertRaises(Slip, session.execute, line)
                self.assertEqual(client.off, {2, 3}, line)
            session.execute("on 3 2")
            self.assertEqual(client.off, set())

    def test_undone(self):
        told = [
            line
            for line in self.told(
                ["g 3", "off 4 5", "g 6", "p 1 0", "undo", "i off", "undo", "i off", "undo", "step", "undo"],
                "--at",
                "1",
            )
            if not line.startswith(tuple("123456"))
        ]
        self.assertEqual(
            told, ["at 3", "at 3", "at 6", "pixel 1 2 3 4", "at 3", "at 3", "all events are on", "at 1", "at 2", "at 1"]
        )
        self.assertEqual(
            batch(self.steps(), ["p 1 0", "undo"])[2], "fdb: standard input:2: there is nothing to take back\n"
        )
        script = self.written("go.fdb", "g 2\ng 4\noff 5\n")
        told = self.told(["g 1", f"source {script}", "undo", "i off", "undo"])
        self.assertEqual([line for line in told if line.startswith("a")][-3:], ["at 1", "all events are on", "at 6"])

    def test_differences(self):
        self.assertEqual(
            self.told(["d 1 3", "d 3 1", "d 6 4", "s"]),
            [
                "raster: back 0 0 as at the start, and then none 0 0 set by 2",
                "images: 2 of 8 pixels differ, in the box 0 0 2 1",
                "most at 0 0: 10 20 30 40, and then 200 100 50 255",
                "raster: none 0 0 set by 2, and then back 0 0 as at the start",
                "images: 2 of 8 pixels differ, in the box 0 0 2 1",
                "most at 0 0: 200 100 50 255, and then 10 20 30 40",
                "states: the same",
                "images: the same",
                "refused 1 at end",
            ],
        )
        for line in ("d 1", "d 1 7", "d 1 2 3", "diff x 1"):
            self.assertEqual(batch(self.steps(), [line])[0], 1, line)

    def test_each_line_of_framedbg(self):
        """Every session of the examples, typed to fdb at position 0, is answered as framedbg answers it, with images
        left out."""
        for name, capture in sessions():
            expected = lines_of((EXAMPLES / f"{name}.expected").read_bytes())
            self.assertEqual(
                self.told((EXAMPLES / f"{name}.session").read_text().splitlines(), "--at", "0", capture=capture),
                expected,
                name,
            )
        told = self.told(["goto 13", "show", "state x", "goto", "events"], capture=HOUSE)
        self.assertEqual(
            told[:5], ["at 13", f"pam {len(shown_house())}", "bad 2 arguments", "bad 2 arguments", "events 13 at 13"]
        )

    def test_help(self):
        listed = "\n".join(self.told(["help"]))
        for word in WORDS.listed:
            self.assertIn(word.usage, listed)
            told = self.told([f"help {word.name}"]) + self.told([f"h {word.also[0]}" if word.also else "h h"])
            self.assertTrue(told[0].startswith(word.usage) and word.short in told[1], told)
        for name in ("step", "back", "goto", "pixel", "history", "state", "events", "show", "quit"):
            self.assertIn("framedbg's own", self.told([f"help {name}"])[0])
        names = "s rs n rn c rc b watch g tbreak disable enable undo finish reverse-finish mark marks who last first "
        names += "p i l off on d look save set move there keep drop source expect help"
        for name in names.split():
            self.assertIn(name, WORDS.named)

    def test_slips(self):
        for slip, near in (
            ("stpe", "step"),
            ("whoo", "who"),
            ("histroy", "history"),
            ("contineu", "continue"),
            ("reverse-stp", "reverse-step"),
            ("lokk", "look"),
            ("xpect", "expect"),
        ):
            self.assertEqual(
                batch(self.steps(), [slip])[2], f"fdb: standard input:1: no such word: {slip}; did you mean {near}?\n"
            )
        self.assertEqual(
            batch(self.steps(), ["a\x1b[2Jb"])[2], "fdb: standard input:1: no such word: a\\x1b[2Jb; help lists them\n"
        )
        self.assertEqual(batch(self.steps(), ["zzz"])[2], "fdb: standard input:1: no such word: zzz; help lists them\n")
        self.assertEqual(
            self.told(["cont", "reverse-s"])[-2:], ["at 5", "5 on marker again"]
        )  # a beginning is enough where there is one word with it
        self.assertEqual(batch(self.steps(), ["reverse"])[0], 1)


class Pictures(Folder):
    def test_saved(self):
        png, pam = self.folder / "a house.png", self.folder / "house.PAM"
        self.assertEqual(self.told([f"save {png}", f"save {pam}"], capture=HOUSE), [f"saved {png}", f"saved {pam}"])
        self.assertEqual(pam.read_bytes(), shown_house())
        self.assertEqual(png.read_bytes(), read_pam(shown_house()).png())
        self.assertEqual(stat.S_IMODE(png.stat().st_mode), 0o666 & ~files.umask())

    def test_a_device_stays(self):
        path = self.folder / "device.png"
        path.symlink_to(self.enterContext(made_device(OF_NULL)) or self.skipTest(LACKING))
        self.assertEqual(self.told([f"save {path}"]), [f"saved {path}"])
        self.assertEqual((path.is_symlink(), stat.S_ISCHR(path.stat().st_mode)), (True, True))

    def test_nothing_is_lost(self):
        path = self.written("kept.png", "before")
        self.assertEqual(
            batch(
                self.steps(),
                [f"save {path}"],
                "--program",
                str(stand_in(self.folder)),
                ASKED=str(self.folder / "asked"),
                END="show",
            )[0],
            5,
        )
        self.assertEqual(path.read_text(), "before")
        for line in (
            "save",
            "save x",
            f"save {self.folder}/x.json",
            f"save {self.folder}/none/x.png",
            f"save {self.folder}",
            "save ~nobody_is_called_so/x.png",
            "save a\0b.png",
        ):
            status, _, errors = batch(self.steps(), [line])
            self.assertEqual((status, errors.count("\n")), (1, 1), line)
        self.assertEqual(
            sorted(path.name for path in self.folder.iterdir()), ["asked", "kept.png", "standing_in", "steps.json"]
        )

    def image(self):
        """Four by three: each pixel's red is its column, and its green its row."""
        return Image(4, 3, bytes(value for y in range(3) for x in range(4) for value in (60 * x, 60 * y, 0, 9)))

    def test_views(self):
        image = self.image()
        views = [
            (drawing.whole(image, 4, 3), (0, 0, 4, 3, 1, 1)),
            (drawing.whole(image, 9, 7), (0, 0, 8, 6, 2, 1)),
            (drawing.whole(image, 3, 9), (0, 0, 2, 2, 1, 2)),
            (drawing.whole(image, 99, 1), (0, 0, 2, 1, 1, 3)),
            (drawing.part(image, (3, 1), 3, 6, 6), (2, 0, 6, 6, 3, 1)),
            (drawing.part(image, (0, 2), 99, 5, 4), (0, 2, 4, 4, 4, 1)),
        ]
        for view, (left, top, columns, rows, zoom, every) in views:
            self.assertEqual(view, drawing.View(left, top, columns, rows, zoom, every))
        self.assertEqual(
            drawing.grid(image, views[4][0]),
            [[(60 * x, 60 * y, 0) for x in (2, 2, 2, 3, 3, 3)] for y in (0, 0, 0, 1, 1, 1)],
        )
        self.assertEqual(drawing.grid(image, views[2][0]), [[(60 * x, 60 * y, 0) for x in (0, 2)] for y in (0, 2)])

    def test_half_blocks(self):
        rows = drawing.grid(self.image(), drawing.whole(self.image(), 4, 3))
        lines = drawing.half(rows).split("\n")
        self.assertEqual(cells(lines[0]), [((60 * x, 0, 0), (60 * x, 60, 0)) for x in range(4)])
        self.assertEqual(cells(lines[1]), [((60 * x, 120, 0), None) for x in range(4)])

    def test_letters(self):
        dark, light = (0, 0, 0), (255, 255, 255)
        self.assertEqual(
            drawing.letters([[dark, light, light], [light] * 3, [light, dark, dark], [dark] * 3]), " @@\n@"
        )

    def test_kitty(self):
        rows = [[(x, y, 7) for x in range(90)] for y in range(70)]
        pieces = re.findall(r"\x1b_G(.*?);(.*?)\x1b\\", drawing.kitty(rows), re.S)
        self.assertEqual(pieces[0][0].split(",")[:5], ["a=T", "f=24", "o=z", "s=90", "v=70"])
        self.assertEqual([head[-3:] for head, _ in pieces], ["m=1"] * (len(pieces) - 1) + ["m=0"])
        self.assertTrue(all(len(data) <= 4096 for _, data in pieces))
        self.assertEqual(
            zlib.decompress(base64.b64decode("".join(data for _, data in pieces))),
            bytes(value for row in rows for colour in row for value in colour),
        )

    def test_sixel(self):
        for rows in (
            [[(255 * (x % 2), 51 * y, 0) for x in range(9)] for y in range(4)],
            [[(0, 0, 0)] * 5 for _ in range(13)],
        ):
            self.assertEqual(
                unsixeled(drawing.sixel(rows)),
                [[tuple(round(value * 100 / 255) for value in colour) for colour in row] for row in rows],
            )
        many = [[(x, y, x ^ y) for x in range(40)] for y in range(20)]
        for row, seen in zip(many, unsixeled(drawing.sixel(many))):
            for colour, hundredths in zip(row, seen):
                self.assertLessEqual(max(abs(a - b * 2.55) for a, b in zip(colour, hundredths)), 27)

    def test_shown_without_colours(self):
        """Letters: the lower half of the house's frame is green, and darker than the sky."""
        told = self.told(["look", "look 3 4 1"], capture=HOUSE)
        self.assertEqual(len(told[0]), 48)
        self.assertEqual(told[16], "columns 0 to 94, rows 0 to 62, one pixel of 2 in each direction")
        self.assertEqual(told[-1], "columns 0 to 79, rows 0 to 43, each pixel 1 times")
        self.assertEqual(
            batch(HOUSE, ["look"], FDB_LOOK="vt100")[2],
            "fdb: standard input:1: FDB_LOOK is one of kitty, sixel, half, letters, and not vt100\n",
        )
        for line in ("look 1", "look 96 0", "look 1 1 0", "look 1 1 65", "look a b"):
            self.assertEqual(batch(HOUSE, [line])[0], 1, line)


if __name__ == "__main__":
    unittest.main()
