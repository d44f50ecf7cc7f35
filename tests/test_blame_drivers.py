"""framedbg-blame where the picture is a driver's: one thing in all events of a kind, and events judged alone. Pictures
are the reference's."""
import json
import unittest

import folders

from blame_testing import Folder, blend, box, capture, clear, depth, draw, pam, raster, told

from blaming.kinds import Case, changes_of, for_drivers
from framedbg_client import Image, read_pam

SKY, RED, GREEN, BLUE = (10, 20, 30, 255), (200, 40, 30, 255), (30, 180, 60, 255), (40, 60, 200, 255)
GLASS, OTHER_GLASS = (220, 210, 90, 120), (20, 90, 160, 200)
FARTHEST = {"kind": "depth_clear", "depth": 65535}
ALPHA_ALONE = "the alpha part like the colour part in all 2 blend events"


def scissor(*rect):
    return {"kind": "scissor", "rect": list(rect)}


def without(kind, events):
    return [event for event in events if event["kind"] != kind]


def otherwise(events, kind, change):
    """The events as a driver takes them that takes those of a kind otherwise."""
    return [event | change(event) if event["kind"] == kind else event for event in events]


HIDDEN = [
    clear(*SKY),
    depth(),
    box(2, 2, 14, 12, RED, 10000),
    FARTHEST,
    box(6, 5, 20, 16, GREEN, 20000),
    FARTHEST,
    box(4, 4, 10, 10, BLUE, 30000),
]
GLASSES = [
    clear(*SKY),
    blend(),
    box(2, 2, 12, 9, GLASS),
    blend(rgb="ONE ONE ADD"),
    box(8, 4, 18, 8, (20, 30, 10, 255)),
    blend() | {"source": 1},
    box(4, 8, 22, 16, OTHER_GLASS),
]
MASKS = [clear(*SKY), blend(mask=5), box(2, 2, 12, 9, GLASS), blend(mask=6), box(4, 8, 22, 16, OTHER_GLASS)]
FLAT = [clear(*SKY), *(draw((left, 2, RED), (left + 9, 3, GREEN), (left + 2, 14, BLUE)) for left in (1, 12))]
CULLED = [clear(*SKY), raster("front"), box(2, 2, 12, 9, RED), raster("back"), box(4, 8, 22, 16, GREEN)]
CUT = [
    clear(*SKY),
    raster(scissor=True),
    scissor(2, 2, 9, 9),
    box(0, 0, 24, 18, RED),
    scissor(12, 4, 20, 15),
    box(0, 0, 24, 18, GREEN),
]
FINE = [clear(*SKY), *(draw((left, 2, RED), (left + 9, 2.03, RED), (left, 14, RED)) for left in (1.53, 12.53))]


def of_last_corner(event):
    a, b, c = event["vertices"]
    return {"vertices": [c, a, b]}


def on_four_bits(event):
    moved = lambda corner: corner | {name: (corner[name] + 2048) // 4096 * 4096 for name in "xy"}
    return {"vertices": list(map(moved, event["vertices"]))}


def with_one(event):
    return {"rgb": [event["rgb"][0], "ONE", "ADD"]}


def other_faces(event):
    return {"cull": {"front": "back", "back": "front"}[event["cull"]]}


def wider(event):
    left, top, right, bottom = event["rect"]
    return {"rect": [left, top, right + 1, bottom]}


def unmasked(_):
    return {"mask": 15}


# what a driver does everywhere; the events, those that it draws, the number that is told, and what is said
CASES = {
    "depth clears ignored": (HIDDEN, without("depth_clear", HIDDEN), {4, 6}, "without all 2 depth clears"),
    "a factor is another": (
        GLASSES,
        otherwise(GLASSES, "blend", with_one),
        {2, 6},
        "the destination factor of colour ONE in place of INV_SRC_ALPHA in all 2 blend events that have it",
    ),
    "masks ignored": (MASKS, otherwise(MASKS, "blend", unmasked), {2, 4}, "mask 15 in all 2 blend events"),
    "the last corner's colour": (
        FLAT,
        otherwise(FLAT, "draw", of_last_corner),
        {2, 3},
        "the last corner's colour in flat triangles in all 2 draws",
    ),
    "front and back": (
        CULLED,
        otherwise(CULLED, "raster", other_faces),
        {2, 4},
        "front and back exchanged in all 2 raster events",
    ),
    "a scissor that is wider": (CUT, otherwise(CUT, "scissor", wider), {3, 5}, "right 1 more in all 2 scissor events"),
    "corners that aren't so fine": (
        FINE,
        otherwise(FINE, "draw", on_four_bits),
        {2, 3},
        "corners on 4 bits of a pixel's fraction in all 2 draws",
    ),
}
ALPHAS = [
    clear(*SKY),
    blend(alpha="ONE ZERO ADD"),
    box(2, 2, 12, 9, GLASS),
    blend(rgb="ONE ONE ADD", alpha="ZERO ONE ADD"),
    box(4, 8, 22, 16, OTHER_GLASS),
]


class Everywhere(Folder):
    def test_one_thing_in_all_events_of_a_kind(self):
        for name, (events, drawn, numbers, says) in CASES.items():
            with self.subTest(name):
                outcome = self.found(capture(events), capture(drawn), driver=True)
                best = outcome.changes[0]
                self.assertEqual((best.left, best.change.says), (0, says))
                self.assertIn(best.change.event, numbers)
                self.assertEqual({best.change.event, *best.change.also}, numbers)
                self.assertEqual(pam(capture(best.change.events)), pam(capture(drawn)))

    def test_the_alpha_part(self):
        like_colour = otherwise(ALPHAS, "blend", lambda event: {"alpha": event["rgb"]})
        best = self.found(capture(ALPHAS), capture(like_colour), driver=True).changes[0]
        self.assertEqual((best.left, best.change.says), (0, ALPHA_ALONE))

    def test_programs_do_otherwise(self):
        """A program's bug stands in one event: without --driver nothing is changed everywhere."""
        events, drawn, *_ = CASES["masks ignored"]
        outcome = self.found(capture(events), capture(drawn))
        self.assertFalse([one for one in outcome.changes if " in all " in one.change.says])

    def best(self, events, drawn):
        change = self.found(capture(events), capture(drawn), driver=True).changes[0]
        return change.left, change.change.event, change.change.says

    def test_one_event_is_not_all(self):
        """The only one of its kind; or one, where the others are drawn as they should be."""
        for events in (MASKS[:3], MASKS):
            drawn = [*events[:1], events[1] | {"mask": 15}, *events[2:]]
            self.assertEqual(self.best(events, drawn), (0, 2, "mask 15 in place of 5"))

    def test_some_that_are_so_already(self):
        """Of two masks one is 15: a driver that ignores masks takes both so."""
        events = [*MASKS[:3], blend(mask=15), MASKS[4]]
        drawn = otherwise(events, "blend", unmasked)
        self.assertEqual(self.best(events, drawn), (0, 2, "mask 15 in all 2 blend events"))

    def test_each_is_told_of_an_event_that_it_changes(self):
        """Nothing is exchanged where nothing is culled."""
        events = [clear(*SKY), raster("none"), box(2, 2, 12, 9, RED), raster("front"), box(4, 8, 22, 16, GREEN)]
        self.found(capture(events), capture(events), driver=True)
        case = Case(self.frame, [], [], {}, lambda one, other: False, [0, 1, 2, 3], None)
        told = {number: {change.says for change in changes_of(case, number, for_drivers())} for number in (2, 4)}
        self.assertEqual([said for said in told[2] if "exchanged" in said], [])
        self.assertIn("front and back exchanged in all 2 raster events", told[4])

    def test_the_report(self):
        events, drawn, *_ = CASES["depth clears ignored"]
        frame, picture = self.written("frame.json", capture(events)), self.written("drawn.pam", pam(capture(drawn)))
        status, lines, errors = told(frame, picture, "--driver")
        self.assertEqual((status, errors), (1, ""))
        wanted = {f"the driver drew as with event {number}, without all 2 depth clears" for number in (4, 6)}
        self.assertTrue(wanted & set(lines), lines)


BEHIND = box(3, 3, 13, 10, OTHER_GLASS)
# The mask is ignored at event 3: 70 pixels
RUN = [clear(*SKY), blend(mask=5), box(2, 2, 12, 9, RED), blend(), BEHIND]


class Alone(Folder):
    def pictures(self, events, off=(), name="pictures"):
        """A folder with the picture after each event; those of some are brighter by 1 in all reds."""
        folder = self.folder / name
        folder.mkdir()
        for number in range(1, len(events) + 1):
            image = read_pam(pam(capture(events[:number])))
            samples = bytearray(image.samples)
            if number in off:
                samples[0::4] = bytes(red + 1 for red in samples[0::4])
            (folder / f"{number}.pam").write_bytes(Image(image.width, image.height, bytes(samples)).pam())
        return folder

    def ignored(self, **how):
        return self.pictures(otherwise(RUN, "blend", unmasked), **how)

    def test_what_is_carried_on(self):
        """What the mask left open goes on into event 5, and isn't told of it again."""
        status, lines, errors = told(self.written("frame.json", capture(RUN)), self.ignored(), "--driver")
        self.assertEqual((status, errors), (1, ""))
        self.assertEqual(
            lines[:3],
            [
                "alone   1 of 5 events differ: 3 (70 pixels)",
                "        of event 3:",
                "70 of 432 pixels differ, in 1 place",
            ],
        )
        self.assertIn("the driver drew as with event 2, mask 15 in place of 5", lines)

    def test_roundings(self):
        """They differ by themselves, and not where they are allowed; what is drawn over them isn't theirs."""
        path = self.written("frame.json", capture(RUN))
        rounded = self.pictures(RUN, off=(1, 2), name="rounded")
        value = json.loads("\n".join(told(path, rounded, "--driver", "--json")[1]))
        self.assertEqual(value["alone"], [{"event": 1, "differ": 432}])
        none = "no pixel differs after any of 5 events, where it was right before"
        self.assertEqual(told(path, rounded, "--driver", "--tolerance", "1"), (0, [none], ""))

    def test_some_pictures_alone(self):
        """Of the events between two pictures it isn't known which it was: the later one is told."""
        folder = self.ignored()
        for number in (2, 3):
            (folder / f"{number}.pam").unlink()
        value = json.loads("\n".join(told(self.written("frame.json", capture(RUN)), folder, "--driver", "--json")[1]))
        self.assertEqual(value["alone"], [{"event": 4, "differ": 70}])

    def test_folders_that_do_not_fit(self):
        path, empty = self.written("frame.json", capture(RUN)), self.folder / "empty"
        empty.mkdir()
        (empty / "notes.txt").write_text("none")
        said = lambda why: (2, [], f"framedbg-blame: {empty}: {why}\n")
        self.assertEqual(told(path, empty, "--driver"), said("no picture is named by its event, as 7.png is"))
        (empty / "6.pam").write_bytes(pam(capture(RUN)))
        wrong = "the capture has events 1 to 5, and pictures are named 6 to 6"
        self.assertEqual(told(path, empty, "--driver"), said(wrong))
        self.assertEqual(told(path, empty)[0], 3)

    def test_the_capture_that_is_kept(self):
        """It ends with the event that was judged, as the driver drew it."""
        kept = self.folder / "kept.json"
        told(self.written("frame.json", capture(RUN)), self.ignored(), "--driver", "--write", kept)
        drawn = otherwise(RUN, "blend", unmasked)[:3]
        made = json.loads(kept.read_text())
        self.assertEqual((len(made["events"]), pam(made)), (3, pam(capture(drawn))))


if __name__ == "__main__":
    unittest.main()
