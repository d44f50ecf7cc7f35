"""The parts of framedbg-driver that want no driver: the mapping, the scenes, what is smaller, reasons, reports, the
words."""
import contextlib
import io
import itertools
import json
import types
import unittest
import xml.etree.ElementTree
from unittest import mock

import folders

import captures
import reference
from captures import PIXEL
from driver_testing import EXAMPLES, Folder, frame, square, triangle, vertex
from full_disk import LACKING, OF_NULL, made_device

from driving import command_line, features, junit, mapping, opengl, plants, reading, reducing, smaller, target
from driving.dice import Dice
from driving.exact import Exact
from driving.faults import Fault, NoDriver
from driving.judging import Judge, pixels_apart
from driving.kinds import Kind, counted, is_beyond, is_fault
from driving.player import Player, Way
from driving.reasons import Reasons, lies_on
from driving.trying import Row
from framedbg_client.replies import Colour, Depths, Entry

RED, GREEN, WHITE, NONE = (255, 0, 0, 255), (0, 255, 0, 255), (255, 255, 255, 255), (0, 0, 0, 0)


class Mapping(unittest.TestCase):
    def test_viewports(self):
        """A power of two that holds the target, and at least as much before it as behind where there is room."""
        for width, height in itertools.product((1, 3, 64, 800, 4096, 5000), repeat=2):
            box = mapping.viewport(width, height, 4096, 16384)
            self.assertEqual(box.width, box.height)
            self.assertEqual(box.width, 4096 if max(width, height) <= 4096 else 8192)
            self.assertTrue(
                box.left <= 0 <= width <= box.left + box.width and box.top <= 0 <= height <= box.top + box.height, box
            )
        self.assertEqual(mapping.viewport(800, 600, 4096, 16384), (-2048, -2048, 4096, 4096))
        self.assertEqual(mapping.viewport(800, 600, "target", 16384), (0, 0, 800, 600))
        self.assertEqual(mapping.viewport(64, 64, 65536, 16384).width, 16384)

    def test_scissors(self):
        for rect, wanted in (
            ((1, 2, 5, 4), (1, 2, 4, 2)),
            ((-9, -9, 99, 99), (0, 0, 8, 6)),
            ((5, 1, 5, 4), (5, 1, 0, 3)),
            ((6, 5, 2, 3), (6, 5, 0, 0)),
            ((-(2**31), -(2**31), 2**31 - 1, 2**31 - 1), (0, 0, 8, 6)),
            ((9, 0, 12, 6), (8, 0, 0, 6)),
        ):
            self.assertEqual(mapping.scissor_of(rect, 8, 6), wanted, rect)

    def test_the_last_corner(self):
        self.assertEqual(mapping.last_first([4, 7, 9, 1, 2, 3]), [7, 9, 4, 2, 3, 1])

    def test_each_word_is_mapped(self):
        self.assertEqual(
            (set(mapping.FACTORS), set(mapping.OPERATIONS), set(mapping.FUNCTIONS)),
            (set(captures.FACTORS), set(captures.OPERATIONS), set(captures.FUNCTIONS)),
        )


class Refused(unittest.TestCase):
    """Drivers that can't do it."""

    def test_a_target_that_is_too_large(self):
        made = object.__new__(target.Target)
        made.gl = types.SimpleNamespace(integer={opengl.MAX_TEXTURE_SIZE: 4096}.get)
        with self.assertRaisesRegex(
            NoDriver, "textures have at most 4096 pixels a side, and the target is 800 by 5000"
        ):
            made.resize(800, 5000)

    def test_a_viewport_that_is_cut(self):
        made = object.__new__(Player)
        made.box = mapping.Box(-2048, -2048, 4096, 4096)
        made.gl = types.SimpleNamespace(Viewport=lambda *_: None, integers=lambda *_: [0, 0, 4096, 4096])
        with self.assertRaisesRegex(NoDriver, "makes of the viewport -2048 -2048 4096 4096 0 0 4096 4096"):
            made._set_viewport()

    def test_an_error_of_opengl(self):
        made = object.__new__(Player)
        made.gl = types.SimpleNamespace(GetError=lambda: 0x502)
        with self.assertRaisesRegex(NoDriver, "error 0x502"):
            made.check()

    def test_vulkan_that_is_none(self):
        gl = types.SimpleNamespace(text=lambda _: "llvmpipe (LLVM 15.0.6, 256 bits)")
        with mock.patch("driving.player.Context"), mock.patch("driving.player.Functions", lambda _: gl):
            with self.assertRaisesRegex(NoDriver, "Vulkan is drawn with by Mesa's zink, which isn't there"):
                Player(1, 1, Way("vulkan"))

    def test_a_call_that_is_missing(self):
        with self.assertRaisesRegex(NoDriver, "has no glGetError"):
            opengl.Functions(types.SimpleNamespace(function=lambda *_: None))


class Scenes(unittest.TestCase):
    def test_dice(self):
        """Seeds are FNV-1a, numbers mulberry32: both have published values."""
        self.assertEqual((Dice("").state, Dice("a").state, Dice("foobar").state), (0x811C9DC5, 0xE40C292C, 0xBF9CF968))
        dice = Dice("")
        dice.state = 0
        self.assertEqual([dice.next() for _ in range(3)], [1144304738, 1416247, 958946056])

    def test_each_feature(self):
        """Each is a capture, the same by its seed, and another by another."""
        for name in features.FEATURES:
            with self.subTest(name):
                made = features.scene(name, 1)
                self.assertEqual({reference.event_fault(event, made["version"]) for event in made["events"]}, {None})
                self.assertEqual(made, features.scene(name, 1))
                self.assertEqual(made == features.scene(name, 2), name.startswith(features.WHOLE))
                self.assertTrue(any(event["kind"] in ("draw", "clear") for event in made["events"]))

    def test_bits(self):
        """Corners lie on a driver's own grid, but where that is what is tried."""
        for name in features.FEATURES:
            off = {
                vertex[axis] % 4096
                for event in features.scene(name, 1, 4)["events"]
                for vertex in event.get("vertices", ())
                for axis in "xy"
            } - {0}
            self.assertEqual(bool(off), name in features.UNSNAPPED, name)

    def test_every_pair(self):
        """Each source's byte meets each destination's, and the second draw is blended."""
        made = features.scene("every product", 1)
        drawn = reference.Frame(made)
        for x, y in ((0, 0), (3, 200), (255, 254), (128, 127)):
            self.assertEqual(
                [drawn.replay(position, x, y)[0][0][0] for position in (2, 4)], [y, reference.unorm(x * y)]
            )

    def test_coarse(self):
        made = features.coarse(frame([triangle((0.02, 0.97), (3.5, 1), (1, 4.04))]), 4)
        self.assertEqual(
            [(corner["x"], corner["y"]) for corner in made["events"][0]["vertices"]],
            [(0, PIXEL), (7 * PIXEL // 2, PIXEL), (PIXEL, 4 * PIXEL + PIXEL // 16)],
        )
        whole = frame([triangle((0.02, 0.97), (3.5, 1), (1, 4.04))])
        self.assertEqual(features.coarse(whole, 8), whole)


class Plants(unittest.TestCase):
    EVENTS = [
        captures.raster("front", True, True),
        captures.scissor(0, 0, 4, 4),
        captures.factor(1, 2, 3, 4),
        captures.depth(True, False, "LESS"),
        captures.blend(True, ("SRC_COLOR", "INV_SRC_ALPHA", "ADD"), ("ONE", "ONE", "MAX"), 5),
        triangle((0, 0), (4, 0.01), (0, 4), interp="linear"),
        captures.draw([vertex(0, 0, RED), vertex(4, 0, GREEN), vertex(0, 4, WHITE)]),
    ]

    def test_each_changes_one_kind(self):
        for name, change in plants.PLANTS.items():
            kinds = {event["kind"] for event in self.EVENTS if change(event) != event}
            self.assertEqual(len(kinds), 1, name)
            for event in map(change, self.EVENTS):
                self.assertEqual(reference.event_fault(event, 2), None, name)

    def test_none(self):
        self.assertEqual(list(map(plants.change_of(None), self.EVENTS)), self.EVENTS)


class Smaller(unittest.TestCase):
    def test_cut_out(self):
        made = frame([captures.scissor(1, 2, 9, 9), triangle((3, 4), (9, 4), (3, 9))], 16)
        small = next(smaller.cut_out(made, 5, 6))
        self.assertEqual((small["width"], small["height"]), (1, 1))
        self.assertEqual(small["events"], [captures.scissor(-4, -4, 4, 3), triangle((-2, -2), (4, -2), (-2, 3))])
        self.assertEqual([one["width"] for one in smaller.cut_out(made, 5, 6)], [1, 2, 4, 8])
        self.assertEqual(list(smaller.cut_out(frame([], 1), 0, 0)), [])

    def test_a_pixel_at_the_border(self):
        """What is cut out lies in the target."""
        made = frame([triangle((0, 0), (9, 0), (0, 9))], 8)
        self.assertEqual(
            [one["events"][0]["vertices"][0]["x"] // -PIXEL for one in smaller.cut_out(made, 7, 0)], [7, 6, 4]
        )

    def test_plainer_events(self):
        made = frame(
            [
                captures.raster("front", True),
                captures.clear(1, 2, 3, 4),
                triangle((0, 0), (9, 0), (0, 9), color=RED, interp="linear"),
            ]
        )
        plain = [one["events"][0] for one in smaller.plainer_event(made, 0)]
        self.assertEqual(plain, [captures.raster("none", True), captures.raster("front", False)])
        self.assertEqual([one["events"][1]["color"] for one in smaller.plainer_event(made, 1)], [[255] * 4, [0] * 4])
        draws = [one["events"][2] for one in smaller.plainer_event(made, 2)]
        self.assertEqual(draws[0]["interp"], "flat")
        self.assertEqual({tuple(corner["color"]) for corner in draws[1]["vertices"]}, {WHITE})

    def test_rounder_places(self):
        """The same place twice stays the same place."""
        made = frame([triangle((3.3, 0), (9, 0), (0, 9)), triangle((3.3, 0), (5, 5), (0, 9))])
        first = next(smaller.rounder(made, 0, 0, "x"))
        self.assertEqual([event["vertices"][0]["x"] for event in first["events"]], [0, 0])
        self.assertEqual([event["vertices"][1]["x"] for event in first["events"]], [9 * PIXEL, 5 * PIXEL])
        self.assertEqual(list(smaller.rounder(frame([triangle((8, 0), (9, 0), (0, 9))]), 0, 0, "x")), [])
        deep = frame([triangle((8, 0), (9, 0), (0, 9), z=40000)])
        self.assertEqual(
            [one["events"][0]["vertices"][0]["z"] for one in smaller.rounder(deep, 0, 0, "z")],
            [65535, 32768, 40960, 39936],
        )

    def test_without_depth(self):
        made = next(smaller.without_depth(frame([triangle((8, 0), (9, 0), (0, 9))])))
        self.assertEqual(
            (made["version"], made["events"][0]["vertices"][0]), (1, {"x": 8 * PIXEL, "y": 0, "color": list(WHITE)})
        )
        self.assertEqual(list(smaller.without_depth(made)), [])
        self.assertEqual(list(smaller.without_depth(frame([captures.depth()]))), [])

    def test_text(self):
        """What is written is a capture, and the same one."""
        for path in [*EXAMPLES.glob("*.json"), *EXAMPLES.glob("drivers/*.json")]:
            capture = json.loads(path.read_text())
            self.assertEqual(json.loads(reducing.text_of(capture)), capture)
        self.assertEqual(
            (EXAMPLES / "drivers/softpipe_tie_in_x.json").read_text(),
            reducing.text_of(json.loads((EXAMPLES / "drivers/softpipe_tie_in_x.json").read_text())) + "\n",
        )

    def test_lists(self):
        """Of a list the fewest items are left that still do it."""
        reducer = reducing.Reducer(None, None, (), None, 60)
        reducer.keeps = lambda some: {3, 7} <= set(some)
        self.assertEqual(reducer.fewer(list(range(10)), list), None)
        left = []
        reducer.keeps = lambda some: {3, 7} <= set(some) and (left.append(some) or True)
        reducer.fewer(list(range(10)), list)
        self.assertEqual(left[-1], [3, 7])


class Kinds(unittest.TestCase):
    def test_rounding(self):
        rounding = [kind for kind in Kind if not is_beyond(kind)]
        self.assertEqual(rounding, [Kind.DEPTH_TIE, Kind.BY_1, Kind.ADDS_UP, Kind.DEPTH_BY_1])
        self.assertEqual(
            (is_beyond(Kind.BY_2, 1), is_beyond(Kind.BY_2, 2), is_beyond(Kind.BY_MORE, 9)), (True, False, True)
        )
        self.assertEqual(
            (is_fault(Kind.BY_1, 0), is_fault(Kind.BY_1, 1), is_fault(Kind.COVERAGE, 1)), (True, False, True)
        )

    def test_counted(self):
        self.assertEqual(
            list(counted({Kind.DEPTH_BY_1: 2, Kind.COVERAGE: 1, Kind.BY_1: 0})), [Kind.COVERAGE, Kind.DEPTH_BY_1]
        )

    def test_verdicts(self):
        row = Row("linear")
        self.assertEqual((row.verdict, row.breaks), ("exact", ""))
        row.counts[Kind.BY_1] = 3
        self.assertEqual((row.verdict, row.breaks), ("within 1", ""))
        row.beyond, row.left_open = 3, 3
        self.assertEqual((row.verdict, row.breaks), ("differs", "Direct3D"))
        row.left_open = 2
        self.assertEqual(row.breaks, "both")

    def test_pixels_apart(self):
        one = bytes(range(48))
        other = bytearray(one)
        other[17], other[45] = 0, 0
        self.assertEqual(
            (list(pixels_apart(4, one, bytes(other), 4)), list(pixels_apart(4, one, one, 4))), ([4, 11], [])
        )


def entry(number, source, before, after, verdict="drawn", depths=None):
    return Entry(1, number, verdict, Colour(*source), Colour(*before), Colour(*after), depths)


class Told:
    """A frame of one draw on nothing, of which histories are told by hand: by place, the entries there."""

    def __init__(self, events, told):
        self.frame, self.told = frame(events), told
        self.number = len(events)

    def entries(self, _, x, y):
        return self.told.get((x, y), [])

    def reasons(self, is_alike=True):
        judge = Judge(self, None, self.frame)
        return Reasons(self, judge.frame, self.number, lambda x, y: NONE, lambda x, y: is_alike)


class Why(unittest.TestCase):
    def of(self, drawn, told, events=(), draw=None, **how):
        events = [*events, draw or square(0, 0, 4, 4, color=RED)]
        return Told(events, told).reasons(**how).of(1, 1, drawn)

    def test_a_triangle_that_is_missing(self):
        self.assertEqual(self.of(NONE, {(1, 1): [entry(0, RED, NONE, RED)]}), (Kind.COVERAGE, False))

    def test_culled_scissored_and_failed(self):
        for verdict, kind in (("culled", Kind.CULL), ("scissored", Kind.SCISSOR)):
            self.assertEqual(self.of(RED, {(1, 1): [entry(0, RED, NONE, NONE, verdict)]}), (kind, False))
        failed = {(1, 1): [entry(0, RED, NONE, NONE, "depthfailed", Depths(9000, 500, 500))]}
        self.assertEqual(self.of(RED, failed, [captures.depth()]), (Kind.DEPTH_TEST, False))

    def test_the_fewest(self):
        """Of several ways to a colour the one with the fewest triangles counts."""
        some = [
            entry(0, RED, NONE, NONE, "scissored"),
            entry(1, GREEN, NONE, GREEN),
            entry(2, RED, GREEN, GREEN, "culled"),
        ]
        self.assertEqual(self.of(RED, {(1, 1): some}, draw=square(0, 0, 4, 4, color=RED)), (Kind.CULL, False))

    def test_ties_of_depth(self):
        """A rounding decides it: not of EQUAL, and not where the triangle's depth is one all over and both have the
        same stored."""
        failed = {(1, 1): [entry(0, RED, NONE, NONE, "depthfailed", Depths(502, 500, 500))]}
        steep = captures.draw([vertex(0, 0, RED, 0), vertex(4, 0, RED, 900), vertex(0, 4, RED, 0)])
        for words, draw, is_alike, kind in (
            (["LESS"], steep, True, Kind.DEPTH_TIE),
            (["EQUAL"], steep, True, Kind.DEPTH_TEST),
            (["LESS"], None, True, Kind.DEPTH_TEST),
            (["LESS"], None, False, Kind.DEPTH_TIE),
        ):
            self.assertEqual(
                self.of(RED, failed, [captures.depth(True, True, *words)], draw, is_alike=is_alike)[0], kind, words
            )
        far = {(1, 1): [entry(0, RED, NONE, NONE, "depthfailed", Depths(503, 500, 500))]}
        self.assertEqual(self.of(RED, far, [captures.depth()], steep), (Kind.DEPTH_TEST, False))

    def test_what_adds_up(self):
        """By no more than what was blended there."""
        some = [entry(number, (9, 9, 9, 9), [10 * number] * 4, [10 * number + 10] * 4) for number in range(3)]
        blend = [captures.blend(True, ("ONE", "ONE", "ADD"))]
        self.assertEqual(self.of((33, 30, 30, 30), {(1, 1): some}, blend), (Kind.ADDS_UP, False))
        self.assertEqual(self.of((34, 30, 30, 30), {(1, 1): some}, blend)[0], Kind.BY_MORE)
        self.assertEqual(self.of((32, 30, 30, 30), {(1, 1): some}), (Kind.BY_2, False))

    def test_a_neighbour(self):
        """Its triangle, one more or in the other's place; also one that lies across a corner."""
        for place in ((0, 1), (2, 2)):
            told = {(1, 1): [entry(0, RED, NONE, RED)], place: [entry(1, GREEN, NONE, GREEN)]}
            self.assertEqual(self.of(GREEN, told)[0], Kind.COVERAGE)
            self.assertEqual(self.of((9, 255, 0, 255), told)[0], Kind.BY_MORE)
            shaded = captures.draw([vertex(0, 0, RED), vertex(4, 0, RED), vertex(0, 4, GREEN)] * 2, "linear")
            self.assertEqual(
                [self.of((off, 255, 0, 255), told, draw=shaded)[0] for off in (9, 13)], [Kind.COVERAGE, Kind.BY_MORE]
            )

    def test_edges(self):
        """A centre on an edge is left open by OpenGL; a hole at an edge of two triangles isn't, nor both of them."""
        tie, edge = {(1, 1): [entry(0, RED, NONE, RED)]}, triangle((1.5, 0), (4, 2), (1.5, 4), color=RED)
        self.assertEqual(self.of(NONE, tie, draw=edge), (Kind.COVERAGE, True))
        both = triangle((1.5, 0), (4, 2), (1.5, 4), (1.5, 0), (1.5, 4), (0, 2), color=RED)
        self.assertEqual(self.of(NONE, tie, draw=both), (Kind.COVERAGE, False))
        more = {
            (1, 1): [entry(0, (40, 40, 40, 40), NONE, (40, 40, 40, 40))],
            (0, 1): [entry(1, (60, 60, 60, 60), NONE, (60, 60, 60, 60))],
        }
        self.assertEqual(
            self.of(
                (100, 100, 100, 100), more, [captures.blend(True, ("ONE", "ONE", "ADD"), ("ONE", "ONE", "ADD"))], both
            ),
            (Kind.COVERAGE, False),
        )
        self.assertEqual(
            self.of((60, 60, 60, 60), more, [captures.blend(True, ("ONE", "ONE", "ADD"), ("ONE", "ONE", "ADD"))], both),
            (Kind.COVERAGE, True),
        )

    def test_a_triangle_that_only_touches(self):
        """Nobody else shows it: its edges are looked at."""
        sharp = captures.draw([vertex(1.5, 1.5, GREEN), vertex(1.75, 1.25, GREEN), vertex(1.75, 1.5, GREEN)])
        self.assertEqual(self.of(GREEN, {}, draw=sharp), (Kind.COVERAGE, True))
        shaded = captures.draw(
            [vertex(1.5, 0.5, (0, 0, 0, 255)), vertex(4, 1, RED), vertex(1.5, 2.5, (200, 100, 0, 255))], "linear"
        )
        self.assertEqual(self.of((100, 50, 0, 255), {}, draw=shaded), (Kind.COVERAGE, True))

    def test_lies_on(self):
        self.assertEqual(
            [lies_on(at, (0, 0), (8, 4)) for at in ((4, 2), (8, 4), (10, 5), (4, 3))], [True, True, False, False]
        )


class Reports(unittest.TestCase):
    def test_junit(self):
        cases = [junit.Case("a & <b>", 0.5), junit.Case("c", 0.25, "differs: 1 \"by\" 1\x07\nmore")]
        suite = xml.etree.ElementTree.fromstring(junit.text_of("d & e", cases).encode())
        self.assertEqual(
            [suite.get(name) for name in ("name", "tests", "failures", "time")], ["d & e", "2", "1", "0.75"]
        )
        self.assertEqual([case.get("name") for case in suite], ["a & <b>", "c"])
        self.assertEqual(
            (suite[1][0].get("message"), suite[1][0].text), ('differs: 1 "by" 1?', 'differs: 1 "by" 1?\nmore')
        )


class Words(Folder):
    def status(self, *words):
        told = io.StringIO()
        with contextlib.redirect_stderr(told), self.assertRaises(SystemExit) as ended:
            command_line.words(list(words))
        return ended.exception.code, told.getvalue().splitlines()[-1]

    def test_wrong_words(self):
        for words, why in (
            (["draw"], "a capture is wanted"),
            ([], "a command is wanted: draw, compare, try, reduce or rules"),
            (["fly"], "invalid choice"),
            (["try", "--viewport", "4095"], "a power of two is wanted, or target"),
            (["try", "--viewport", "0"], "a power of two is wanted"),
            (["try", "--bits", "9"], "a number from 1 to 8 is wanted"),
            (["compare", "x", "--tolerance", "-1"], "a number from 0 to 255"),
            (["compare", "x", "--tolerance", "256"], "a number from 0 to 255"),
            (["reduce", "x", "--seconds", "0"], "a number of seconds above 0"),
            (["reduce", "x", "--kind", "luck"], "invalid choice"),
            (["try", "--plant", "luck"], "invalid choice"),
            (["try", "--api", "dx"], "invalid choice"),
        ):
            status, told = self.status(*words)
            self.assertEqual(status, 2, words)
            self.assertRegex(told, f"^framedbg-driver: .*{why}")

    def test_captures(self):
        for text, why in (
            ('{"format":"framedbg"', "capture refused 2 not json: line 1, column 21"),
            ('{"format":"framedbg","version":1,"width":1,"height":1,"events":[{"kind":"warp"}]}', "7 unknown event 1"),
        ):
            with self.assertRaisesRegex(Fault, why) as told:
                reading.read_capture(self.written(text))
            self.assertEqual(told.exception.status, 2)
        with self.assertRaisesRegex(Fault, "absent.json: No such file"):
            reading.read_capture(self.folder / "absent.json")

    def test_what_is_written(self):
        reading.write(self.folder / "report.xml", "all")
        self.assertEqual((self.folder / "report.xml").read_text(), "all")
        with self.assertRaisesRegex(Fault, "No such file") as told:
            reading.write(self.folder / "absent/report.xml", "all")
        self.assertEqual((told.exception.status, [path.name for path in self.folder.iterdir()]), (4, ["report.xml"]))

    def test_what_is_written_through(self):
        """A link stays one, and so does a device."""
        there, link, device = self.folder / "there.xml", self.folder / "link.xml", self.folder / "device"
        link.symlink_to(there.name)
        reading.write(link, "all")
        self.assertEqual((link.is_symlink(), there.read_text()), (True, "all"))
        device.symlink_to(self.enterContext(made_device(OF_NULL)) or self.skipTest(LACKING))
        reading.write(device, "all")
        self.assertEqual((device.is_symlink(), device.is_char_device()), (True, True))

    def test_what_cannot_be_written(self):
        """No half of it stays."""
        (self.folder / "taken").mkdir()
        with self.assertRaises(Fault):
            reading.write(self.folder / "taken", "all")
        self.assertEqual([path.name for path in self.folder.iterdir()], ["taken"])

    def test_no_framedbg(self):
        with mock.patch("driving.exact.find_program", lambda: None), self.assertRaisesRegex(
            Fault, "framedbg isn't built or installed here"
        ):
            from driving.exact import program_of

            program_of(None)
        with mock.patch("tempfile.tempdir", str(self.folder)), self.assertRaisesRegex(
            Fault, "/absent/framedbg: No such file"
        ):
            Exact("/absent/framedbg", frame([]))
        self.assertEqual([*self.folder.iterdir()], [])


if __name__ == "__main__":
    unittest.main()
