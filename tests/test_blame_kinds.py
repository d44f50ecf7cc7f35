"""Each kind of change of the table on a frame that is worked out by hand: it mends the bug exactly, and names its
event. Pictures are the reference's."""
import random
import unittest

import folders

from blame_testing import Folder, blend, box, capture, clear, depth, draw, painted, raster

from blaming.everywhere import EVERYWHERE
from blaming.kinds import KINDS

SKY, RED, GREEN, BLUE, GLASS = (
    (10, 20, 30, 255),
    (200, 40, 30, 255),
    (30, 180, 60, 255),
    (40, 60, 200, 255),
    (220, 210, 90, 120),
)
FIRST = [clear(*SKY), box(2, 2, 14, 12, RED)]
SECOND = box(6, 5, 20, 16, GLASS)
FAN = [
    (12, 9, (250, 250, 250, 255)),
    (2, 1, RED),
    (12, 1, GREEN),
    (22, 1, BLUE),
    (22, 9, (90, 0, 90, 255)),
    (22, 17, (0, 90, 90, 255)),
    (12, 17, (240, 120, 0, 255)),
    (2, 17, (20, 20, 90, 255)),
    (2, 9, (0, 200, 220, 255)),
]
ORDER = [0, 1, 2, 0, 2, 3, 0, 3, 4, 0, 4, 5, 0, 5, 6, 0, 6, 7, 0, 7, 8]

LAST = [
    ORDER[at + turn] for at in range(0, len(ORDER), 3) for turn in (1, 2, 0)
]  # of each triangle the first corner comes last


def fan(order=ORDER, interp="linear", **members):
    made = draw(*FAN, interp=interp, indices=order)
    for at, change in members.items():
        made["vertices"][int(at[1:])].update(change)
    return made


def blended(state):
    return [*FIRST, state, SECOND]


def tested(state):
    return [
        clear(*SKY),
        {"kind": "depth_clear", "depth": 40000},
        state,
        box(2, 2, 14, 12, RED, 30000),
        box(6, 5, 20, 16, GREEN, 20000),
    ]


def hiding(state):
    return [*tested(state)[:3], box(6, 5, 20, 16, GREEN, 20000), box(2, 2, 14, 12, RED, 30000)]


def leant(z):
    """A triangle before a wall and behind a rail, with the depth of one corner."""
    return [
        *tested(depth())[:3],
        box(2, 2, 22, 16, RED, 30000),
        box(2, 7, 22, 9, BLUE, 10000),
        draw((3, 3, GREEN, 20000), (20, 4, GREEN, z), (12, 16, GREEN, 20000)),
    ]


QUADS = (
    (1, 1, 7, 7, GLASS),
    (4, 4, 11, 10, (20, 90, 160, 200)),
    (9, 2, 18, 9, (250, 160, 60, 140)),
    (6, 8, 16, 16, (90, 200, 250, 170)),
    (14, 10, 23, 17, (255, 120, 120, 90)),
)
GLOW = blend(rgb="SRC_ALPHA ONE ADD")


def batch(quads):
    """Sprites in one draw, of two triangles each."""
    corners = [
        corner
        for left, top, right, bottom, color in quads
        for corner in ((left, top, color), (right, top, color), (right, bottom, color), (left, bottom, color))
    ]
    return draw(*corners, indices=[4 * quad + at for quad in range(len(quads)) for at in (0, 1, 2, 0, 2, 3)])


def cut(rect):
    return [clear(*SKY), {"kind": "scissor", "rect": rect}, raster(scissor=True), box(1, 1, 23, 17, RED)]


# the kind; the right events, the wrong ones, and the number of the event that was changed
CASES = {
    "write mask": (blended(blend()), blended(blend(mask=6)), 3),
    "blending on or off": (blended(blend()), blended(blend(enable=False)), 3),
    "factor of blending": (blended(blend()), blended(blend(rgb="ONE INV_SRC_ALPHA ADD")), 3),
    "operation of blending": (blended(blend(rgb="ONE ONE SUBTRACT")), blended(blend(rgb="ONE ONE REV_SUBTRACT")), 3),
    "both factors of blending": (
        blended(blend(rgb="DEST_COLOR SRC_COLOR ADD")),
        blended(blend(rgb="ZERO ZERO ADD")),
        3,
    ),
    "both factors of alpha": (
        blended(blend(alpha="DEST_ALPHA SRC_ALPHA ADD")),
        blended(blend(alpha="ZERO ZERO ADD")),
        3,
    ),
    "cull": ([clear(*SKY), raster(), fan()], [clear(*SKY), raster("front"), fan()], 2),
    "front face": (
        [clear(*SKY), raster(), fan(), box(1, 1, 3, 3, RED)],
        [clear(*SKY), raster(front_ccw=True), fan(), box(1, 1, 3, 3, RED)],
        2,
    ),
    "scissor on or off": (cut([4, 3, 12, 10])[:2] + [raster(), box(1, 1, 23, 17, RED)], cut([4, 3, 12, 10]), 3),
    "rectangle of the scissor": (cut([4, 3, 19, 15]), cut([4, 3, 11, 15]), 2),
    "depth test on or off": (hiding(depth()), hiding(depth(enable=False)), 3),
    "depth writes": (hiding(depth()), hiding(depth(write=False)), 3),
    "depth function": (tested(depth()), tested(depth("GREATER")), 3),
    "value of a depth clear": (
        tested(depth()),
        [clear(*SKY), {"kind": "depth_clear", "depth": 25000}, *tested(depth())[2:]],
        2,
    ),
    "interpolation": ([clear(*SKY), fan()], [clear(*SKY), fan(interp="flat")], 2),
    "corner of the flat colour": ([clear(*SKY), fan(interp="flat")], [clear(*SKY), fan(LAST, interp="flat")], 2),
    "colour of a clear": (blended(blend()), [clear(90, 5, 77, 255), *blended(blend())[1:]], 1),
    "blend factor": (
        [
            *FIRST,
            {"kind": "factor", "color": [70, 140, 20, 255]},
            blend(rgb="BLEND_FACTOR INV_BLEND_FACTOR ADD"),
            SECOND,
        ],
        [
            *FIRST,
            {"kind": "factor", "color": [70, 60, 90, 255]},
            blend(rgb="BLEND_FACTOR INV_BLEND_FACTOR ADD"),
            SECOND,
        ],
        3,
    ),
    "a part of the state before a draw": (
        [*blended(blend()), blend(enable=False), box(1, 1, 9, 17, GLASS)],
        [*blended(blend()), box(1, 1, 9, 17, GLASS)],
        5,
    ),
    "without an event": (blended(blend()), [*blended(blend()), SECOND], 5),
    "order of draws": ([*FIRST, box(6, 5, 20, 16, GREEN)], [clear(*SKY), box(6, 5, 20, 16, GREEN), FIRST[1]], 2),
    "order of states": (
        [*FIRST, blend(rgb="ONE ONE ADD"), SECOND, box(1, 8, 18, 14, GLASS)],
        [*FIRST, SECOND, blend(rgb="ONE ONE ADD"), box(1, 8, 18, 14, GLASS)],
        4,
    ),
    "two events exchanged": (
        [clear(*SKY), box(1, 1, 9, 9, RED), box(5, 3, 13, 11, GREEN), box(7, 5, 16, 13, BLUE)],
        [clear(*SKY), box(7, 5, 16, 13, BLUE), box(5, 3, 13, 11, GREEN), box(1, 1, 9, 9, RED)],
        2,
    ),
    "an event once more": ([*blended(blend()), SECOND], blended(blend()), 4),
    "a part of the state from a triangle on": (
        [*FIRST, blend(), batch(QUADS[:2]), GLOW, batch(QUADS[2:])],
        [*FIRST, blend(), batch(QUADS), GLOW],
        4,
    ),
    "direction of triangles": ([clear(*SKY), fan()], [clear(*SKY), fan([*ORDER[:6], 0, 4, 3, *ORDER[9:]])], 2),
    "a triangle too many": ([clear(*SKY), fan(ORDER[:12])], [clear(*SKY), fan([*ORDER[:12], 0, 6, 7])], 2),
    "indices left out": ([clear(*SKY), fan()], [clear(*SKY), fan(ORDER[:7] + ORDER[9:])], 2),
    "indices doubled": ([clear(*SKY), fan()], [clear(*SKY), fan(ORDER[:7] + ORDER[5:])], 2),
    "indices exchanged": ([clear(*SKY), fan()], [clear(*SKY), fan([*ORDER[:5], 0, 3, *ORDER[7:]])], 2),
    "an index that is wrong": ([clear(*SKY), fan()], [clear(*SKY), fan([*ORDER[:8], 6, *ORDER[9:]])], 2),
    "a triangle that is missing": ([clear(*SKY), fan()], [clear(*SKY), fan(ORDER[:9] + ORDER[12:])], 2),
    "colour of a vertex": ([clear(*SKY), fan()], [clear(*SKY), fan(v3={"color": [7, 99, 200, 255]})], 2),
    "place of a vertex": ([clear(*SKY), fan()], [clear(*SKY), fan(v4={"x": 17 << 16, "y": 12 << 16})], 2),
    "depth of a vertex": (leant(20000), leant(60000), 6),
    # a driver's: masks that are ignored everywhere
    EVERYWHERE: (
        [*FIRST, blend(), SECOND, blend() | {"source": 1}, box(1, 8, 18, 14, RED)],
        [*FIRST, blend(mask=6), SECOND, blend(mask=5), box(1, 8, 18, 14, RED)],
        3,
    ),
}
TWO = (
    [*FIRST, blend(), SECOND, blend(False), fan(ORDER[:9])],
    [clear(1, 99, 4, 255), FIRST[1], blend(), SECOND, blend(False), fan([0, 2, 1, *ORDER[3:9]])],
)


class Kinds(Folder):
    def test_each_of_the_table(self):
        self.assertEqual(sorted(CASES), sorted(kind.name for kind in KINDS))
        for name, (right, wrong, number) in CASES.items():
            with self.subTest(name):
                outcome = self.found(capture(wrong), capture(right), driver=name == EVERYWHERE)
                self.assertTrue(outcome.is_mended, [(one.change.says, one.left) for one in outcome.changes[:3]])
                self.assertIn(number, [suspect.event for suspect in outcome.suspects[:3]])
                mended = {one.change.kind for one in outcome.changes if one.left == 0}
                self.assertTrue(mended & ALIKE.get(name, {name}), mended)

    def test_draws_with_pictures(self):
        """States, places and depths are changed as of other draws; colours that stand at corners are no candidates,
        and a picture is left as it is."""
        rng, whole = random.Random(2), draw(
            (0, 0, RED, 20000),
            (24, 0, RED, 20000),
            (24, 18, RED, 20000),
            (0, 18, RED, 20000),
            indices=[0, 1, 2, 0, 2, 3],
        )
        sheet = painted(whole, rng, 3, 2, 17, 14)
        flag = painted(draw((2, 2, RED, 30000), (21, 4, RED, 30000), (5, 16, RED, 30000)), rng, 1, 1, 22, 16)
        moved = lambda at, **members: flag | {
            "vertices": [vertex | (members if i == at else {}) for i, vertex in enumerate(flag["vertices"])]
        }
        near = box(6, 5, 20, 16, GREEN, 10000)
        for name, right, wrong, number in (
            ("write mask", [*FIRST, blend(), sheet], [*FIRST, blend(mask=6), sheet], 3),
            ("place of a vertex", [clear(*SKY), flag], [clear(*SKY), moved(1, x=15 << 16, y=9 << 16)], 2),
            ("depth function", [*tested(depth())[:3], sheet, near], [*tested(depth("GREATER"))[:3], sheet, near], 3),
            ("direction of triangles", [clear(*SKY), sheet], [clear(*SKY), sheet | {"indices": [0, 2, 1, 0, 2, 3]}], 2),
        ):
            with self.subTest(name):
                outcome = self.found(capture(wrong, version=3), capture(right, version=3))
                self.assertTrue(outcome.is_mended, [(one.change.says, one.left) for one in outcome.changes[:3]])
                self.assertIn(number, [suspect.event for suspect in outcome.suspects[:3]])
                self.assertIn(name, {one.change.kind for one in outcome.changes if one.left == 0})
                self.assertFalse({"colour of a vertex", "interpolation"} & {one.change.kind for one in outcome.changes})

    def test_a_batch_that_was_not_ended(self):
        """The sprites from triangle 4 on glow: the program set the blending of event 5 too late. What is drawn
        behind it keeps its own."""
        later = [box(1, 12, 9, 17, (200, 0, 90, 100))]
        right = [
            *FIRST,
            blend(),
            batch(QUADS[:2]),
            GLOW,
            batch(QUADS[2:]),
            blend(),
            *later,
            GLOW,
            box(20, 1, 23, 5, GLASS),
        ]
        wrong = [*FIRST, blend(), batch(QUADS), *later, GLOW, box(20, 1, 23, 5, GLASS)]
        outcome = self.found(capture(wrong), capture(right))
        best = outcome.changes[0]
        self.assertEqual(
            (best.left, best.change.event, best.change.says, best.change.also),
            (0, 4, "with blend as event 6 sets it from triangle 4 on", (6,)),
        )
        self.assertEqual(
            [event["kind"] for event in best.change.events],
            ["clear", "draw", "blend", "draw", "blend", "draw", "blend", "draw", "blend", "draw"],
        )
        self.assertEqual(
            [event["indices"] for event in best.change.events if len(event.get("vertices", ())) == 20],
            [batch(QUADS)["indices"][:12], batch(QUADS)["indices"][12:]],
        )

    def test_two_at_once(self):
        right, wrong = TWO
        outcome = self.found(capture(wrong), capture(right))
        self.assertEqual((outcome.is_mended, outcome.changes[0].change.kind), (True, "two at once"))
        self.assertEqual({outcome.changes[0].change.event, *outcome.changes[0].change.also}, {1, 6})


# what else says the same: some bugs are mended by more than one kind, and the search ends with the first
ALIKE = {
    "both factors of blending": {"both factors of blending", "factor of blending"},
    "two events exchanged": {"two events exchanged", "order of draws"},
}

if __name__ == "__main__":
    unittest.main()
