#!/usr/bin/env python3
"""The rules of drawing that the tools share, in tools/rules: what they give is what the reference gives, or is
worked out by hand from docs/DEFINITIONS.md."""
import random
import unittest

import folders

import captures
import passed_over
import reference
from rules import blending, coverage, depth, shading, snapping, states

KINDS = ["blend", "draw", "blend", "raster", "draw", "blend"]  # events 1 to 6


class Snapping(unittest.TestCase):
    def test_by_hand(self):
        self.assertEqual(
            [snapping.snap(n) for n in (128, 384, -128, -384, 127, 129, 1 << 30)], [0, 2, 0, -2, 0, 1, 1 << 22]
        )

    def test_beside_the_reference(self):
        chance = random.Random(1)
        far = (
            2**30,
            -(2**30),
            2**29 + 128,
            127 - 2**29,
            *(chance.randrange(-1 << 30, 1 << 30) for _ in range(200)),
        )
        for value in (*range(-700, 700), *far):
            self.assertEqual(snapping.snap(value), reference.nearest_even(value), value)

    def test_vertices(self):
        self.assertEqual(snapping.snapped({"x": 384, "y": -1000, "z": 9}), (2, -4))


class Coverage(unittest.TestCase):
    def test_centres_and_areas(self):
        self.assertEqual(coverage.centre(3, 5), (896, 1408))
        self.assertEqual(
            (coverage.cross((0, 0), (4, 0), (0, 3)), coverage.cross((0, 0), (0, 3), (4, 0))), (12, -12)
        )  # y goes down: right and then down is clockwise

    def test_what_lies_on_an_edge(self):
        """Of the square from 0 to 4, run through clockwise, the upper edge and the left one have it; of a slope the
        side that it rises on."""
        for u, v, wanted in (
            ((0, 0), (4, 0), 0),
            ((4, 0), (4, 4), 1),
            ((4, 4), (0, 4), 1),
            ((0, 4), (0, 0), 0),
            ((2, 4), (4, 0), 0),
            ((4, 0), (2, 4), 1),
        ):
            self.assertEqual(coverage.least(u, v), wanted, (u, v))

    def test_what_is_culled(self):
        """Of triangles that run clockwise (True) and of others, as the reference culls them: clockwise ones are in
        front without front_ccw."""
        for cull in captures.CULLS:
            for front_ccw in (False, True):
                turn = coverage.culled_turn(captures.raster(cull, front_ccw))
                for is_clockwise in (False, True):
                    self.assertEqual(
                        is_clockwise == turn,
                        cull == ("front" if is_clockwise != front_ccw else "back"),
                        (cull, front_ccw, is_clockwise),
                    )


class Shading(unittest.TestCase):
    def test_means(self):
        """3/2 and -3/2 are ties, of which the larger is taken."""
        for weights, values, wanted in (
            ((1, 1, 0), (1, 2, 99), 2),
            ((1, 1, 0), (-1, -2, 99), -1),
            ((1, 2, 3), (6, 12, 18), 14),
            ((3, 1, 0), (1, 2, 0), 1),
        ):
            self.assertEqual(shading.mean(weights, values, sum(weights)), wanted)

    def test_a_row_of_them(self):
        chance = random.Random(4)
        for _ in range(100):
            total, step, whole = chance.randrange(-900, 900), chance.randrange(-90, 90), chance.randrange(1, 50)
            self.assertEqual(
                shading.means_along(total, step, whole, 9),
                [shading.mean((1,), (total + i * step,), whole) for i in range(9)],
            )


class Depth(unittest.TestCase):
    def test_what_passes(self):
        for name, passes in depth.PASSES.items():
            self.assertEqual(
                [passes(source, 5) for source in (4, 5, 6)],
                [reference.PASSES[name](source, 5) for source in (4, 5, 6)],
                name,
            )
        self.assertEqual(set(depth.PASSES), set(captures.FUNCTIONS))


class Blending(unittest.TestCase):
    def test_beside_the_reference(self):
        rng = random.Random(3)
        color = lambda: tuple(rng.choice((0, 255, rng.randrange(256))) for _ in range(4))
        for _ in range(3000):
            rgb, alpha = (
                [rng.choice(names), rng.choice(names), rng.choice(reference.OPERATIONS)]
                for names in (reference.FACTORS, captures.ALPHA_FACTORS)
            )
            state, source, there, factor = (
                captures.blend(rng.random() < 0.9, rgb, alpha, rng.randrange(16)),
                color(),
                color(),
                color(),
            )
            held = {
                "blend": (int(state["enable"]), tuple(state["rgb"]), tuple(state["alpha"]), state["mask"]),
                "factor": factor,
            }
            for _ in range(2):  # the second time it is known
                self.assertEqual(blending.blended(state, factor, source, there), reference.blend(held, source, there))
            self.assertEqual(
                blending.Blending(state, factor).colour(source, there), reference.blend(held, source, there)
            )

    def test_each_factor_has_a_weight(self):
        self.assertEqual(set(blending.WEIGHTS), set(captures.FACTORS))

    def test_factors_and_masks_are_kept_apart(self):
        state, there = captures.blend(True, ["BLEND_FACTOR", "ZERO", "ADD"], ["BLEND_FACTOR", "ZERO", "ADD"]), (
            9,
            9,
            9,
            9,
        )
        self.assertEqual(
            [blending.blended(state, (byte,) * 4, (255,) * 4, there) for byte in (0, 40)], [(0,) * 4, (40,) * 4]
        )
        self.assertEqual(blending.blended(state | {"mask": 1}, (40,) * 4, (255,) * 4, there), (40, 9, 9, 9))


class States(unittest.TestCase):
    def test_at_the_start(self):
        """As docs/FORMATS.md has it."""
        self.assertEqual(list(states.AT_START), list(captures.STATES))
        self.assertEqual(
            states.AT_START["raster"], {"kind": "raster", "cull": "back", "front_ccw": False, "scissor": False}
        )
        self.assertEqual(states.AT_START["scissor"], {"kind": "scissor", "rect": [0, 0, 0, 0]})
        self.assertEqual(
            states.AT_START["blend"],
            {
                "kind": "blend",
                "enable": False,
                "rgb": ["ONE", "ZERO", "ADD"],
                "alpha": ["ONE", "ZERO", "ADD"],
                "mask": 15,
            },
        )
        self.assertEqual(states.AT_START["factor"], {"kind": "factor", "color": [255, 255, 255, 255]})
        self.assertEqual(states.AT_START["depth"], {"kind": "depth", "enable": False, "write": True, "func": "LESS"})

    def test_setters(self):
        setters = states.Setters(KINDS)
        self.assertEqual([setters.before(number, "blend") for number in range(1, 8)], [None, 1, 1, 3, 3, 3, 6])
        self.assertEqual([setters.before(number, "raster") for number in (4, 5)], [None, 4])
        self.assertEqual((setters.of("blend"), setters.of("depth"), setters.before(7, "depth")), ([1, 3, 6], [], None))

    def test_setters_that_are_off(self):
        setters = states.Setters(KINDS)
        self.assertEqual(
            [setters.before(7, "blend", lambda number: number not in off) for off in ((6,), (6, 3), (3,), (6, 3, 1))],
            [3, 1, 6, None],
        )


if __name__ == "__main__":
    passed_over.run_tests("test_rules")
