"""The converter of RenderDoc's frames without RenderDoc: what shaders, states and colours say of a draw."""
import random
import struct
import unittest

import folders

from frames_testing import OVER

from real_frames import coverage, planes, shaders, sources, states, unblended
from real_frames.losses import Losses

BRIGHTER = ("One", "One", "Maximum"), ("One", "One", "Maximum")


class Shaders(unittest.TestCase):
    def test_text(self):
        for text, wanted in (
            (b"void main() { if (a < .5) discard; }", True),
            (b"// discard\nvoid main() {}", False),
            (b"/* one\n discard; */ float discarded;", False),
            (b"", False),
        ):
            self.assertEqual(shaders.may_discard("GLSL", text), wanted)

    def test_words(self):
        head = (0x07230203, 0x10500, 0, 27, 0)
        for body, wanted in (
            ((2 << 16 | 17, 252), False),
            ((2 << 16 | 17, 1, 1 << 16 | 252), True),
            ((1 << 16 | 4416,), True),
            ((1 << 16 | 5380,), True),
            ((1 << 16 | 253,), False),
            ((0, 1 << 16 | 252), False),
            ((), False),
            ((9 << 16 | 17,), False),
        ):
            words = head + body
            self.assertEqual(shaders.may_discard("SPIRV", struct.pack(f"<{len(words)}I", *words)), wanted, body)
        self.assertFalse(shaders.may_discard("SPIRV", b"\1\2"))
        self.assertFalse(shaders.may_discard("DXBC", b"discard"))


class Colours(unittest.TestCase):
    @staticmethod
    def table(width, height, colour):
        return planes.Table({y: [(x, colour(x, y)) for x in range(width)] for y in range(height)})

    def test_a_plane_is_found_again(self):
        sums = self.table(8, 8, lambda x, y: (x * 10, y * 10, 5, 255)).over([(y, 0, 8) for y in range(8)])
        found, fault = planes.fit([(0.5, 0.5), (7.5, 0.5), (0.5, 7.5)], sums)
        self.assertEqual(found, [(0, 0, 5, 255), (70, 0, 5, 255), (0, 70, 5, 255)])
        self.assertLess(fault, 1e-3)

    def test_how_far_off_is_the_root_of_the_mean_square(self):
        sums = self.table(8, 8, lambda x, y: (100 + 10 * ((x + y) % 2), 0, 0, 0)).over([(y, 0, 8) for y in range(8)])
        self.assertAlmostEqual(planes.fit([(0, 0), (8, 0), (0, 8)], sums)[1], 5, places=1)

    def test_sums_over_a_part_are_those_of_its_samples(self):
        chance = random.Random(13)
        samples = {
            y: [(x, tuple(chance.randrange(256) for _ in range(4))) for x in range(20) if chance.random() < 0.6]
            for y in range(10)
        }
        spans = [(y, *sorted((chance.randrange(-3, 23), chance.randrange(-3, 23)))) for y in range(-2, 12)]
        inside = [(x, y, v[2]) for y, x0, x1 in spans for x, v in samples.get(y, ()) if x0 <= x < x1]
        sums = planes.Table(samples).over(spans)
        self.assertEqual(
            (sums.count, sums.x, sums.y, sums.xy, sums.v[2], sums.xv[2], sums.yv[2], sums.vv[2]),
            (
                len(inside),
                *(
                    sum(f(*one) for one in inside)
                    for f in (
                        lambda x, y, v: x,
                        lambda x, y, v: y,
                        lambda x, y, v: x * y,
                        lambda x, y, v: v,
                        lambda x, y, v: x * v,
                        lambda x, y, v: y * v,
                        lambda x, y, v: v * v,
                    )
                ),
            ),
        )

    def test_no_corner_leaves_the_bytes(self):
        chance = random.Random(8)
        for _ in range(200):
            samples = {
                y: [
                    (x, tuple(chance.randrange(256) for _ in range(4)))
                    for x in sorted(chance.sample(range(20), chance.randrange(1, 4)))
                ]
                for y in range(chance.randrange(1, 4))
            }
            sums = planes.Table(samples).over([(y, 0, 20) for y in samples])
            found, _ = planes.fit([(chance.uniform(-99, 99), chance.uniform(-99, 99)) for _ in range(3)], sums)
            self.assertTrue(all(0 <= v <= 255 for corner in found for v in corner))

    def test_a_slope_is_lessened_where_a_corner_would_leave_the_bytes(self):
        sums = self.table(8, 8, lambda x, y: (100 + 10 * x, 0, 0, 0)).over([(y, 0, 8) for y in range(8)])
        found, _ = planes.fit([(50, 0), (4, 0), (0, 8)], sums)  # 135 in the middle, 4; 600 at 50 would be too much
        self.assertEqual([corner[0] for corner in found], [255, 135, 125])

    def test_blending_is_undone(self):
        over = states.blend(*OVER, 15, Losses())
        chance = random.Random(9)
        for _ in range(300):
            source = [chance.randrange(256) for _ in range(3)] + [chance.randrange(64, 256)]
            before = [chance.randrange(256) for _ in range(3)] + [255]
            share = source[3] / 255
            alone = [round(v * share) for v in source[:3]] + [source[3]]
            after = [round(s * share + d * (1 - share)) for s, d in zip(source, before)] + [255]
            found = sources.source_of(over, 1, sources.Pixel(1, alone, before, after))
            self.assertLess(max(abs(f - s) for f, s in zip(found, source)), 3)

    def test_two_layers_are_told_apart_from_one(self):
        over = states.blend(("One", "InvSrcAlpha", "Add"), ("One", "InvSrcAlpha", "Add"), 15, Losses())
        found = sources.source_of(
            over, 2, sources.Pixel(1, [191, 24, 0, 239], [246, 245, 244, 255], [215, 80, 61, 255])
        )
        self.assertLess(max(abs(f - s) for f, s in zip(found, (153, 19, 0, 191))), 2)  # 0.75 of (0.8, 0.1, 0)

    def test_alpha_that_is_not_kept_is_found_by_colour(self):
        over = states.blend(("SrcAlpha", "InvSrcAlpha", "Add"), ("Zero", "One", "Add"), 15, Losses())
        found = sources.source_of(
            over, 1, sources.Pixel(1, [100, 50, 0, 0], [200, 200, 200, 255], [200, 150, 100, 255])
        )
        self.assertLess(max(abs(f - s) for f, s in zip(found, (200, 100, 0, 127.5))), 3)


class States(unittest.TestCase):
    def test_alpha_from_a_draw_s_own_colours(self):
        """By the equation: own * alpha + was * (1 - alpha) and its like, for one layer and for two equal ones."""
        over, multiplied, lit = (
            states.blend((*words, "Add"), ("One", "Zero", "Add"), 15, Losses())
            for words in (("SrcAlpha", "InvSrcAlpha"), ("One", "InvSrcAlpha"), ("SrcAlpha", "One"))
        )
        own, was = (200, 40, 100), (20, 140, 60)
        for blend, layers, now in (
            (over, 1, [round(0.25 * a + 0.75 * b) for a, b in zip(own, was)]),
            (over, 2, [round(0.4375 * a + 0.5625 * b) for a, b in zip(own, was)]),
            (multiplied, 1, [min(round(a + 0.75 * b), 255) for a, b in zip(own, was)]),
            (lit, 1, [round(b + 0.25 * a) for a, b in zip(own, was)]),
            (lit, 2, [round(b + 0.5 * a) for a, b in zip(own, was)]),
        ):
            how, colour = unblended.source_at(blend, layers, own, was, now)
            self.assertEqual((how, colour[:3]), ("told", own), (blend, layers))
            self.assertAlmostEqual(colour[3] / 255, 0.25, delta=0.01)
        self.assertEqual(unblended.source_at(over, 1, own, own, own), ("open", (*own, 255)))
        self.assertEqual(unblended.source_at(over, 1, own, was, (20, 40, 200)), ("apart", None))
        self.assertEqual(unblended.source_at(multiplied, 2, own, was, own), ("apart", None))
        self.assertEqual(unblended.source_at(lit, 1, (200, 200, 200), (250, 250, 100), (255, 255, 200))[1][3], 127.5)
        self.assertEqual(
            [unblended.tells(blend) for blend in (over, multiplied, lit, states.blend(*BRIGHTER, 15, Losses()))],
            [True, True, True, False],
        )

    def test_alpha_takes_no_colour_factor(self):
        event = states.blend(("DstCol", "Zero", "Add"), ("SrcCol", "InvDstCol", "Add"), 15, Losses())
        self.assertEqual(
            (event["rgb"], event["alpha"]), (["DEST_COLOR", "ZERO", "ADD"], ["SRC_ALPHA", "INV_DEST_ALPHA", "ADD"])
        )

    def test_the_constant_s_alpha(self):
        self.assertEqual(states.factor((0, 0.5, 1, 0.25), ("FactorAlpha", "Zero", "Add"), Losses())["color"], [64] * 4)
        self.assertEqual(
            states.factor((0, 0.5, 1, 0.25), ("FactorRGB", "Zero", "Add"), Losses())["color"], [0, 128, 255, 64]
        )

    def test_what_has_no_word_is_counted(self):
        losses = Losses()
        states.blend(("SrcAlphaSat", "One", "Add"), ("One", "One", "Add"), 15, losses)
        self.assertEqual(list(losses.lines()), ["       1 blend factor SrcAlphaSat (taken as SRC_ALPHA)"])
        self.assertEqual(
            losses.entries(), [{"what": "blend factor SrcAlphaSat", "count": 1, "note": "taken as SRC_ALPHA"}]
        )

    def test_a_state_is_told_once(self):
        events = []
        log = states.StateLog(events)
        for cull in ("none", "none", "back"):
            log.set(states.raster(cull, False, False), {"event": 9})
        self.assertEqual(
            [(event["cull"], event["source"]) for event in events], [("none", {"event": 9}), ("back", {"event": 9})]
        )


class Agreements(unittest.TestCase):
    def test_pixels_in_one_alone_are_named(self):
        agreement = coverage.Agreement()
        found = agreement.add(bytes([0, 1, 1, 0, 1, 0]), bytes([1, 1, 0, 0, 1, 0]), 3)
        self.assertEqual(
            (found, str(agreement), agreement.share()), ([(0, 0, False), (2, 0, True)], "2 of 4 pixels alike", 0.5)
        )

    def test_pictures_that_are_near(self):
        self.assertEqual(coverage.near(bytes([1, 2, 3, 4, 9, 9, 9, 9]), bytes([1, 2, 3, 99, 9, 9, 18, 9]), 8), 0.5)
        self.assertEqual(coverage.near(bytes([1, 2, 3, 4, 9, 9, 9, 9]), bytes([1, 2, 3, 99, 9, 9, 17, 9]), 8), 1)


if __name__ == "__main__":
    unittest.main()
