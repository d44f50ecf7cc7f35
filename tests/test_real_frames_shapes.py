"""The converter of RenderDoc's frames without RenderDoc: triangles, where they lie, and the pixels that they cover."""
import math
import random
import unittest

import folders

from frames_testing import HEIGHT, WIDTH, clip_space, image, quad, state

import reference
from real_frames import clipping, grid, states, topology
from real_frames.fault import Fault
from real_frames.losses import Losses
from real_frames.pieces import Piece, is_shared_out
from real_frames.placing import PIXEL, Bias, placed
from real_frames.raster import DepthTarget, Triangle
from real_frames.viewport import Viewport

RED, GREEN, BLUE, GREY = (255, 0, 0, 255), (0, 255, 0, 255), (0, 0, 255, 255), (90, 100, 110, 255)
TESTED = (True, True, "LESS")


class Topologies(unittest.TestCase):
    def test_a_strip_keeps_one_way_round(self):
        self.assertEqual(
            [t for _, t in topology.primitives("TriangleStrip", [0, 1, 2, 3, 4])], [(0, 1, 2), (2, 1, 3), (2, 3, 4)]
        )

    def test_a_fan_turns_about_its_first(self):
        self.assertEqual([t for _, t in topology.primitives("TriangleFan", [7, 1, 2, 3])], [(7, 1, 2), (7, 2, 3)])

    def test_a_restart_begins_a_new_strip_and_primitives_go_on(self):
        found = list(topology.primitives("TriangleStrip", [0, 1, 2, 0xFFFF, 3, 4, 5, 6], 0xFFFF))
        self.assertEqual(found, [(0, (0, 1, 2)), (1, (3, 4, 5)), (2, (5, 4, 6))])

    def test_left_over_indices_are_dropped(self):
        self.assertEqual(len(list(topology.primitives("TriangleList", list(range(8))))), 2)

    def test_lines_and_points(self):
        for name, wanted in (
            ("LineList", [(4, 5), (6, 7)]),
            ("LineStrip", [(4, 5), (5, 6), (6, 7), (7, 8)]),
            ("LineLoop", [(4, 5), (5, 6), (6, 7), (7, 8), (8, 4)]),
            ("PointList", [(4,), (5,), (6,), (7,), (8,)]),
        ):
            self.assertEqual([corners for _, corners in topology.primitives(name, [4, 5, 6, 7, 8])], wanted)

    def test_what_isn_t_known(self):
        with self.assertRaisesRegex(Fault, "topology PatchList"):
            list(topology.primitives("PatchList", [0, 1, 2]))


class Placing(unittest.TestCase):
    view = Viewport(0, 0, 640, 480, y_up=True, half_depth=False)

    def test_what_is_inside_stays(self):
        corners = ((0, 0, 0, 1), (0.5, 0, 0, 1), (0, 0.5, 0, 1))
        self.assertEqual(clipping.clip(corners, clipping.planes(self.view, True)), ([corners], False))

    def test_behind_the_eye_nothing_is_left(self):
        corners = ((0, 0, -2, -1), (0.5, 0, -2, -1), (0, 0.5, -2, -1))
        self.assertEqual(clipping.clip(corners, clipping.planes(self.view, True))[0], [])

    def test_all_pieces_lie_in_front_and_within_bounds(self):
        chance = random.Random(3)
        for case in range(500):
            corners = tuple(tuple(chance.uniform(-3, 3) for _ in range(4)) for _ in range(3))
            if case % 50 == 0:
                corners = ((0, 0, 0, 0), *corners[1:])
            for piece in clipping.clip(corners, clipping.planes(self.view, True))[0]:
                for x, y, z, w in piece:
                    self.assertGreater(w, 0)
                    self.assertTrue(-w - 1e-5 <= z <= w + 1e-5)
                    self.assertLess(max(map(abs, self.view.place((x, y, z, w))[:2])), 16384)

    def test_two_neighbours_are_cut_at_one_place(self):
        chance, kept = random.Random(4), clipping.planes(Viewport(0, 0, 640, 480), True)
        for _ in range(200):
            (ax, ay), (bx, by) = ((chance.uniform(-0.5, 0.5), chance.uniform(-0.5, 0.5)) for _ in range(2))
            front, behind = (ax, ay, chance.uniform(0.1, 0.9), 1.0), (bx, by, -chance.uniform(0.1, 0.9), 1.0)
            cuts = [clipping.cut(edge, kept[1]) for edge in ([front, behind, front], [behind, front, behind])]
            new = [{corner for corner in some if corner not in (front, behind)} for some in cuts]
            self.assertEqual((new[0], len(new[0])), (new[1], 1))

    def test_a_line_is_cut_as_a_triangle_is(self):
        kept = clipping.planes(Viewport(0, 0, 640, 480), True)
        front, behind = (0.2, 0.4, 0.5, 1), (0.6, 0, -0.5, 1)
        for ends in ((front, behind), (behind, front)):
            cut = dict(zip(ends, clipping.clip_line(ends, kept)))
            self.assertEqual(cut[front], front)
            for value, wanted in zip(cut[behind], (0.4, 0.2, 0, 1)):
                self.assertAlmostEqual(value, wanted)
        self.assertEqual(clipping.clip_line((behind, behind), kept), ())
        self.assertEqual(clipping.clip_line((front, front), kept), (front, front))

    def test_lines_and_points_are_one_pixel_wide(self):
        """As the rule for lines has it: a line that is wider than high has one pixel in each column; none is culled."""
        for raster in (("back", False), ("back", True), ("front", False), ("none", False)):
            own, target, losses = state(raster), DepthTarget(WIDTH, HEIGHT), Losses()
            for corners, wanted in (
                ([(2.5, 3.2), (20.5, 9.1)], {(x, math.floor(3.2 + (x + 0.5 - 2.5) * 5.9 / 18)) for x in range(2, 20)}),
                ([(9.1, 14.5), (4.4, 1.5)], {(math.floor(4.4 + (y + 0.5 - 1.5) * 4.7 / 13), y) for y in range(1, 14)}),
                ([(7.3, 5.6)], {(7, 5)}),
            ):
                shapes = placed([((0, 0), tuple(clip_space(x, y, 0.5) for x, y in corners))], own, losses)
                pieces = [Piece(number, [(x, y, 5) for x, y, _ in shape]) for number, shape in shapes]
                self.assertFalse(any(piece.shape.is_culled(states.raster(*raster)) for piece in pieces))
                drawn = [
                    (x, y)
                    for piece in pieces
                    for y, x0, x1 in target.draw(piece.shape, [5] * 3, own.depth)
                    for x in range(x0, x1)
                ]
                self.assertEqual((set(drawn), len(drawn)), (wanted, len(wanted)))
            self.assertEqual(losses.counts["lines and points"], 3)

    def covered(self, shapes):
        target = DepthTarget(WIDTH, HEIGHT)
        pieces = [Piece(number, [(x, y, 5) for x, y, _ in corners]) for number, corners in shapes]
        return sorted(
            (x, y)
            for piece in pieces
            for y, x0, x1 in target.draw(piece.shape, [5] * 3, state().depth)
            for x in range(x0, x1)
        )

    def test_rows_whose_middles_lie_on_an_edge_of_gl(self):
        """With y up what lies over the edge has the row; with y down, what lies below. Neighbours leave no gap, and
        no pixel is drawn twice."""
        for y_up, wanted in ((True, range(3, 8)), (False, range(2, 7))):
            own = state()
            own.viewport = Viewport(0, 0, WIDTH, HEIGHT, y_up=y_up, rows_from_below=y_up)
            turn = (lambda y: HEIGHT - y) if y_up else (lambda y: y)
            for boxes in (
                ((3, 2.5, 9, 7.5),),
                ((3, 2.5, 9, 5.5), (3, 5.5, 9, 7.5)),
                ((3, 2.5, 6, 7.5), (6, 2.5, 9, 7.5)),
            ):
                corners = [
                    clip_space(x, turn(y), 0.5) for box in boxes for t in quad(*box, 0.5, RED) for x, y, _, _ in t
                ]
                shapes = placed(
                    [((0, at), tuple(corners[3 * at : 3 * at + 3])) for at in range(len(corners) // 3)], own, Losses()
                )
                self.assertEqual(self.covered(shapes), sorted((x, y) for x in range(3, 9) for y in wanted))
            corners = [
                clip_space(x, turn(y), 0.5) for t in quad(9, 2, 2.5, 8.5, 0.5, RED) for x, y, _, _ in t
            ]  # whose triangles meet along middles of pixels
            shapes = placed([((0, at), tuple(corners[3 * at : 3 * at + 3])) for at in range(2)], own, Losses())
            self.assertEqual(
                self.covered(shapes), sorted((x, y) for x in range(2, 9) for y in range(2, 9 if y_up else 8))
            )

    def test_only_edges_along_a_row_are_moved(self):
        own = state()
        own.viewport = Viewport(0, 0, WIDTH, HEIGHT, y_up=True, rows_from_below=True)
        corners = [clip_space(x, HEIGHT - y, 0.5) for x, y in ((2, 2.5), (9, 3.5), (4, 9.5))]
        ((_, placed_corners),) = placed([((0, 0), tuple(corners))], own, Losses())
        self.assertEqual([y for _, y, _ in placed_corners], [round(y * PIXEL) for y in (2.5, 3.5, 9.5)])

    def test_corners_that_are_no_numbers(self):
        losses = Losses()
        corners = [tuple(clip_space(x, y, 0.5) for x, y in ((1, 1), (9, 1), (1, 9)))] * 3
        corners[0] = (*corners[0][:2], (math.nan, 0, 0, 1))
        corners[2] = (*corners[2][:2], (0, 0, math.inf, 1))
        self.assertEqual(
            [number for number, _ in placed([((0, at), three) for at, three in enumerate(corners)], state(), losses)],
            [(0, 1)],
        )
        self.assertEqual(losses.counts["triangles, lines and points with a corner that is no number"], 2)

    def test_wide_lines_and_points(self):
        for width, corners, wanted in (
            (3, [(7.3, 5.6)], {(x, y) for x in (6, 7, 8) for y in (4, 5, 6)}),
            (2, [(7.3, 5.6)], {(x, y) for x in (6, 7) for y in (5, 6)}),
            (1, [(7 - 1e-6, 5.6)], {(7, 5)}),
            (2.4, [(2.5, 6), (5.5, 6)], {(x, y) for x in (2, 3, 4) for y in (5, 6)}),
            (0, [(7.3, 5.6)], {(7, 5)}),
        ):
            own = state()
            own.width = width
            self.assertEqual(
                set(self.covered(placed([((0, 0), tuple(clip_space(x, y, 0.5) for x, y in corners))], own, Losses()))),
                wanted,
            )

    def test_the_upper_left_corner_of_gl(self):
        self.assertEqual(self.view.place((-1, 1, -1, 1)), (0, 0, 0))
        self.assertEqual(self.view.place((2, -2, 2, 2)), (640, 480, 1))

    def test_a_viewport_upside_down(self):
        self.assertEqual(Viewport(0, 100, 50, -100).place((0, -1, 0, 1)), (25, 100, 0))
        self.assertEqual(Viewport(10, 100, 50, -100).box(), [10, 0, 60, 100])

    def test_depth_bias(self):
        corners = [(0, 0, 0.5), (10, 0, 0.6), (0, 10, 0.3)]
        self.assertAlmostEqual(Bias(3, 0, step=1 / 65535).of(corners), 3 / 65535)
        self.assertAlmostEqual(Bias(0, 2, step=1 / 65535).of(corners), 0.04)  # the steeper way: 0.02 a pixel
        self.assertAlmostEqual(Bias(0, 2, 0.01).of(corners), 0.01)
        self.assertEqual(Bias(1, 0).of([(0, 0, 0.75)] * 3), 2**-24)  # a float in 0.5 to 1 has steps of 2 to the -24
        own = state(bias=Bias(100, 0, step=1 / 1000))
        ((_, shape),) = placed(
            [((0, 0), tuple(clip_space(x, y, 0.5) for x, y in ((0, 0), (8, 0), (0, 8))))], own, Losses()
        )
        for corner, wanted in zip(shape, ((0, 0, 0.6), (8 * PIXEL, 0, 0.6), (0, 8 * PIXEL, 0.6))):
            for value, want in zip(corner, wanted):
                self.assertAlmostEqual(value, want)


def reference_functions():
    return ("NEVER", "LESS", "EQUAL", "LESS_EQUAL", "GREATER", "NOT_EQUAL", "GREATER_EQUAL", "ALWAYS")


class Rasterising(unittest.TestCase):
    def test_spans_are_the_pixels_that_the_rule_covers(self):
        chance = random.Random(5)
        for _ in range(200):
            corners = [(chance.randrange(-4 * 256, 20 * 256), chance.randrange(-4 * 256, 20 * 256)) for _ in range(3)]
            if chance.random() < 0.3:
                corners = [(x // 128 * 128, y // 128 * 128) for x, y in corners]  # corners and edges on centres
            spans = {(x, y) for y, x0, x1 in Triangle(corners).spans(16, 16) for x in range(x0, x1)}
            self.assertEqual(
                spans, {(x, y) for x in range(16) for y in range(16) if reference.covers(corners, x, y)}, corners
            )

    def test_what_passes_is_what_the_reference_draws(self):
        chance = random.Random(7)
        target, events, owner = (
            DepthTarget(16, 16),
            [{"kind": "raster", "cull": "back", "front_ccw": False, "scissor": False}],
            {},
        )
        for n in range(40):
            own = states.depth(True, chance.random() < 0.7, chance.choice(list(reference_functions())))
            corners = [
                (chance.randrange(-400000, 1500000), chance.randrange(-400000, 1500000), chance.randrange(65536))
                for _ in range(3)
            ]
            events += [
                own,
                {
                    "kind": "draw",
                    "interp": "flat",
                    "vertices": [{"x": x, "y": y, "z": z, "color": [n + 1, 0, 0, 0]} for x, y, z in corners],
                },
            ]
            piece = Piece((0, n), corners)
            if not piece.shape.is_culled(states.raster("back", False)):
                for y, x0, x1 in target.draw(piece.shape, [z for _, _, z in corners], own):
                    owner.update({(x, y): n + 1 for x in range(x0, x1)})
        self.assertEqual(list(image(events, 16, 16)[0::4]), [owner.get((i % 16, i // 16), 0) for i in range(256)])

    def test_depths_are_the_reference_s(self):
        chance = random.Random(6)
        for _ in range(20):
            piece = Piece(
                (0, 0),
                [
                    (chance.randrange(16 * PIXEL), chance.randrange(16 * PIXEL), chance.randrange(65535))
                    for _ in range(3)
                ],
            )
            target, depths = DepthTarget(16, 16), [z for _, _, z in piece.corners]
            for y, x0, x1 in target.draw(piece.shape, depths, states.depth(*TESTED)):
                self.assertEqual(
                    target.rows[y][x0:x1],
                    [reference.depth_of(piece.shape.corners, depths, x, y) for x in range(x0, x1)],
                )

    def test_halves_cover_the_pixels_of_the_whole(self):
        chance, cuts = random.Random(11), 0
        for _ in range(100):
            piece = Piece((0, 0), [(chance.randrange(40 * PIXEL), chance.randrange(40 * PIXEL), 5) for _ in range(3)])
            found = [{(x, y) for y, x0, x1 in spans for x in range(x0, x1)} for _, spans in piece.cut(40, 40)]
            if found:
                cuts += 1
                whole = {(x, y) for x in range(40) for y in range(40) if reference.covers(piece.shape.corners, x, y)}
                self.assertEqual((found[0] | found[1], found[0] & found[1]), (whole, set()))
        self.assertGreater(cuts, 60)

    def test_what_is_shared_out(self):
        whole = [(0, 2, 9), (1, 3, 5)]
        self.assertTrue(is_shared_out(whole, [(0, 2, 4), (1, 3, 5)], [(0, 4, 9)]))
        for first, second in (
            ([(0, 2, 4)], [(0, 4, 9)]),
            ([(0, 2, 5), (1, 3, 5)], [(0, 4, 9)]),
            ([(0, 2, 4), (1, 3, 5)], [(0, 5, 9)]),
            ([(0, 2, 9), (1, 3, 5)], [(2, 0, 1)]),
            ([(0, 2, 10), (1, 3, 5)], []),
        ):
            self.assertFalse(is_shared_out(whole, first, second))


class Grids(unittest.TestCase):
    def test_each_pixel_is_in_one_cell(self):
        chance = random.Random(17)
        picture = bytes(chance.randrange(256) for _ in range(70 * 37 * 4))
        owner = {}
        for (left, top, right, bottom), _ in grid.cells(picture, 70, 37):
            for at in ((x, y) for y in range(top, bottom) for x in range(left, right)):
                self.assertNotIn(at, owner)
                owner[at] = True
        self.assertEqual(len(owner), 70 * 37)

    def test_one_colour_is_few_cells(self):
        self.assertEqual(list(grid.cells(bytes(GREY) * (64 * 64), 64, 64)), [((0, 0, 64, 64), [GREY] * 4)])


if __name__ == "__main__":
    unittest.main()
