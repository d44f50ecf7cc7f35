"""What blame works out at single pixels: colours after changes are those of the reference, and a moved vertex is
where no pixel differs."""
import random
import unittest

import folders

import reference
from blame_testing import Folder, blend, box, capture, clear, depth, draw, painted, raster

from blaming import cells, comparing, fragments, frame, points
from rules.coverage import centre
from rules.snapping import snapped

WIDTH, HEIGHT, RED = 20, 16, (200, 40, 30, 255)
EXACT = comparing.Comparison(b"")


def colours_of(events):
    """All pixels of a picture by the reference, row by row."""
    made = reference.Frame(capture(events, WIDTH, HEIGHT, 3))
    return [made.replay(len(events), x, y)[0][0] for y in range(HEIGHT) for x in range(WIDTH)]


def points_of(events, wanted):
    """All pixels as points: those first that differ."""
    places = [
        (x, y, tuple(colour)) for (x, y), colour in zip(((x, y) for y in range(HEIGHT) for x in range(WIDTH)), wanted)
    ]
    bad = [a != b for a, b in zip(colours_of(events), wanted)]
    some = lambda which: [place for place, is_bad in zip(places, bad) if is_bad == which]
    return points.Points(frame.CaptureFrame(capture(events, WIDTH, HEIGHT, 3)), some(True), some(False), EXACT)


def a_frame(rng):
    """Draws by chance with corners on pixels' centres too, between states of each kind."""
    colour = lambda: tuple(rng.randrange(256) for _ in range(4))
    place = lambda: rng.choice((rng.uniform(-6, 24), rng.randrange(-4, 22) + 0.5, rng.randrange(0, 18)))
    plain = lambda: draw(
        *[(place(), place(), colour(), rng.randrange(65536)) for _ in range(5)],
        interp=rng.choice(("flat", "linear")),
        indices=[rng.randrange(5) for _ in range(9)],
    )
    mesh = (
        lambda: painted(plain(), rng, rng.randrange(9), rng.randrange(9), rng.randrange(1, 17), rng.randrange(1, 17))
        if rng.random() < 0.4
        else plain()
    )
    states = [
        lambda: raster(rng.choice(("none", "front", "back")), rng.random() < 0.5, rng.random() < 0.4),
        lambda: {"kind": "scissor", "rect": [2, 3, rng.randrange(6, 20), 13]},
        lambda: blend(
            rng.random() < 0.7,
            f"{rng.choice(reference.FACTORS)} {rng.choice(reference.FACTORS)} {rng.choice(reference.OPERATIONS)}",
            mask=rng.randrange(16),
        ),
        lambda: {"kind": "factor", "color": list(colour())},
        lambda: depth(rng.choice(list(reference.PASSES)), rng.random() < 0.7, rng.random() < 0.7),
        lambda: clear(*colour()),
        lambda: {"kind": "depth_clear", "depth": rng.randrange(65536)},
        lambda: {"kind": "marker", "name": "here"},
    ]
    tested = depth(rng.choice(("LESS", "LESS_EQUAL", "ALWAYS")))
    return [clear(*colour()), tested, mesh(), mesh(), *[rng.choice([mesh, mesh, *states])() for _ in range(11)], mesh()]


def changed(rng, events):
    """One event left out, doubled, moved or exchanged with one by chance, or the corner of a draw moved."""
    at, other = rng.randrange(len(events)), rng.randrange(len(events))
    if events[at]["kind"] == "draw" and rng.random() < 0.6:
        corner = rng.randrange(5)
        moved = events[at]["vertices"][corner] | {"x": rng.randrange(0, 20 << 16)}
        return [
            *events[:at],
            events[at]
            | {"vertices": [moved if i == corner else vertex for i, vertex in enumerate(events[at]["vertices"])]},
            *events[at + 1 :],
        ]
    rest = events[:at] + events[at + 1 :]
    return rng.choice(
        (
            rest,
            events[:at] + events[at : at + 1] + events[at:],
            rest[:other] + [events[at]] + rest[other:],
            [*events[:at], a_frame(rng)[5], *events[at + 1 :]],
        )
    )


def apart(found, wanted):
    """Some of the places where colours differ; how all of them do unittest takes minutes to tell."""
    return [
        (at, tuple(one), tuple(two))
        for at, (one, two) in enumerate(zip(found, wanted, strict=True))
        if tuple(one) != tuple(two)
    ][:4]


class Worked(unittest.TestCase):
    def test_colours_after_a_change(self):
        rng = random.Random(8)
        for _ in range(24):
            events = a_frame(rng)
            at_first = colours_of(events)
            made = points_of(events, at_first)
            for _ in range(8):
                other = changed(rng, events)
                self.assertEqual(apart(made.after(other), colours_of(other)), [])

    def test_a_draw_with_other_fragments(self):
        """At single pixels: with its own ones all is as it was, and with none as without it."""
        rng = random.Random(12)
        for _ in range(5):
            events = a_frame(rng)
            at_first = colours_of(events)
            made = points_of(events, at_first)
            for k in [k for k, event in enumerate(events) if event["kind"] == "draw"][:3]:
                own, without = made.fragments(k), colours_of(events[:k] + events[k + 1 :])
                self.assertEqual(
                    apart([made.final(point, k, own.get(point, [])) for point in range(len(made))], at_first), []
                )
                self.assertEqual(apart([made.final(point, k, []) for point in range(len(made))], without), [])

    def test_states_that_are_set_again(self):
        """Of a state that is changed only the draws up to the next one like it are drawn otherwise, and of those
        behind what lies on other colours."""
        over = box(4, 3, 12, 12, (200, 10, 10, 90), 20000)
        events = [
            clear(9, 8, 7, 6),
            blend(),
            depth(),
            over,
            blend(mask=7),
            box(2, 5, 16, 9, (4, 90, 200, 60), 10000),
            clear(1, 1, 1, 1),
            blend(rgb="ONE ONE ADD"),
            box(6, 2, 9, 14, (30, 30, 30, 30), 20000),
        ]
        made = points_of(events, colours_of(events))
        for number, event in (
            (2, blend(mask=3)),
            (3, depth("GREATER")),
            (3, depth(write=False)),
            (5, blend(False)),
            (8, blend()),
            (7, depth("NEVER")),
            (1, depth("ALWAYS")),
        ):
            other = [*events[: number - 1], event, *events[number:]]
            self.assertEqual(apart(made.after(other), colours_of(other)), [], number)

    def test_depths_alone(self):
        """A clear of depths that leaves all colours as they are, and lets the box behind it be seen no more."""
        events = [
            clear(9, 9, 9, 9),
            {"kind": "depth_clear", "depth": 50000},
            depth(),
            box(2, 2, 12, 12, (200, 10, 10, 255), 30000),
        ]
        other = [events[0], {"kind": "depth_clear", "depth": 10000}, *events[2:]]
        self.assertEqual(
            apart(points_of(events, colours_of(events)).after(other), [(9, 9, 9, 9)] * (WIDTH * HEIGHT)), []
        )

    def test_what_is_left(self):
        right, wrong = [clear(1, 2, 3, 4), box(2, 2, 9, 9, (9, 9, 9, 9))], [
            clear(1, 2, 3, 4),
            box(2, 2, 9, 8, (9, 9, 9, 9)),
        ]
        made = points_of(wrong, colours_of(right))
        self.assertEqual(
            (made.wrong, made.left(made.frame.events), made.left(right), made.worth(right)), (7, (7, 0), (0, 0), (0, 0))
        )
        self.assertEqual(made.left([clear(1, 2, 3, 4)]), (7, 42))
        self.assertEqual(made.still(made.frame.events), [(x, 8) for x in range(2, 9)])
        self.assertEqual(made.worth(made.frame.events), (7 * (8 + 7 + 6 + 5), 7))
        self.assertEqual((len(made.few()), made.few().wrong), (7, 7))
        self.assertEqual(len(made.more([(0, 0, (1, 2, 3, 4))])), len(made) + 1)

    def test_fragments(self):
        rng, count = random.Random(2), 0
        for number in range(400):
            unit = 64 if number % 2 else 128  # half a pixel: edges often go through middles
            corners_ = [
                (
                    (rng.randrange(-9, 2560 // unit) * unit, rng.randrange(-9, 2560 // unit) * unit),
                    tuple(rng.randrange(256) for _ in range(4)),
                    rng.randrange(65536),
                )
                for _ in range(3)
            ]
            triangle, x, y, interp = fragments.Triangle(corners_, False), rng.randrange(9), rng.randrange(9), "linear"
            places, colours, depths = zip(*corners_)
            weights = triangle.weights(centre(x, y))
            self.assertEqual(weights is not None, reference.covers(places, x, y))
            if weights:
                count += 1
                self.assertEqual(
                    triangle.fragment(weights),
                    (
                        reference.cross(*places) > 0,
                        reference.source(places, colours, interp, x, y),
                        reference.depth_of(places, depths, x, y),
                    ),
                )
        self.assertGreater(count, 40)


def fan(interp, chance, scale=1):
    """A wheel of six triangles, each flat one of another colour, whose hub can be moved."""
    spokes = [(10, 1), (17, 4), (17, 12), (10, 15), (3, 12), (3, 4)]
    colour = lambda: tuple(chance.randrange(256) for _ in range(3)) + (255,)
    order = [i for k in range(6) for i in (k + 1, (k + 1) % 6 + 1, 0)]
    return draw(*[(scale * x, scale * y, colour()) for x, y in [(10, 8), *spokes]], interp=interp, indices=order)


class Cells(Folder):
    def test_the_right_place_is_never_shut_out(self):
        """Of the clauses that the points give each leaves an alternative to the place at which the vertex was."""
        rng = random.Random(6)
        for interp in ("flat", "linear"):
            for state in ([], [raster("none")], [blend()], [depth(), {"kind": "depth_clear", "depth": 60000}]):
                hub = [rng.randrange(6 << 16, 14 << 16) for _ in range(2)]
                right = [clear(9, 9, 9, 255), *state, fan(interp, random.Random(4))]
                wrong = [
                    *right[:-1],
                    right[-1]
                    | {"vertices": [right[-1]["vertices"][0] | dict(zip("xy", hub)), *right[-1]["vertices"][1:]]},
                ]
                made = points_of(wrong, colours_of(right))
                cell, place = cells.Cell(made, len(wrong), 0), (2560, 2048)
                clauses = list(cell.clauses(snapped(wrong[-1]["vertices"][0])))
                self.assertGreater(len(clauses), 20)
                for clause in clauses:
                    self.assertTrue(
                        any(all(cells.value(line, place) >= -cells.SLACK for line in lines) for lines in clause),
                        (interp, state),
                    )

    def test_corners_of_draws_with_pictures(self):
        """Of a triangle whose texels say which pixels it covers; its holes say nothing."""
        for seed in range(6):
            rng = random.Random(seed)
            corner = painted(draw((1, 1, RED), (18, 3, RED), (4, 15, RED), interp="flat"), rng, 2, 1, 17, 14)
            right = [clear(9, 9, 9, 255), raster("none"), corner]
            moved = corner["vertices"][1] | {"x": 12 << 16, "y": 6 << 16}
            wrong = [*right[:-1], corner | {"vertices": [corner["vertices"][0], moved, corner["vertices"][2]]}]
            cell = cells.Cell(points_of(wrong, colours_of(right)), len(wrong), 1)
            clauses = list(cell.clauses(snapped(moved)))
            self.assertGreater(len(clauses), 20)
            for clause in clauses:
                self.assertTrue(
                    any(
                        all(cells.value(line, (18 * 256, 3 * 256)) >= -cells.SLACK for line in lines)
                        for lines in clause
                    ),
                    seed,
                )

    def test_clipping(self):
        square = [(0, 0), (8, 0), (8, 8), (0, 8)]
        self.assertEqual(sorted(cells.clipped(square, (1, 0, -4))), [(3.5, 0), (3.5, 8), (8, 0), (8, 8)])
        self.assertEqual(cells.clipped(square, (-1, 0, -4)), [])
        one, other = [[(1, 0, -6)], [(-1, 0, 2)]], [[(0, 1, -6)], [(-1, 0, 7)]]
        left = list(cells.polygons(square, [one, other], []))
        self.assertTrue(any(all(x >= 5.5 and y >= 5.5 for x, y in polygon) for polygon in left))
        self.assertTrue(
            any(all(x <= 2.5 for x, _ in polygon) for polygon in left), "the other alternative of the first one"
        )
        self.assertEqual(list(cells.polygons(square, [[[(1, 0, -20)]]], [])), [])

    def test_a_vertex_that_moved(self):
        """To the last pixel: flat and linear, far and near, and where a corner is seen by its edges alone."""
        for number, interp in enumerate(("flat", "linear", "flat", "linear")):
            rng = random.Random(number)
            right = [clear(9, 9, 9, 255), *([blend()] if number == 3 else []), fan(interp, rng)]
            at = 0 if number < 2 else 2
            moved = {
                name: right[-1]["vertices"][at][name] + rng.choice((-1, 1)) * rng.randrange(1 << 15, 5 << 16)
                for name in "xy"
            }
            vertices = [vertex | (moved if i == at else {}) for i, vertex in enumerate(right[-1]["vertices"])]
            outcome = self.found(capture([*right[:-1], right[-1] | {"vertices": vertices}]), capture(right))
            self.assertTrue(outcome.is_mended, (number, [(one.change.says, one.left) for one in outcome.changes[:3]]))
            self.assertIn(len(right), [suspect.event for suspect in outcome.suspects[:3]])

    def test_pixels_that_still_differ_are_asked_again(self):
        """Few points say little of a place: with those of the picture that it leaves wrong it is found."""
        right = capture([clear(9, 9, 9, 255), fan("flat", random.Random(1), 4)], 72, 64)
        moved = right["events"][1]["vertices"][0] | {"x": 53 << 16, "y": 21 << 16}
        wrong = capture(
            [right["events"][0], right["events"][1] | {"vertices": [moved, *right["events"][1]["vertices"][1:]]}],
            72,
            64,
        )
        self.assertTrue(self.found(wrong, right).is_mended)


if __name__ == "__main__":
    unittest.main()
