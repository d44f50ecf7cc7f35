#!/usr/bin/env python3
"""test_pictured_frames: frames as captures of version 3. After each draw the capture's image is the frame's picture,
byte for byte; the frame is drawn by build/reference.py, which stands in for RenderDoc."""
import copy
import random
import subprocess
import unittest
import zlib
from types import SimpleNamespace
from unittest import mock

import folders

import captures
import frames_testing
import passed_over
import reference
from frames_testing import ADDED, OVER, TARGET, Action, Asked, StandIn, Unblended, clear, draw, quad, state
from real_frames import states, wide, wide_solving, wide_sources
from real_frames.gather import Gatherer, Wanted
from real_frames.losses import Losses
from real_frames.module import SYSTEM_S_PYTHON
from real_frames.pictured import PicturedWriter
from real_frames.shown import Told
from real_frames.solving import Undoing

RED, GREEN, BLUE, GREY = (255, 0, 0, 255), (0, 255, 0, 255), (0, 0, 255, 255), (90, 100, 110, 255)
TESTED = (True, True, "LESS")
TINTED = ("DstCol", "Zero", "Add"), ("One", "Zero", "Add")


def converted(frame, wanted=Wanted()):
    """Where this Python has numpy, with it and without it: both are the same to the byte."""
    capture = converted_so(frame, wanted)
    if wide.numpy:
        other = copy.copy(frame)
        vars(other).update({"questions": []} if hasattr(frame, "questions") else {})
        with mock.patch.object(wide, "numpy", None):
            assert captures.text(converted_so(other, wanted)) == captures.text(
                capture
            ), "with numpy other bytes come out"
    return capture


def converted_so(frame, wanted):
    losses = Losses()
    gatherer = Gatherer(frame, TARGET, losses, wanted)
    records = gatherer.gather()
    return PicturedWriter(gatherer.size, records, losses).capture()


def image_at(capture, position):
    frame = reference.Frame(capture)
    frame.position = position
    return frame.pam().partition(b"ENDHDR\n")[2]


def corners(*four):
    """A quad whose corners have a colour each."""
    (a, b, c, d) = ((x, y, 0.5, colour) for (x, y), colour in zip(((2, 1), (21, 3), (20, 15), (1, 13)), four))
    return [(a, b, c), (a, c, d)]


class Frames(unittest.TestCase):
    def same(self, frame, capture):
        """At each draw of the frame."""
        self.assertIsNone(reference.fault(captures.text(capture).encode()))
        for action in frame.actions:
            events = [
                number
                for number, event in enumerate(capture["events"], 1)
                if event["source"]["event"] == action.eventId
            ]
            if events:
                frame.go(action.eventId)
                self.assertEqual(image_at(capture, events[-1]), frame.picture(TARGET), action.name)

    def colours(self, capture):
        return [event["source"]["colours"] for event in capture["events"] if "colours" in event["source"]]

    def test_draws_that_replace(self):
        frame = StandIn(
            clear(2, GREY, 1.0),
            draw(5, quad(3, 2, 15, 12, 0.5, RED), state(depth=TESTED)),
            draw(9, corners(RED, GREEN, BLUE, GREY), state(depth=TESTED)),
            draw(14, corners(GREY, BLUE, RED, GREEN), state(depth=(True, False, "LESS_EQUAL"), scissor=[0, 3, 24, 9])),
            draw(15, quad(0, 0, 24, 16, 0.1, BLUE), state(mask=5)),
        )
        capture = converted(frame)
        self.same(frame, capture)
        self.assertEqual(
            [event["interp"] for event in capture["events"] if event["kind"] == "draw"],
            ["flat", "picture", "picture", "picture"],
        )
        self.assertTrue(all(set(told) == {"known"} for told in self.colours(capture)), self.colours(capture))

    def test_blended_draws(self):
        see = lambda colour, alpha: (*colour[:3], alpha)
        sheet = corners(see(RED, 200), see(GREEN, 90), see(BLUE, 30), see(GREY, 0))
        premultiplied, brighter = [(("One", "InvSrcAlpha", "Add"),) * 2, (("One", "One", "Maximum"),) * 2]
        for blend in (OVER, ADDED, TINTED, premultiplied, brighter):
            frame = StandIn(
                clear(2, GREY, 1.0),
                draw(4, corners(BLUE, RED, GREY, GREEN)),
                draw(5, sheet, state(blend=blend)),
                draw(6, quad(5, 2, 12, 12, 0.5, see(RED, 77)), state(blend=blend)),
            )
            self.same(frame, converted(frame))

    def test_how_colours_are_known(self):
        """By the draw alone, as far as it tells them; else they are worked out from the picture, and where histories
        were asked for, known at the pixels that these tell."""
        glass, box = (60, 20, 90, 100), (3, 2, 15, 12)
        told = lambda frame, wanted=Wanted(): self.colours(converted(frame, wanted))
        of = lambda kind, *draws: kind(clear(2, GREY, 1.0), *draws)
        for blend, wanted in (
            (OVER, "known"),
            (ADDED, "known"),
            (TINTED, "worked out"),
            ((("One", "One", "Minimum"),) * 2, "worked out"),
            ((("SrcAlpha", "One", "Add"), ("Zero", "One", "Add")), "worked out"),
        ):
            self.assertEqual(
                told(of(StandIn, draw(5, quad(*box, 0.5, glass), state(blend=blend)))), [{wanted: 120}], blend
            )
        self.assertEqual(told(of(StandIn, draw(5, quad(*box, 0.5, glass))), Wanted(with_alone=False)), [{"known": 120}])
        self.assertEqual(
            told(of(StandIn, draw(5, quad(*box, 0.5, glass), state(blend=OVER))), Wanted(with_alone=False)),
            [{"worked out": 120}],
        )
        for dark in (glass[:3], (0, 0, 0)):  # divided by so little an alpha, a byte isn't known
            self.assertEqual(
                told(of(StandIn, draw(5, quad(*box, 0.5, (*dark, 30)), state(blend=OVER)))), [{"worked out": 120}]
            )
        asked = of(Asked, draw(5, quad(*box, 0.5, glass), state(blend=OVER)))
        capture = converted(asked)
        self.same(asked, capture)
        self.assertEqual(
            self.colours(capture), [{"known": len(asked.questions), "worked out": 120 - len(asked.questions)}]
        )
        self.assertEqual({tuple(vertex["color"]) for vertex in capture["events"][-1]["vertices"]}, {glass})
        unblended = of(Unblended, draw(5, quad(*box, 0.5, glass), state(blend=OVER)))
        self.assertEqual(tuple(converted(unblended)["events"][-1]["vertices"][0]["color"][:3]), glass[:3])

    def test_what_is_empty_over_black_is_no_black(self):
        frame = StandIn(
            clear(2, (0, 0, 0, 255), 1.0), draw(5, quad(3, 2, 15, 12, 0.5, (0, 0, 0, 0)), state(blend=OVER))
        )
        capture = converted(frame)
        self.same(frame, capture)
        self.assertEqual({tuple(vertex["color"]) for vertex in capture["events"][-1]["vertices"]}, {(0, 0, 0, 0)})

    def test_two_layers_of_one_draw(self):
        glass = quad(3, 2, 15, 12, 0.5, (60, 20, 90, 100)) + quad(8, 5, 22, 15, 0.5, (60, 20, 90, 100))
        frame = StandIn(clear(2, GREY, 1.0), draw(5, glass, state(blend=OVER)))
        self.same(frame, converted(frame))

    def test_what_blending_can_t_say_is_replaced(self):
        """What the frame has isn't what its blending gives: a pixel's colour goes down where it is added to."""
        frame = StandIn(
            clear(2, GREY, 1.0),
            draw(5, corners(RED, GREEN, BLUE, GREY)),
            draw(7, quad(3, 2, 15, 12, 0.5, (9, 9, 9, 0)), state(blend=ADDED, depth=TESTED)),
        )
        frame.actions[2].truth[1] = frame.actions[2].truth[1] | {"rgb": ["ONE", "ONE", "REV_SUBTRACT"]}
        capture = converted(frame)
        self.same(frame, capture)
        baked = [event["interp"] for event in capture["events"] if event["source"].get("baked") == "after"]
        self.assertEqual(baked, ["picture"])
        self.assertEqual(capture["losses"][0]["what"], "pixels whose blending gives no source")

    def test_pixels_that_are_alike(self):
        """All of one colour are replaced, and what a draw that may discard leaves as it was is drawn where the draw
        alone is seen."""
        frame = StandIn(
            clear(2, GREY, 1.0), draw(7, quad(3, 2, 15, 12, 0.5, (9, 9, 9, 0)), state(blend=ADDED, depth=TESTED))
        )
        frame.actions[1].truth[1] = frame.actions[1].truth[1] | {"rgb": ["ONE", "ONE", "REV_SUBTRACT"]}
        self.same(frame, converted(frame))
        over = StandIn(
            clear(2, GREY, 1.0),
            draw(5, quad(3, 2, 15, 12, 0.3, GREY), state(blend=OVER, discards=True, depth=TESTED)),
            draw(6, quad(0, 0, 24, 16, 0.6, RED), state(depth=TESTED)),
        )
        self.same(over, converted(over))

    def test_discarded_pixels_leave_no_depth(self):
        """Holes where nothing changed: what comes later and lies behind shows there."""
        hole = draw(5, quad(3, 2, 15, 12, 0.3, GREY), state(depth=TESTED, discards=True))
        hole.truth[-1] = captures.draw(
            hole.truth[-1]["vertices"][:3], "linear"
        )  # the shader discards the second triangle
        frame = StandIn(clear(2, BLUE, 1.0), hole, draw(6, quad(0, 0, 24, 16, 0.6, RED), state(depth=TESTED)))
        capture = converted(frame)
        self.same(frame, capture)
        self.assertIn("holes", next(event for event in capture["events"] if event["kind"] == "draw")["picture"])

    def test_what_was_there_before(self):
        wide = [
            captures.vertex(x << 16, y << 16, colour, 0)
            for x, y, colour in ((0, 0, RED), (30, 0, GREEN), (0, 20, BLUE))
        ]
        before = [captures.raster("none"), captures.draw(wide, "linear")]
        frame = StandIn(draw(5, quad(3, 2, 15, 12, 0.5, (1, 2, 3, 100)), state(blend=OVER)), before=before)
        for capture in (converted(frame), frames_testing.converted(frame)):
            self.assertEqual(
                [
                    (event["source"]["event"], event["source"]["name"])
                    for event in capture["events"]
                    if event["kind"] == "draw"
                ],
                [(0, "before"), (5, "draw()")],
            )
        self.same(frame, converted(frame))
        later = StandIn(draw(2, quad(1, 1, 9, 9, 0.5, RED), targets=(8,)), *frame.actions, before=before)
        self.assertEqual(
            [
                event["source"]["event"]
                for event in converted(later)["events"]
                if event["source"]["name"] == "before" and event["kind"] == "draw"
            ],
            [2],
        )

    def test_what_the_first_draw_paints_over_is_not_written(self):
        before, whole = [captures.clear(7, 8, 9, 255)], quad(-1, -1, 30, 20, 0.5, RED)
        is_kept = lambda frame: [
            "before" in [event["source"]["name"] for event in make(frame)["events"]]
            for make in (converted, frames_testing.converted)
        ]
        for first in (
            state(),
            state(depth=(True, True, "ALWAYS")),
            state(("back", False)),
            state(scissor=[0, 0, 24, 16]),
        ):
            frame = StandIn(
                draw(5, whole, first), draw(6, quad(3, 2, 9, 12, 0.5, (1, 2, 3, 100)), state(blend=OVER)), before=before
            )
            self.assertEqual(is_kept(frame), [False, False])
            self.same(frame, converted(frame))
        for triangles, first in (
            (whole[:1], state()),
            (quad(0, 0, 24, 15, 0.5, RED), state()),
            (quad(1, 0, 24, 16, 0.5, RED), state()),
            (whole, state(blend=OVER)),
            (whole, state(mask=7)),
            (whole, state(depth=TESTED)),
            (whole, state(discards=True)),
            (whole, state(("back", True))),
            (whole, state(scissor=[0, 0, 24, 15])),
        ):
            self.assertEqual(is_kept(StandIn(draw(5, triangles, first), before=before)), [True, True], first)

    def test_a_copy_onto_the_target(self):
        """It brings what differs, in its own name."""
        frame = StandIn(
            clear(2, GREY, 1.0),
            Action(5, "copy", "glBlitFramebuffer()", draw(0, quad(5, 5, 12, 12, 0.5, GREEN)).truth),
            draw(6, quad(4, 2, 9, 9, 0.5, BLUE)),
        )
        capture = converted(frame)
        self.same(frame, capture)
        (copy,) = [event for event in capture["events"] if event["kind"] == "draw" and event["source"]["event"] == 5]
        self.assertEqual(
            (copy["source"]["name"], copy["picture"]["left"], copy["picture"]["width"]), ("glBlitFramebuffer()", 5, 7)
        )

    def test_what_is_told_of_textures_is_true(self):
        frame = StandIn(clear(2, GREY, 1.0), draw(5, quad(3, 2, 15, 12, 0.5, RED)))
        frame.reads_textures = lambda action: True
        note = lambda capture: next(
            loss for loss in capture["losses"] if loss["what"] == "draws that read textures"
        ).get("note")
        self.assertEqual(note(converted(frame)), "what they gave is told pixel by pixel")
        self.assertEqual(note(frames_testing.converted(frame)), "colours are fitted to the frame's pictures")
        self.assertEqual(
            note(frames_testing.converted(frame, wanted=Wanted(with_colours=False), colours="distinct")), None
        )


class WithNumpy(unittest.TestCase):
    """The system's Python is the one that the converter runs by, and Debian's numpy is for it alone."""

    def passes(self, name):
        if subprocess.run([SYSTEM_S_PYTHON, "-c", "import numpy"], capture_output=True).returncode:
            self.skipTest("python3-numpy isn't installed")
        done = subprocess.run([SYSTEM_S_PYTHON, __file__, name], capture_output=True, text=True, timeout=600)
        self.assertEqual(done.returncode, 0, done.stderr[-3000:])

    def test_the_system_s_python(self):
        self.passes("Frames")

    def test_many_pixels_at_once(self):
        self.passes("AtOnce")


if wide.numpy:

    class AtOnce(unittest.TestCase):
        """By chance: what numpy finds for many pixels is what is found for each of them."""

        def setUp(self):
            self.rng = random.Random(9)

        def byte(self):
            return self.rng.choice((0, 255, 8, self.rng.randrange(256), self.rng.randrange(20)))

        def some(self, count):
            return [tuple(self.byte() for _ in range(4)) for _ in range(count)]

        def blend(self):
            pick = self.rng.choice
            colours = pick(
                (
                    [pick(reference.FACTORS), pick(reference.FACTORS), pick(reference.OPERATIONS)],
                    [pick(("SRC_ALPHA", "ONE")), "INV_SRC_ALPHA", "ADD"],
                    [pick(("SRC_ALPHA", "ONE", "DEST_COLOR")), pick(("ONE", "SRC_COLOR", "ZERO")), "ADD"],
                )
            )
            alpha = [*(pick(captures.ALPHA_FACTORS) for _ in range(2)), pick((*reference.OPERATIONS, "ADD", "ADD"))]
            return captures.blend(True, colours, alpha, pick((15, 15, 7, self.rng.randrange(16))))

        def test_guesses(self):
            for _ in range(200):
                blend, depth = self.blend(), states.depth(*self.rng.choice((TESTED, (False, False, "LESS"))))
                alone, before, after = self.some(30), self.some(30), self.some(30)
                alone = [
                    self.rng.choice((colour, (*colour[:3], 0), (0, 0, 0, colour[3]), (0,) * 4)) for colour in alone
                ]
                layers = [self.rng.choice((1, 1, 2, 5)) for _ in alone]
                record = SimpleNamespace(
                    state=SimpleNamespace(blend=blend, depth=depth),
                    own=None,
                    known={},
                    alone=zlib.compress(bytes(sum(alone, ()))),
                )
                told, pictures = Told(record, None), [rows(one) for one in (alone, before, after)]
                made, are_known = wide_sources.Alone(record, pictures, wide.numpy.array(layers)).guesses()
                for at, both in enumerate(zip(map(tuple, made.T.tolist()), are_known.tolist())):
                    pixel = layers[at], before[at], after[at]
                    self.assertEqual(both, told.guess(at, *pixel), (blend, alone[at], *pixel))

        def test_sources(self):
            for _ in range(150):
                blend = self.rng.choice((self.blend(), captures.blend(False, mask=self.rng.randrange(16))))
                one = Undoing(blend, tuple(self.byte() for _ in range(4)))
                before, sources = self.some(6), self.some(6)
                layers = [self.rng.choice((1, 1, 1, 2, 3)) for _ in before]
                after = [
                    source if self.rng.random() < 0.05 else one.over(source, there, count)
                    for source, there, count in zip(sources, before, layers)
                ]
                near = lambda value: min(max(value + self.rng.choice((-3, 0, 0, 1, 40)), 0), 255)
                guesses = [tuple(map(near, source)) for source in sources]
                pictures = [rows(some) for some in (guesses, before, after)]
                pixels = wide_solving.Pixels(*pictures, wide.numpy.array(layers, "i4"))
                made, found = wide_solving.WideBlending(one).source(pixels)
                for at, (source, is_one) in enumerate(zip(map(tuple, made.T.tolist()), found.tolist())):
                    pixel = guesses[at], before[at], after[at], layers[at]
                    self.assertEqual(source if is_one else None, one.source(*pixel), (blend, one.factor, *pixel))

    def rows(colours):
        return wide.numpy.array(colours, "i4").T


class Solving(unittest.TestCase):
    def test_a_source_is_found_where_there_is_one(self):
        """By chance: what one source makes of a pixel another one that is near a guess makes too."""
        rng = random.Random(7)
        byte = lambda: rng.choice((0, 255, rng.randrange(256)))
        for _ in range(400):
            factors = lambda: [
                rng.choice(reference.FACTORS),
                rng.choice(reference.FACTORS),
                rng.choice(reference.OPERATIONS),
            ]
            alpha = [
                rng.choice(captures.ALPHA_FACTORS),
                rng.choice(captures.ALPHA_FACTORS),
                rng.choice(reference.OPERATIONS),
            ]
            blend, factor = captures.blend(
                rng.random() < 0.9, factors(), alpha, rng.choice((15, 15, rng.randrange(16)))
            ), tuple(byte() for _ in range(4))
            source, before, layers = (
                tuple(byte() for _ in range(4)),
                tuple(byte() for _ in range(4)),
                rng.choice((1, 1, 2)),
            )
            held = {
                "blend": (int(blend["enable"]), tuple(blend["rgb"]), tuple(blend["alpha"]), blend["mask"]),
                "factor": factor,
            }
            after = before
            for _ in range(layers):
                after = reference.blend(held, source, after)
            made = Undoing(blend, factor)
            self.assertEqual(made.over(source, before, layers), after)
            self.assertEqual(made.source(source, before, after, layers), source)
            guess = tuple(min(max(value + rng.randrange(-3, 4), 0), 255) for value in source)
            found = made.source(guess, before, after, layers)
            self.assertIsNotNone(found, (blend, factor, source, before, layers))
            self.assertEqual(made.over(found, before, layers), after)

    def test_an_interval_holds_what_trying_finds(self):
        """By chance: a channel's nearest value by its equation is as near as the nearest of all 256."""
        rng = random.Random(8)
        byte = lambda: rng.choice((0, 255, rng.randrange(256)))
        for _ in range(1500):
            rgb = [
                *(rng.choice([name for name in reference.FACTORS if "SRC_COLOR" not in name]) for _ in range(2)),
                rng.choice(("ADD", "SUBTRACT", "REV_SUBTRACT")),
            ]
            made = Undoing(captures.blend(True, rgb, mask=rng.choice((15, 15, 9))), tuple(byte() for _ in range(4)))
            self.assertTrue(made.is_straight)
            before, guess = tuple(byte() for _ in range(4)), tuple(byte() for _ in range(4))
            after = rng.choice((made.over(guess, before, 1), tuple(byte() for _ in range(4))))
            channel = rng.randrange(3)
            found, tried = (way(channel, guess, (before, after), 1) for way in (made.straight, made.tried))
            self.assertEqual(found is None, tried is None, (rgb, guess, before, after, channel))
            if found is not None:
                self.assertEqual(
                    abs(found - guess[channel]), abs(tried - guess[channel]), (rgb, guess, before, after, channel)
                )

    def test_the_guess_s_alpha_is_kept(self):
        made = Undoing(captures.blend(True, ["SRC_ALPHA", "INV_SRC_ALPHA", "ADD"], ["ZERO", "ONE", "ADD"]), (255,) * 4)
        self.assertEqual(made.source((40, 20, 30, 128), (100, 100, 100, 7), (55, 60, 65, 7), 1)[1:], (20, 30, 128))

    def test_none(self):
        added = captures.blend(True, ["ONE", "ONE", "ADD"], ["ONE", "ONE", "ADD"])
        self.assertIsNone(Undoing(added, (0,) * 4).source((0, 0, 0, 0), (9, 9, 9, 9), (8, 9, 9, 9), 1))
        self.assertIsNone(
            Undoing(captures.blend(False, mask=14), (0,) * 4).source((0, 0, 0, 0), (9, 9, 9, 9), (8, 9, 9, 9), 1)
        )


if __name__ == "__main__":
    passed_over.run_tests("test_pictured_frames")
