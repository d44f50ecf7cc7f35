"""The converter of RenderDoc's frames without RenderDoc: whole frames, which build/reference.py draws, and reels."""
import random
import unittest

import folders

from frames_testing import (
    ADDED,
    Asked,
    HEIGHT,
    OTHER,
    OVER,
    Unblended,
    WIDTH,
    Action,
    StandIn,
    clear,
    converted,
    draw,
    image,
    image_of,
    quad,
    state,
    TARGET,
)

import reference
from real_frames import coverage
from real_frames.asked import pixels_to_ask
from real_frames.fault import Fault
from real_frames.gather import Wanted
from real_frames.losses import Losses
from real_frames.painter import STRAYS, Detail
from real_frames.placing import PIXEL
from real_frames.reel import GRAIN, Reel, changed
from real_frames.viewport import Viewport

RED, GREEN, BLUE, GREY = (255, 0, 0, 255), (0, 255, 0, 255), (0, 0, 255, 255), (90, 100, 110, 255)
TESTED = (True, True, "LESS")
BRIGHTER = ("One", "One", "Maximum"), ("One", "One", "Maximum")


class Frames(unittest.TestCase):
    def same(self, frame, capture, by=0):
        """The capture is one, and its image is the frame's last picture, each byte within so many."""
        self.assertIsNone(reference.fault(as_bytes(capture)))
        frame.go(frame.actions[-1].eventId)
        self.assertLessEqual(max(abs(a - b) for a, b in zip(image_of(capture), frame.picture(TARGET))), by)

    def opaque(self):
        return StandIn(
            clear(2, GREY, 1.0),
            Action(3, "marker", "the\tscene " + "é" * 40, until=9),
            draw(5, quad(3, 2, 15, 12, 0.5, RED), state(depth=TESTED)),
            draw(9, quad(8, 5, 22, 15, 0.7, BLUE), state(depth=TESTED), "behind()"),
            draw(11, quad(6, 1, 10, 16, 0.3, GREEN), state(depth=(True, False, "LESS_EQUAL"), scissor=[0, 3, 24, 9])),
            draw(14, quad(0, 0, 24, 16, 0.6, BLUE), state(depth=TESTED, mask=4)),
        )

    def test_opaque_draws_with_depth_scissor_and_mask(self):
        frame = self.opaque()
        self.same(frame, converted(frame))

    def test_each_event_knows_its_call(self):
        capture = converted(self.opaque())
        sources_of = {
            (event["source"]["event"], event["source"]["name"], str(event["source"].get("primitives")))
            for event in capture["events"]
        }
        self.assertIn((9, "behind()", "[[0, 0], [0, 1]]"), sources_of)
        self.assertIn((2, "clear()", "None"), sources_of)
        names = [event["name"] for event in capture["events"] if event["kind"] == "marker"]
        self.assertEqual(names[0], "thescene " + "é" * 27)
        self.assertEqual([event["source"]["until"] for event in capture["events"] if "until" in event["source"]], [9])
        self.assertEqual(names[2], "9 behind()")
        self.assertEqual(coverage.places_of(capture).keys(), {5, 9, 11, 14})

    def test_two_triangles_of_a_draw_over_each_other(self):
        frame = StandIn(clear(1, GREY), draw(2, quad(2, 2, 16, 12, 0.5, RED) + quad(9, 4, 22, 15, 0.5, BLUE)))
        self.same(frame, converted(frame))

    def test_smooth_colours(self):
        corners = [((2, 1, 0.2, RED), (22, 3, 0.9, BLUE), (5, 15, 0.5, GREEN))]
        frame = StandIn(clear(1, GREY, 1.0), draw(2, corners, state(depth=TESTED)))
        self.same(frame, converted(frame), 2)

    def test_winding_and_culling(self):
        a, b, c = (2, 1, 0.5, RED), (20, 2, 0.5, RED), (3, 14, 0.5, RED)
        for raster in (("back", False), ("back", True), ("front", False)):
            frame = StandIn(clear(1, GREY), draw(2, [(a, b, c)], state(raster)), draw(3, [(a, c, b)], state(raster)))
            self.same(frame, converted(frame))

    def test_blended_draws(self):
        glass = (200, 100, 40, 128)
        frame = StandIn(
            clear(1, GREY),
            draw(2, quad(2, 2, 16, 12, 0.5, glass), state(blend=OVER)),
            draw(4, quad(8, 4, 23, 15, 0.5, (30, 40, 50, 60)), state(blend=ADDED)),
        )
        self.same(frame, converted(frame), 2)
        made_up = Losses()
        converted(frame, made_up, Wanted(with_alone=False))
        self.assertEqual(made_up.counts["blended draws whose alpha is made up"], 2)

    def test_blended_draws_that_can_only_be_asked_about(self):
        """Their colours are those that the shader gave, alpha too, though the picture tells but what was blended;
        some channels are cut off at 255, and some of it shows nowhere."""
        lit = [(200, 100, 40, 128), (180, 120, 60, 100), (150, 90, 20, 140), (210, 80, 70, 120)]
        glass = [
            tuple((x, y, z, own) for (x, y, z, _), own in zip(corners, some))
            for corners, some in zip(quad(2, 2, 18, 13, 0.5, RED), (lit[:3], (lit[0], lit[2], lit[3])))
        ]
        for blend, under in (
            (OVER, GREY),
            (ADDED, GREY),
            (ADDED, (200, 10, 10, 255)),
            (BRIGHTER, (170, 20, 30, 60)),
            ((("One", "Zero", "Add"),) * 2, GREY),
            ((("One", "InvSrcAlpha", "Add"),) * 2, GREY),
        ):
            frame, losses = Asked(clear(1, under), draw(2, glass, state(blend=blend))), Losses()
            made = converted(frame, losses, Wanted(histories=100))
            for vertex in made["events"][-1]["vertices"]:
                wanted = next(
                    colour
                    for corners in glass
                    for x, y, _, colour in corners
                    if (x * PIXEL, y * PIXEL) == (vertex["x"], vertex["y"])
                )
                self.assertLessEqual(
                    max(abs(a - b) for a, b in zip(vertex["color"], wanted)), 4, (blend, under, vertex, wanted)
                )
            self.assertEqual(losses.counts["blended draws whose alpha is known at some pixels"], 1)
            self.assertNotIn("blended draws whose alpha is made up", losses.counts)
            self.same(frame, made, 3)

    def test_blended_draws_that_can_be_had_unblended(self):
        """Over a step of colours, so that alpha shows; where a draw lies over its own colour, any alpha gives the
        picture."""
        glass = [(2, 2, 0.5, (200, 100, 40, 60)), (20, 3, 0.5, (180, 120, 60, 120)), (4, 14, 0.5, (150, 90, 20, 90))]
        for words in (OVER, (("One", "InvSrcAlpha", "Add"),) * 2, (("SrcAlpha", "One", "Add"),) * 2):
            frame, losses = (
                Unblended(
                    clear(1, (30, 40, 50, 255)),
                    draw(2, quad(0, 0, 9, 16, 0.5, (90, 20, 70, 255))),
                    draw(3, [tuple(glass)], state(blend=words)),
                ),
                Losses(),
            )
            made = converted(frame, losses)
            for vertex, (*_, wanted) in zip(made["events"][-1]["vertices"], glass):
                self.assertLessEqual(
                    max(abs(a - b) for a, b in zip(vertex["color"], wanted)), 4, (words, vertex, wanted)
                )
            self.assertFalse([what for what in losses.counts if "made up" in what or "explain" in what])
            self.same(frame, made, 3)
        white = (240, 240, 240, 128)
        frame = Unblended(clear(1, (240, 240, 240, 255)), draw(2, quad(2, 2, 16, 12, 0.5, white), state(blend=OVER)))
        self.same(frame, converted(frame), 1)

    def test_a_draw_s_own_colours_that_don_t_explain_the_picture(self):
        frame, losses = (
            Unblended(clear(1, GREY), draw(2, quad(2, 2, 16, 12, 0.5, (200, 20, 40, 128)), state(blend=OVER))),
            Losses(),
        )
        frame.unblended = lambda target: bytes((10, 240, 30, 255)) * (WIDTH * HEIGHT)
        self.same(frame, converted(frame, losses), 1)
        self.assertEqual(losses.counts["pixels of blended draws that the draws' own colours don't explain"], 140)

    def test_where_a_blended_texture_is_empty(self):
        """Its alpha is 0 there; of a draw that may discard, that part is left out."""
        white = (255, 255, 255, 200)
        for discards, left in ((False, None), (True, 70)):
            own = state(blend=OVER, discards=discards)
            half = draw(
                2,
                quad(2, 2, 9, 12, 0.5, white) + (quad(9, 2, 16, 12, 0.5, (*white[:3], 0)) if not discards else []),
                own,
            )
            half.triangles = draw(2, quad(2, 2, 16, 12, 0.5, white)).triangles
            made = converted(Unblended(clear(1, GREY), half), detail=Detail(2, 1))
            self.assertEqual(
                {image_of(made)[4 * (y * WIDTH + x)] for y in range(2, 12) for x in range(9, 16)}, {GREY[0]}
            )
            self.assertEqual(made["events"][-1]["source"].get("left_out"), left)

    def test_no_more_is_asked_than_may_be(self):
        def frame():
            return Asked(
                clear(1, GREY),
                *(
                    draw(event, quad(2, 2, 20, 14, 0.5, (event, 100, 40, 128)), state(blend=OVER))
                    for event in (2, 3, 4)
                ),
                draw(5, quad(1, 1, 5, 5, 0.5, RED)),
            )

        for histories, of_a_draw in ((1000, 12), (24, 6), (0, 1)):
            asked = frame()
            converted(asked, wanted=Wanted(histories=histories))
            self.assertEqual(
                {event: [here for here, _, _ in asked.questions].count(event) for event in (2, 3, 4, 5)},
                {2: of_a_draw, 3: of_a_draw, 4: of_a_draw, 5: 0},
            )
        asked = frame()
        converted(asked, wanted=Wanted(with_alone=False))
        self.assertEqual(asked.questions, [])

    def test_pixels_are_asked_of_each_triangle_where_it_shows(self):
        before, after = bytes(WIDTH * HEIGHT * 4), bytearray(WIDTH * HEIGHT * 4)
        for x, y in ((3, 2), (5, 3), (4, 9), (2, 11), (3, 12)):
            after[4 * (y * WIDTH + x)] = 9
        shapes = [
            ((0, number), [(x << 16, y << 16, 0.5) for x, y, _, _ in corners])
            for number, corners in enumerate(quad(1, 1, 12, 14, 0.5, RED))
        ]
        self.assertEqual(
            pixels_to_ask(shapes, (WIDTH, HEIGHT), (before, bytes(after)), 4), [(3, 2), (5, 3), (4, 9), (3, 12)]
        )
        self.assertEqual(pixels_to_ask(shapes, (WIDTH, HEIGHT), (before, before), 4), [])
        self.assertEqual(len(pixels_to_ask(shapes, (WIDTH, HEIGHT), (before, bytes(after)), 1)), 1)

    def test_a_texture_s_empty_part_stays_empty_where_draws_are_asked_about(self):
        white = (255, 255, 255, 200)
        half = draw(2, quad(2, 2, 9, 12, 0.5, white), state(blend=OVER))
        half.triangles = draw(2, quad(2, 2, 16, 12, 0.5, white)).triangles
        made = image_of(converted(Asked(clear(1, GREY), half), detail=Detail(2, 1)))
        self.assertEqual({made[4 * (y * WIDTH + x)] for y in range(2, 12) for x in range(9, 16)}, {GREY[0]})

    def test_added_so_brightly_that_twice_is_cut_off(self):
        frame = StandIn(
            clear(1, (20, 30, 40, 255)), draw(2, quad(2, 2, 16, 12, 0.5, (200, 150, 215, 9)), state(blend=ADDED))
        )
        self.same(frame, converted(frame), 1)

    def test_the_brighter_of_two(self):
        """Under it lies a step of colours: what is darker than it is the draw's own, what is brighter hides it."""
        brighter = ("One", "One", "Maximum"), ("One", "One", "Maximum")
        frame = StandIn(
            clear(1, GREY),
            draw(2, quad(0, 0, 9, 16, 0.5, (200, 20, 100, 255))),
            draw(3, quad(2, 2, 16, 12, 0.5, (150, 150, 20, 90)), state(blend=brighter)),
        )
        self.same(frame, converted(frame), 1)

    def test_channels_that_aren_t_written_tell_nothing(self):
        frame = StandIn(
            clear(1, GREY),
            draw(2, quad(0, 0, 9, 16, 0.5, (200, 20, 100, 255))),
            draw(3, quad(2, 2, 16, 12, 0.5, (1, 2, 77, 90)), state(mask=4)),
        )
        capture = converted(frame, detail=Detail(2, 4))
        self.assertEqual({tuple(vertex["color"]) for vertex in capture["events"][-1]["vertices"]}, {(0, 0, 77, 0)})
        self.same(frame, capture)

    def test_a_viewport_that_is_smaller_is_told(self):
        view = Viewport(4, 2, 10, 8)
        own = state(scissor=[4, 2, 14, 10])
        own.viewport = view
        frame = StandIn(
            clear(1, GREY),
            Action(
                2, "draw", "draw()", state=own, triangles=[((0, 0), ((-3, -3, 0, 1), (3, -3, 0, 1), (-3, 3, 0, 1)))]
            ),
        )
        self.assertEqual(converted(frame)["events"][-1]["source"]["viewport"], [4, 2, 14, 10])

    def test_a_made_up_alpha_leaves_no_dark_rim(self):
        """A draw that shows white at its left and nothing at its right, where it can't be drawn alone."""
        white, own = (255, 255, 255, 255), state(blend=OVER)
        half = draw(2, quad(2, 2, 9, 12, 0.5, white), own)
        half.triangles = draw(2, quad(2, 2, 16, 12, 0.5, white)).triangles
        made = image_of(converted(StandIn(clear(1, GREY), half), wanted=Wanted(with_alone=False)))
        self.assertGreaterEqual(min(made[0::4]), GREY[0] - 2)

    def test_two_layers_of_one_draw(self):
        glass = (200, 100, 40, 128)
        frame = StandIn(
            clear(1, GREY), draw(2, quad(2, 2, 16, 12, 0.5, glass) + quad(9, 4, 22, 15, 0.5, glass), state(blend=OVER))
        )
        self.same(frame, converted(frame), 3)

    def test_detail_brings_a_step_of_colour(self):
        """A draw over a draw of two colours, whose own colour is what was there: as a texture would be."""
        textured = Action(
            3,
            "draw",
            "textured()",
            draw(3, quad(0, 0, 11, 16, 0.5, RED) + quad(11, 0, 24, 16, 0.5, BLUE)).truth,
            state=state(),
            triangles=draw(3, quad(0, 0, 24, 16, 0.5, RED)).triangles,
        )
        frame = StandIn(clear(1, GREY), textured)
        rough, fine = converted(frame), converted(frame, detail=Detail(2, 4))
        frame.go(3)
        far = [
            sum(abs(a - b) > 8 for a, b in zip(image_of(capture), frame.picture(TARGET))) for capture in (rough, fine)
        ]
        self.assertGreater(far[0], 4 * far[1])
        self.assertGreater(len(fine["events"][-1]["indices"]), 30)
        self.assertEqual({tuple(number) for number in fine["events"][-1]["source"]["primitives"]}, {(0, 0), (0, 1)})

    def test_triangles_of_several_passes_stay_whole(self):
        two = [
            draw(event, quad(0, 0, 24, 16, 0.5, colour), state(depth=(True, True, "LESS_EQUAL")))
            for event, colour in ((2, RED), (3, BLUE))
        ]
        two[1].truth = draw(
            3, quad(0, 0, 11, 16, 0.5, GREEN) + quad(11, 0, 24, 16, 0.5, BLUE), state(depth=(True, True, "LESS_EQUAL"))
        ).truth
        losses = Losses()
        capture = converted(StandIn(clear(1, GREY, 1.0), *two), losses, detail=Detail(2, 4))
        self.assertEqual(len(capture["events"][-1]["indices"]), 6)
        self.assertEqual(losses.counts["triangles not cut for detail"], 2)

    def test_pixels_beyond_the_triangles_are_counted(self):
        wide = draw(2, quad(2, 2, 16, 12, 0.5, RED))
        wide.triangles = draw(2, quad(2, 2, 14, 12, 0.5, RED)).triangles
        losses, right = Losses(), Losses()
        converted(StandIn(clear(1, GREY), wide), losses)
        self.assertEqual(losses.counts[STRAYS], 2 * 10)
        converted(StandIn(clear(1, GREY), draw(2, quad(2, 2, 16, 12, 0.5, RED))), right)
        self.assertNotIn(STRAYS, right.counts)

    def holed(self, own, hole=(6, 4, 14, 10)):
        """A draw that discards what lies in a hole, and one over all of it that lies deeper."""
        left, top, right, bottom = hole
        parts = (
            quad(0, 0, left, 16, 0.4, RED)
            + quad(right, 0, 24, 16, 0.4, RED)
            + quad(left, 0, right, top, 0.4, RED)
            + quad(left, bottom, right, 16, 0.4, RED)
        )
        holed = Action(
            2,
            "draw",
            "holed()",
            draw(2, parts, own).truth,
            state=own,
            triangles=draw(2, quad(0, 0, 24, 16, 0.4, RED)).triangles,
        )
        return StandIn(clear(1, GREY, 1.0), holed, draw(3, quad(-2, -2, 26, 18, 0.6, BLUE), state(depth=TESTED)))

    def test_what_a_draw_discards_is_left_out_and_leaves_no_depth(self):
        frame, losses = self.holed(state(depth=TESTED, discards=True)), Losses()
        fine = converted(frame, losses, detail=Detail(2, 1))
        frame.go(3)
        self.assertEqual(image_of(fine), frame.picture(TARGET))
        self.assertEqual(losses.counts["pixels left out of draws that may discard"], 8 * 6)
        draws = [event for event in fine["events"] if event["kind"] == "draw"]
        self.assertEqual(
            [coverage.without_parts(fine, places) for _, places in sorted(coverage.places_of(fine).items())], [8 * 6, 0]
        )
        self.assertEqual(draws[-1]["source"]["primitives"], [[0, 0], [0, 1]])
        self.assertEqual({tuple(vertex["color"]) for vertex in draws[-1]["vertices"]}, {BLUE})

    def test_what_may_not_be_discarded_stays(self):
        for own, detail in ((state(depth=TESTED), Detail(2, 1)), (state(depth=TESTED, discards=True), Detail())):
            losses = Losses()
            whole = converted(self.holed(own), losses, detail=detail)
            self.assertNotIn("pixels left out of draws that may discard", losses.counts)
            self.assertEqual(
                len(next(event for event in whole["events"] if event["kind"] == "draw")["indices"]) >= 6, True
            )

    def test_a_triangle_of_which_nothing_is_seen_is_left_out_without_detail(self):
        gone = Action(
            2,
            "draw",
            "holed()",
            draw(2, quad(0, 0, 24, 16, 0.4, RED)[:1]).truth,
            state=state(depth=TESTED, discards=True),
            triangles=draw(2, quad(0, 0, 24, 16, 0.4, RED)).triangles,
        )
        capture = converted(StandIn(clear(1, GREY, 1.0), gone))
        self.assertEqual(capture["events"][-1]["source"]["primitives"], [[0, 0]])

    def test_clears_of_a_rectangle_and_of_some_channels(self):
        frame = StandIn(
            clear(1, GREY),
            clear(2, RED, None, [3, 4, 20, 9]),
            clear(3, BLUE, 0.5, None, 4),
            draw(5, quad(1, 1, 9, 9, 0.4, GREEN), state(depth=TESTED)),
        )
        self.same(frame, converted(frame))

    def test_a_clear_of_several_rectangles(self):
        frame = StandIn(
            clear(1, GREY, 1.0),
            clear(2, RED, 0.2, [3, 4, 9, 9], more=[[12, 2, 20, 6], [15, 9, 15, 12]]),
            draw(5, quad(1, 1, 22, 14, 0.4, GREEN), state(depth=TESTED)),
        )
        self.same(frame, converted(frame))

    def test_what_was_there_before_the_first_clear(self):
        old = draw(0, quad(3, 3, 12, 12, 0.5, RED)).truth
        frame = StandIn(draw(2, quad(8, 2, 20, 9, 0.5, GREEN)), before=old)
        capture = converted(frame)
        self.same(frame, capture)
        names = [event.get("name") for event in capture["events"]]
        self.assertEqual(names[0], "the picture before 2")
        first = image(capture["events"][: names.index("2 draw()")])
        self.assertEqual(first, image(old))

    def test_a_part_of_a_frame_begins_with_its_picture_and_its_depths(self):
        frame = self.opaque()
        capture = converted(frame, wanted=Wanted(11, 14))
        self.same(frame, capture)
        names = [event["name"] for event in capture["events"] if event["kind"] == "marker"]
        self.assertEqual(names, ["the picture before 11", "11 draw()", "14 draw()"])
        capture = converted(frame, wanted=Wanted(last=11))
        frame.actions.pop()
        self.same(frame, capture)

    def test_a_part_without_a_depth_test_reads_nothing_of_what_comes_before(self):
        frame, gone = (
            StandIn(
                clear(1, GREY, 1.0),
                *(draw(event, quad(3, 2, 15, 12, 0.5, RED), state(depth=TESTED)) for event in range(2, 9)),
                draw(9, quad(8, 5, 22, 15, 0.7, BLUE)),
            ),
            set(),
        )
        go = frame.go
        frame.go = lambda event: (gone.add(event), go(event))
        self.same(frame, converted(frame, wanted=Wanted(9)))
        self.assertEqual(gone, {8, 9})

    def test_a_part_without_draws(self):
        with self.assertRaisesRegex(Fault, "nothing is drawn on target 7"):
            converted(self.opaque(), wanted=Wanted(20, 30))

    def test_other_targets_copies_and_dispatches_are_counted(self):
        losses = Losses()
        frame = StandIn(
            clear(1, GREY),
            draw(2, quad(1, 1, 9, 9, 0.5, RED), targets=(OTHER,)),
            Action(3, "dispatch", "go"),
            Action(4, "copy", "copy", targets=(OTHER,)),
            Action(5, "copy", "blit", draw(0, quad(5, 5, 12, 12, 0.5, GREEN)).truth),
            draw(6, quad(4, 2, 9, 9, 0.5, BLUE), trouble="topology LineList"),
        )
        self.same(frame, converted(frame, losses))
        for what in (
            "draws on other targets",
            "compute dispatches",
            "copies and resolves onto other textures",
            "copies and resolves onto the target",
            "draws without triangles: topology LineList",
        ):
            self.assertEqual(losses.counts[what], 1, what)

    def test_losses_stand_in_the_capture(self):
        losses = Losses()
        frame = StandIn(clear(1, GREY), Action(2, "dispatch", "go"), draw(3, quad(1, 1, 9, 9, 0.5, RED)))
        self.assertIn({"what": "compute dispatches", "count": 1}, converted(frame, losses)["losses"])

    def test_distinct_colours_read_no_picture(self):
        frame = self.opaque()
        frame.picture = lambda target: bytes([1, 2, 3, 4]) * (WIDTH * HEIGHT)
        capture = converted(frame, wanted=Wanted(with_colours=False), colours="distinct")
        seen = {tuple(event["vertices"][0]["color"]) for event in capture["events"] if event["kind"] == "draw"}
        self.assertEqual(len(seen), 4)

    def test_a_fault_names_its_event(self):
        frame = self.opaque()

        def broken(action):
            raise Fault("no such buffer")

        frame.primitives = broken
        with self.assertRaisesRegex(Fault, r"event 5, draw\(\): no such buffer"):
            converted(frame)

    def test_neighbours_share_their_corners(self):
        capture = converted(StandIn(clear(1, GREY), draw(2, quad(2, 2, 20, 12, 0.5, RED))))
        self.assertEqual(
            (len(capture["events"][-1]["vertices"]), capture["events"][-1]["indices"]), (4, [0, 1, 2, 0, 2, 3])
        )

    def test_depths_are_spread_and_keep_their_order(self):
        near = StandIn(
            clear(1, GREY, 1.0),
            draw(2, quad(2, 2, 20, 12, 0.90001, RED), state(depth=TESTED)),
            draw(3, quad(1, 1, 23, 14, 0.90002, BLUE), state(depth=TESTED)),
        )
        capture = converted(near)
        depths = [event["vertices"][0]["z"] for event in capture["events"] if event["kind"] == "draw"]
        self.assertGreater(depths[1] - depths[0], 60000)
        self.assertLess(depths[1], 65535)


class Reels(unittest.TestCase):
    def test_each_picture_comes_back_in_any_order(self):
        chance, reel = random.Random(5), Reel()
        pictures = [bytes(chance.randrange(256) for _ in range(64)) for _ in range(5)]
        pictures[3] = pictures[2]
        pictures.append(bytes(64))
        kept = [reel.put(picture) for picture in pictures]
        for number in (0, 1, 2, 3, 4, 5, 4, 0, 5, 2, 3, 3, 1):
            self.assertEqual(kept[number].picture(), pictures[number], number)

    def test_a_picture_like_the_one_before_takes_little(self):
        reel, picture = Reel(), random.Random(6).randbytes(40_000)
        for turn in range(10):
            reel.put(bytes([turn]) + picture[1:])
        self.assertLess(sum(len(step) for _, step in reel.steps), 42_000)

    def test_only_what_changes_is_kept(self):
        chance = random.Random(7)
        picture, reel = bytearray(chance.randbytes(100_000)), Reel()
        pictures = [bytes(picture)]
        for first, last in (
            (0, 1),
            (99_999, 100_000),
            (4095, 4097),
            (4096, 4097),
            (30_000, 52_000),
            (0, 100_000),
            (8191, 8192),
        ):
            picture[first:last] = chance.randbytes(last - first)
            pictures.append(bytes(picture))
        kept = [reel.put(one) for one in pictures]
        self.assertEqual([one.picture() for one in kept], pictures)
        self.assertEqual([one.picture() for one in reversed(kept)], pictures[::-1])
        for first, other in zip(pictures, pictures[1:]):
            start, end = changed(first, other)
            wanted = [at for at in range(len(other)) if first[at] != other[at]]
            self.assertTrue(
                start <= wanted[0] and wanted[-1] < end and end - start < wanted[-1] - wanted[0] + 3 * GRAIN,
                (start, end),
            )


def as_bytes(capture):
    from captures import text

    return text(capture).encode()


if __name__ == "__main__":
    unittest.main()
