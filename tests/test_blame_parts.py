"""The parts of blame: pictures, comparisons, clusters, windows, and how two changes are joined. Expected values are
worked out by hand, or by the definitions pixel by pixel."""
import json
import random
import struct
import time
import types
import unittest
import zlib

import folders

import captures
import reference
from blame_testing import EXAMPLES, Folder, blend, box, capture, clear, depth, draw, painted, pam, raster

from blaming import clusters, comparing, corners, evidence, frame, kinds, pictures, searching, slips, windows
from blaming.faults import Fault
from framedbg_client import Entry
from planting import plants


def chunk(kind, body):
    return struct.pack(">I", len(body)) + kind + body + struct.pack(">I", zlib.crc32(kind + body))


def png(width, height, kind, rows, palette=b"", bits=8, interlaced=0):
    """A PNG of rows that are filtered already, each with its filter's number before it."""
    head = struct.pack(">IIBBBBB", width, height, bits, kind, 0, 0, interlaced)
    return (
        pictures.PNG
        + chunk(b"IHDR", head)
        + (chunk(b"PLTE", palette) if palette else b"")
        + chunk(b"IDAT", zlib.compress(rows))
        + chunk(b"IEND", b"")
    )


def filtered(number, rows, step):
    """Rows filtered as the definition of PNG says, by one filter."""
    out, above = bytearray(), bytes(len(rows[0]))
    for row in rows:
        out.append(number)
        for i, value in enumerate(row):
            a, b, c = row[i - step] if i >= step else 0, above[i], above[i - step] if i >= step else 0
            p = a + b - c
            nearest = min((abs(p - a), 0, a), (abs(p - b), 1, b), (abs(p - c), 2, c))[2]
            out.append(value - (0, a, b, (a + b) // 2, nearest)[number] & 255)
        above = row
    return bytes(out)


class Pictures(Folder):
    def test_png_of_each_filter_and_kind(self):
        rng = random.Random(4)
        for number in range(5):
            for kind, step in ((2, 3), (6, 4)):
                rows = [bytes(rng.choice((0, 1, 2, 3, rng.randrange(256))) for _ in range(5 * step)) for _ in range(40)]
                read = pictures.picture_of(png(5, 40, kind, filtered(number, rows, step)))
                wanted = [tuple(rows[i // 5][step * (i % 5) : step * (i % 5) + 3]) for i in range(200)]
                self.assertEqual([read.pixel(i)[:3] for i in range(200)], wanted, (number, kind))
                self.assertEqual(
                    [read.pixel(i)[3] for i in range(200)],
                    [rows[i // 5][4 * (i % 5) + 3] if step == 4 else 255 for i in range(200)],
                )
                self.assertEqual(read.has_alpha, step == 4)

    def test_png_of_grey_and_palette(self):
        self.assertEqual(
            pictures.picture_of(png(2, 1, 0, b"\0\x07\xf0")).samples, bytes([7, 7, 7, 255, 240, 240, 240, 255])
        )
        self.assertEqual(
            pictures.picture_of(png(2, 1, 4, b"\0\x07\x01\xf0\x02")).samples, bytes([7, 7, 7, 1, 240, 240, 240, 2])
        )
        self.assertEqual(
            pictures.picture_of(png(2, 1, 3, b"\0\1\0", b"\1\2\3\4\5\6")).samples, bytes([4, 5, 6, 255, 1, 2, 3, 255])
        )

    def test_pam_and_ppm(self):
        samples = bytes(range(24))
        read = pictures.picture_of(
            b"P7\nWIDTH 3\nHEIGHT 2\nDEPTH 4\nMAXVAL 255\nTUPLTYPE RGB_ALPHA\nENDHDR\n" + samples
        )
        self.assertEqual((read.width, read.height, read.samples, read.has_alpha), (3, 2, samples, True))
        three = pictures.picture_of(b"P7\nWIDTH 2\nHEIGHT 1\nDEPTH 3\nMAXVAL 255\nTUPLTYPE RGB\nENDHDR\n" + samples[:6])
        self.assertEqual((three.samples, three.has_alpha), (bytes([0, 1, 2, 255, 3, 4, 5, 255]), False))
        for head in (b"P6\n2 1\n255\n", b"P6 # by hand\n2\n# wide\n1 255\n"):
            self.assertEqual(pictures.picture_of(head + samples[:6]).samples, three.samples)

    def test_a_large_png(self):
        """Rows are undone as a whole: by pixels, 1,024 squared took more than a second of the processor."""
        side = 1024
        rows = b"".join(bytes([1 + y % 2]) + bytes(4 * side) for y in range(side))
        data = png(side, side, 6, rows)
        before = time.process_time()
        pictures.picture_of(data)
        self.assertLess(time.process_time() - before, 0.8)

    def test_headers_without_end(self):
        """A header of blanks and comments alone takes no longer than it is long."""
        for data in (
            b"P6" + b" " * 200_000,
            b"P6" + b"#\n" * 100_000,
            b"P6" + b" #\n \n" * 40_000,
            b"P6 2" + b"\n#\n" * 60_000,
            b"P6 2 1 " + b"9" * 200_000,
        ):
            began = time.process_time()
            with self.assertRaises(Fault):
                pictures.picture_of(data)
            self.assertLess(time.process_time() - began, 5)

    def test_another_size(self):
        """It is told before the pixels are unpacked, of each kind of picture."""
        for data in (png(2, 1, 2, b"\5"), b"P6 2 1 255\n", b"P7\nWIDTH 2\nHEIGHT 1\nDEPTH 3\nMAXVAL 255\nENDHDR\n"):
            with self.assertRaisesRegex(Fault, "the capture's target is 1 by 2, the picture 2 by 1"):
                pictures.picture_of(data, (1, 2))
            with self.assertRaisesRegex(Fault, "cut or broken|shorter"):
                pictures.picture_of(data, (2, 1))

    def test_what_is_no_picture(self):
        whole = png(2, 1, 2, b"\0abcdef")
        wrong = [
            b"",
            b"GIF89a",
            whole[:-20],
            whole.replace(b"IDAT", b"IDAZ"),
            png(2, 1, 2, b"\0abcdef", bits=16),
            png(2, 1, 2, b"\0abcdef", interlaced=1),
            png(1, 1, 3, b"\0\0", b"\1\2\3").replace(b"PLTE\1", b"PLTE\7"),
            png(2, 1, 2, b"\5abcdef"),
            png(2, 2, 2, b"\0abcdef"),
            png(0, 1, 2, b"\0"),
            png(1, 1, 3, b"\0\7", b"\1\2\3"),
            whole[:8] + b"\0\0",
            b"P7\nWIDTH 2\nHEIGHT 1\nDEPTH 2\nMAXVAL 255\nENDHDR\nabcdef",
            b"P7\nWIDTH 2\nHEIGHT 1\nDEPTH 3\nMAXVAL 255\nENDHDR\nabcde",
            b"P6\n2 1\n65535\nabcdef",
            b"P6\n2 x",
        ]
        for number, data in enumerate(wrong):
            with self.assertRaises(Fault, msg=number) as seen:
                pictures.read_picture(self.written("picture", data))
            self.assertNotIn("\n", str(seen.exception))
        with self.assertRaises(Fault) as seen:
            pictures.read_picture(self.folder / "nothing")
        self.assertEqual(seen.exception.status, 3)


class Comparisons(unittest.TestCase):
    def differing(self, wanted, samples, tolerance):
        """By the definition, pixel by pixel."""
        return [
            at
            for at in range(len(wanted) // 4)
            if any(abs(wanted[4 * at + c] - samples[4 * at + c]) > tolerance[c] for c in range(4))
        ]

    def test_each_channel(self):
        wanted = bytes([100, 100, 100, 100] * 3)
        for channel in range(4):
            for by in (1, -1, 100):
                samples = bytearray(wanted)
                samples[4 + channel] += by
                self.assertEqual(list(comparing.Comparison(wanted).differing(bytes(samples))), [0, 1, 0], (channel, by))
                ignoring = tuple(255 if c == channel else 0 for c in range(4))
                self.assertEqual(list(comparing.Comparison(wanted, ignoring).differing(bytes(samples))), [0, 0, 0])

    def test_tolerances(self):
        rng = random.Random(9)
        for tolerance in (
            (0, 0, 0, 0),
            (0, 0, 0, 255),
            (3, 0, 7, 255),
            (1, 1, 1, 1),
            (255, 255, 255, 4),
            (255, 255, 255, 255),
            (120, 9, 254, 0),
        ):
            wanted = bytes(rng.choice((0, 1, 7, 128, 250, 255, rng.randrange(256))) for _ in range(400))
            samples = bytes(
                min(255, max(0, value + rng.choice((0, 0, 0, 0, 1, -1, 3, -4, 7, 8, -9, 200)))) for value in wanted
            )
            comparison = comparing.Comparison(wanted, tolerance)
            mask = comparison.differing(samples)
            self.assertEqual(comparing.pixels_of(mask), self.differing(wanted, samples, tolerance), tolerance)
            self.assertEqual(len(mask), 100)

    def test_masks(self):
        self.assertEqual(comparing.both(bytes([1, 1, 0, 0, 1]), bytes([1, 0, 1, 0, 1])), 2)
        self.assertEqual(comparing.pixels_of(bytes([0, 1, 0, 1])), [1, 3])
        self.assertEqual(comparing.pixels_of(bytes([1, 1, 1, 0, 0, 1, 1, 0])), [0, 1, 2, 5, 6])


class Clusters(unittest.TestCase):
    def mask(self, *rows):
        return bytes(int(letter == "#") for row in rows for letter in row)

    def test_what_hangs_together(self):
        mask = self.mask(
            "##..............",
            "................",
            "................",
            "................",
            "....#...........",
            "................",
            "................",
            "...............#",
        )
        found = clusters.clusters_of(mask, 16)
        self.assertEqual(
            [(cluster.pixels, cluster.box) for cluster in found], [((0, 1, 68), (0, 0, 5, 5)), ((127,), (15, 7, 16, 8))]
        )
        self.assertEqual(found[1].mask(128), bytes(127) + b"\1")
        self.assertEqual(clusters.clusters_of(bytes(128), 16), [])

    def test_spread(self):
        pixels = [y * 64 + x for y in range(64) for x in range(64)]
        some = clusters.spread(pixels, 64, 16)
        self.assertEqual(len({(pixel % 64 // 16, pixel // 64 // 16) for pixel in some}), 16)
        self.assertEqual(sorted(clusters.spread(pixels[:7], 64, 100)), pixels[:7])
        self.assertEqual(len(set(clusters.spread(pixels, 64, 500))), 500)

    def test_very_many_pixels(self):
        """Some of them stand for all, from the first to the last, and in no one column."""
        some = clusters.thinned(range(2048 * 2048))
        self.assertTrue(clusters.MANY // 2 <= len(some) <= 2 * clusters.MANY)
        self.assertEqual((some[0], some[-1] > 2048 * 2047, len({pixel % 2048 for pixel in some})), (0, True, 2048))
        self.assertEqual(clusters.thinned((4, 5, 6)), (4, 5, 6))


class Frames(unittest.TestCase):
    """A window is drawn as it is in the whole picture."""

    def events(self, rng):
        color = lambda: [rng.randrange(256) for _ in range(4)]
        corner = lambda: (rng.randrange(-30, 90), rng.randrange(-30, 90), color(), rng.randrange(65536))
        made = [
            clear(*color()),
            depth("LESS_EQUAL"),
            {"kind": "scissor", "rect": [5, 3, 40, 44]},
            {**raster("none"), "scissor": True},
            blend(),
        ]
        for left, top, width, height in ((0, 0, 48, 40), (7, 3, 9, 31), (20, 18, 60, 2)):
            made.append(painted(box(0, 0, 48, 40, color(), rng.randrange(65536)), rng, left, top, width, height))
        for _ in range(6):
            made.insert(
                rng.randrange(1, len(made) + 1),
                draw(
                    *[corner() for _ in range(6)],
                    interp=rng.choice(("flat", "linear")),
                    indices=[rng.randrange(6) for _ in range(12)],
                ),
            )
        return made

    def test_windows(self):
        rng = random.Random(11)
        for _ in range(4):
            made = capture(self.events(rng), 48, 40, 3)
            whole = pictures.picture_of(pam(made)).samples
            for window in ((8, 5, 30, 21), (0, 0, 16, 40), (40, 36, 48, 40)):
                shown = reference.json_of(frame.CaptureFrame(made).text(made["events"], window).encode())
                self.assertEqual(pictures.picture_of(pam(shown)).samples, windows.cut(whole, 48, window))

    def test_where_a_window_lies(self):
        made = frame.CaptureFrame(capture([box(0, 0, 4, 4, (1, 2, 3, 4))], 2000, 1500))
        of = lambda *pixels: windows.window_of(
            made, clusters.clusters_of(bytes(int(at in pixels) for at in range(2000 * 1500)), 2000)
        )
        self.assertEqual(
            of(700 * 2000 + 900),
            (900 - windows.MARGIN, 700 - windows.MARGIN, 901 + windows.MARGIN, 701 + windows.MARGIN),
        )
        left, top, right, bottom = of(0, 1499 * 2000 + 1998, 1499 * 2000 + 1999)
        self.assertTrue(left <= 1998 < right <= 2000 and top <= 1499 < bottom <= 1500)
        self.assertTrue(right - left <= windows.SIDE and bottom - top <= windows.SIDE)
        self.assertIsNone(
            windows.window_of(frame.CaptureFrame(capture([], 24, 18)), clusters.clusters_of(b"\1" * 432, 24))
        )
        far = frame.CaptureFrame(
            capture([draw((-16384, 0, (1, 2, 3, 4)), (5, 5, (1, 2, 3, 4)), (0, 9, (1, 2, 3, 4)))], 2000, 1500)
        )
        self.assertIsNone(windows.window_of(far, clusters.clusters_of(bytes(700 * 2000 + 900) + b"\1", 2000)))

    def test_ways_to_set_a_state(self):
        """Of each one event, the first that sets it so; of many the nearest."""
        made = frame.CaptureFrame(
            capture(
                [
                    blend(),
                    blend(mask=1),
                    blend(mask=2),
                    blend() | {"source": 4},
                    blend(mask=3),
                    box(0, 0, 2, 2, (1, 2, 3, 4)),
                    blend(mask=4),
                ]
            )
        )
        self.assertEqual(made.settings(6, "blend", 9), [1, 2, 3, 5, 7])
        self.assertEqual(made.settings(6, "blend", 3), [1, 5, 7])
        self.assertEqual(made.settings(6, "depth", 3), [])

    def test_differing_part(self):
        a, b, c, d, x = ({"kind": name} for name in "abcdx")
        made = frame.CaptureFrame(capture([a, b, c, d]))
        for events, wanted in (
            ([a, b, c, d], (4, 0)),
            ([a, x, c, d], (1, 2)),
            ([a, c, d], (1, 2)),
            ([a, b, b, c, d], (2, 2)),
            ([b, c, d], (0, 3)),
            ([a, b, c], (3, 0)),
            ([a, b, c, d, x], (4, 0)),
        ):
            self.assertEqual(made.differing_part(events), wanted)

    def test_setters(self):
        made = frame.CaptureFrame(
            capture([blend(), box(0, 0, 2, 2, (1, 2, 3, 4)), blend(False), box(0, 0, 2, 2, (1, 2, 3, 4))])
        )
        self.assertEqual([made.setter(number, "blend") for number in (1, 2, 3, 4)], [None, 1, 1, 3])
        self.assertEqual(made.state(4, "blend"), blend(False))
        self.assertEqual(made.state(4, "raster"), raster())


class Working(unittest.TestCase):
    """What is worked out in the tool is what the reference gives."""

    def test_shades(self):
        rng, count = random.Random(5), 0
        for turn in range(600):
            corner = (lambda: rng.randrange(0, 9)) if turn % 2 else (lambda: rng.uniform(-9, 30))
            made = draw(
                *[(corner(), corner(), [rng.randrange(256) for _ in range(4)]) for _ in range(3)],
                interp=rng.choice(("flat", "linear", "linear")),
            )
            at, x, y = rng.randrange(3), rng.randrange(9), rng.randrange(9)
            vertices = [
                vertex | ({"color": [77, 1, 2, 3]} if i == at else {}) for i, vertex in enumerate(made["vertices"])
            ]
            places, colours, _ = reference.Frame(capture([made | {"vertices": vertices}], version=1)).events[0][1][0][0]
            if reference.covers(places, x, y):
                count += 1
                self.assertEqual(
                    corners.Shade(made, 0, at, (x, y)).source(0, 77, (0, 0, 0, 0))[0],
                    reference.source(places, colours, made["interp"], x, y)[0],
                )
        self.assertGreater(count, 60)

    def test_joined_changes(self):
        a, b, c, d, x, y = ({"kind": name} for name in "abcdxy")
        events = [a, b, c, d]
        kinds = lambda made: made and "".join(event["kind"] for event in made)
        join = lambda one, other: kinds(searching.joined(events, one, other))
        self.assertEqual(join([x, b, c, d], [a, b, c, y]), "xbcy")
        self.assertEqual(join([a, b, c, y], [x, b, c, d]), "xbcy")
        self.assertEqual(join([b, c, d], [a, b, c, x, d]), "bcxd")
        self.assertEqual(join([a, x, b, c, d], [a, b, d]), "axbd")
        self.assertEqual(join([a, b, y, d], [b, a, c, d]), "bayd")
        self.assertIsNone(join([a, x, c, d], [a, y, c, d]))
        self.assertIsNone(join([a, c, b, d], [a, b, x, d]))


class Evidence(unittest.TestCase):
    def history(self, made, x, y):
        """A pixel's history by the reference, as framedbg's client gives it."""
        entries = reference.Frame(made).replay(len(made["events"]), x, y)[1]
        return [
            Entry(event, None if triangle == "-" else triangle, verdict, source, before, after)
            for event, triangle, verdict, source, before, after, *_ in entries
        ]

    def test_what_shows_where_all_is_right(self):
        """A glass is wrong below a veil over the whole target: the veil is drawn last, and shows at each pixel that
        is right."""
        made = capture(
            [
                clear(9, 9, 9, 255),
                box(1, 1, 23, 17, (70, 20, 10, 255)),
                blend(mask=3),
                box(4, 4, 12, 12, (200, 10, 10, 90)),
                blend(rgb="ONE ONE ADD"),
                box(0, 0, 24, 18, (3, 3, 3, 0)),
            ]
        )
        wrong = [evidence.Sample(0, x, x, (1, 2, 3, 4), self.history(made, x, x), 0) for x in (5, 7, 9)]
        ranks = lambda right: [
            suspect.event
            for suspect in evidence.suspects_of(frame.CaptureFrame(made), wrong, lambda one, other: one == other, right)
        ]
        right = [self.history(made, x, x) for x in (2, 13, 16)]
        self.assertEqual(ranks([])[:2], [6, 5])
        self.assertEqual(set(ranks(right)[:4]), {1, 3, 4, 6})
        self.assertLess(ranks(right).index(4), ranks(right).index(6))
        self.assertEqual(evidence.shown(frame.CaptureFrame(made), right[0]), {2, 5, 6})
        self.assertEqual(evidence.shown(frame.CaptureFrame(made), wrong[0].entries), {2, 3, 4, 5, 6})

    def test_what_is_discarded(self):
        """By the draw's own picture: no state is to blame for it, and its 0 0 0 0 is no colour that could be wanted."""
        picture = captures.picture(0, 0, 24, 18, bytes(4 * 24 * 18), [True] * (24 * 18))
        made = capture(
            [
                raster("none"),
                blend(),
                depth(),
                box(1, 1, 23, 17, (5, 5, 5, 255)) | {"interp": "picture", "picture": picture},
            ],
            version=3,
        )
        sample = evidence.Sample(0, 5, 3, (0, 0, 0, 0), self.history(made, 5, 3), 0)
        self.assertEqual([entry.verdict for entry in sample.entries], ["discarded"])
        suspects = evidence.suspects_of(frame.CaptureFrame(made), [sample], lambda one, other: one == other)
        self.assertEqual(
            [(suspect.event, dict(suspect.reasons)) for suspect in suspects], [(4, {"is discarded there": 1})]
        )

    def test_states_of_many_draws(self):
        """Of five draws with a state one met the pixel, so that four fifths of eight tenths of its weight are lost;
        of two draws half of that."""
        far = lambda x: box(x, 12, x + 2, 16, (1, 2, 3, 255))
        events = [blend(), raster(), far(4), far(8), far(12), depth("ALWAYS"), box(2, 2, 9, 9, (90, 20, 10, 90))]
        made = capture([*events, far(16)])
        left = evidence.seen_of(
            frame.CaptureFrame(made), [evidence.Sample(0, 4, 4, (1, 2, 3, 4), self.history(made, 4, 4), 0)]
        )
        self.assertEqual({by: round(share, 9) for by, share in left.items()}, {1: 0.36, 2: 0.36, 6: 0.6})

    def test_each_pixel_says_one_thing(self):
        """Of a glass whose two triangles lie over each other, and were both drawn before, a pixel says no more than
        of one with one."""
        glass = box(2, 2, 9, 9, (90, 20, 10, 90))
        twice = glass | {"indices": [0, 1, 2, 0, 1, 2]}
        made = capture([clear(9, 9, 9, 9), blend(), glass, twice, box(0, 0, 24, 18, (3, 3, 3, 9))])
        sample = evidence.Sample(0, 7, 3, (1, 2, 3, 4), self.history(made, 7, 3), 0)
        weights = {
            suspect.event: suspect.weight
            for suspect in evidence.suspects_of(frame.CaptureFrame(made), [sample], lambda one, other: False)
        }
        self.assertEqual(sum(entry.event == 4 for entry in sample.entries), 2)
        self.assertEqual(weights[3], weights[4])

    def test_what_lies_below_a_clear(self):
        """Neither shows nor hides anything, unless its depth does: the depths may be cleared earlier than the
        colours, and be tested behind them."""
        glass, near = box(2, 2, 9, 9, (90, 20, 10, 90), 20000), draw(
            (0, 0, (1, 1, 1, 1)), (9, 0, (1, 1, 1, 1)), (0, 3, (1, 1, 1, 1))
        )
        events = [
            clear(1, 2, 3, 4),
            blend(),
            glass,
            near,
            {"kind": "depth_clear", "depth": 50000},
            glass,
            clear(9, 8, 7, 6),
            depth(enable=False),
            glass,
            near,
            glass,
        ]
        for state, first, wanted in (
            (depth(enable=False), 7, {2, 7, 8, 9, 10, 11}),
            (depth("ALWAYS"), 5, {2, 5, 6, 7, 8, 9, 10, 11}),
        ):
            made = capture([*events[:7], state, *events[8:]])
            sample = evidence.Sample(0, 4, 4, (1, 2, 3, 4), self.history(made, 4, 4), 0)
            self.assertEqual(evidence.first_that_counts(frame.CaptureFrame(made), sample.entries), first)
            self.assertEqual(
                {
                    suspect.event
                    for suspect in evidence.suspects_of(frame.CaptureFrame(made), [sample], lambda one, other: False)
                },
                wanted,
            )


class Slips(unittest.TestCase):
    def test_vertices_near_what_differs(self):
        """First those near a pixel that was asked, then those near any that differs, also at the target's right
        edge; the others are too far away."""
        made = frame.CaptureFrame(
            capture(
                [
                    draw(
                        *[
                            (x, y, (1, 2, 3, 4))
                            for x, y in ((0, 4), (24, 4), (24, 14), (-2, 14), (10, 9), (10, 17.75), (28, 9))
                        ]
                    )
                ]
            )
        )
        mask = bytes(int(4 <= at // 24 < 14 and at % 24 >= 6) for at in range(24 * 18))
        case = types.SimpleNamespace(
            frame=made, samples=[evidence.Sample(9 * 24 + 10, 10, 9, (0, 0, 0, 0), [], 0)], mask=mask, near={}
        )
        self.assertEqual(slips.vertices_near(case, 1), [4, 1, 2])


class Planted(unittest.TestCase):
    """The bugs by which blame is measured: captures still, changed, of one seed always the same ones, and with
    numbers of events that are there."""

    def test_each(self):
        frames = [
            frame.CaptureFrame(json.loads((EXAMPLES / f"{name}.json").read_text()))
            for name in ("house", "hunts/chain_mended", "hunts/island_mended", "crowd", "masked_and_scissored")
        ]
        for name, make in plants.PLANTS.items():
            made = 0
            for number, one in enumerate(frames):
                bug, again = (make(random.Random(f"{name} {number}"), one) for _ in range(2))
                self.assertEqual(bug, again, name)
                if bug:
                    made += 1
                    self.assertIsNone(reference.fault(one.text(bug[0]).encode()), name)
                    self.assertTrue(bug[1] and all(1 <= event <= len(bug[0]) for event in bug[1]), (name, bug[1]))
            self.assertTrue(made or name == "blend factor", name)
        self.assertEqual(set(plants.PLANTS) - {"two at once"}, {kind.name for kind in kinds.KINDS} - NOT_PLANTED)


# kinds of change that mend what another kind plants, and those that are younger than the bugs of docs/MEASURED.md
NOT_PLANTED = {
    "both factors of blending",
    "order of states",
    "two events exchanged",
    "a triangle too many",
    "a part of the state from a triangle on",
    "both factors of alpha",
    "corner of the flat colour",
    "one thing in all events of a kind",
}

if __name__ == "__main__":
    unittest.main()
