"""Captures for the measurements: scenes of triangles, as JSON for the debugger and as numbers for plain.c, and
frames without triangles.

Their events are texts: one of them may stand in a capture a million times.
"""
import random
import struct

import captures
from captures import FARTHEST, PIXEL, compact

BLENDED = compact(captures.blend(True, ("SRC_ALPHA", "INV_SRC_ALPHA", "ADD"), ("ONE", "INV_SRC_ALPHA", "ADD")))
TESTED = compact(captures.depth(func="LESS_EQUAL"))
BOTH_SIDES = compact(captures.raster("none"))
NOTHING = compact(captures.draw([]))
MARKER = compact(captures.marker("m"))


def frame(width, height, events, version=1):
    return (compact(captures.head(width, height, version))[:-1] + ',"events":[' + ",".join(events) + "]}").encode()


class Scene:
    """Blended triangles of one target, each three vertices (x, y, z, colour) in whole pixels; with a fresh depth
    they are tested by LESS_EQUAL."""

    def __init__(self, width, height, triangles, interp="flat", fresh_depth=None):
        self.width, self.height, self.triangles = width, height, triangles
        self.interp, self.fresh_depth = interp, fresh_depth
        self.setup = [BLENDED] if fresh_depth is None else [BLENDED, TESTED, compact(captures.depth_clear(fresh_depth))]

    def vertex(self, x, y, z, colour):
        return captures.vertex(x * PIXEL, y * PIXEL, colour, None if self.fresh_depth is None else z)

    def draw(self, triangles):
        return compact(
            captures.draw([self.vertex(*vertex) for triangle in triangles for vertex in triangle], self.interp)
        )

    def draws(self, per_draw):
        return [
            self.draw(self.triangles[start : start + per_draw]) for start in range(0, len(self.triangles), per_draw)
        ]

    def capture(self, per_draw=1, empty=0):
        """As JSON, with so many empty draws after each draw."""
        draws = self.draws(per_draw)
        if empty:
            draws = [event for draw in draws for event in [draw, *[NOTHING] * empty]]
        return frame(self.width, self.height, self.setup + draws, 1 if self.fresh_depth is None else 2)

    def numbers(self):
        """As plain.c reads it."""
        test = self.fresh_depth is not None
        head = struct.pack(
            "<6i", self.width, self.height, self.interp == "linear", test, self.fresh_depth or 0, len(self.triangles)
        )
        return head + b"".join(
            struct.pack("<3i4B", 256 * x, 256 * y, z, *colour)
            for triangle in self.triangles
            for x, y, z, colour in triangle
        )


def large(width, height, count, interp="flat"):
    """Triangles that cover the whole target."""
    return Scene(width, height, [whole(width, height, number, interp, (0, 0, 0)) for number in range(count)], interp)


def dots(side, count):
    """Draws of triangles that cover a pixel each, in every other column, so that no two of a draw lie side by side
    in a row."""
    places = [(x, y) for y in range(side) for x in range(0, side, 2)]
    triangles = [
        [(x + right, y + down, 0, [number % 256, 128, 0, 128]) for right, down in ((0, 0), (2, 0), (0, 2))]
        for number in range(count)
        for x, y in places
    ]
    return Scene(side, side, triangles).capture(len(places)), len(places)


def whole(width, height, number, interp, depths):
    colour = [(40 * number + 10) % 256, 128, (90 * number) % 256, 128]
    other = [255, colour[0], 0, 64] if interp == "linear" else colour
    places = [(0, 0), (2 * width, 0), (0, 2 * height)]
    return [(x, y, z, shade) for (x, y), z, shade in zip(places, depths, [colour, other, colour])]


def tested(width, height, count, passing, interp):
    """The same with the depth test on: passing is all, none or alternate. Flat ones are level, linear ones slope
    both ways; no two of them cross."""
    triangles = []
    for number in range(count):
        nearer = passing == "all" or (passing == "alternate" and number % 2 == 0)
        depth = 20_000 - 10 * number if nearer else 30_000
        slopes = [20_000, 10_000] if interp == "linear" else [0, 0]
        triangles.append(whole(width, height, number, interp, [depth, depth + slopes[0], depth - slopes[1]]))
    return Scene(width, height, triangles, interp, 0 if passing == "none" else FARTHEST)


def small(width, height, count, scattered):
    """Triangles whose legs are 8 pixels long: side by side in blocks of 32 by 32 pixels, as a mesh has them, or
    anywhere."""
    generator = random.Random(1)
    triangles = []
    for number in range(count):
        if scattered:
            x, y = generator.randrange(width - 8), generator.randrange(height - 8)
        else:
            block, inner = divmod(number, 16)
            column, row = block % (width // 32), block // (width // 32) % (height // 32)
            x, y = 32 * column + 8 * (inner % 4), 32 * row + 8 * (inner // 4)
        colour = (x % 256, y % 256, 99, 128)
        triangles.append([(x, y, 0, colour), (x + 8, y, 0, colour), (x, y + 8, 0, colour)])
    return Scene(width, height, triangles)


def shuffled_mesh(side, count):
    """Triangles side by side over the target, as many as asked or as have room, their legs as long as fit, in random
    order."""
    count = min(count, (side // 2) ** 2)
    across = next(number for number in range(1, side) if number * number >= count)
    leg = side // across
    places = [(leg * (number % across), leg * (number // across)) for number in range(count)]
    random.Random(1).shuffle(places)
    return Scene(
        side,
        side,
        [
            [(x, y, 0, colour), (x + leg, y, 0, colour), (x, y + leg, 0, colour)]
            for x, y in places
            for colour in [(x % 256, y % 256, 99, 128)]
        ],
    )


def in_the_middle(side, count):
    """Linear triangles whose legs are a twentieth of the target's side long, over one another in its middle fifth."""
    generator = random.Random(1)
    leg = side // 20
    triangles = []
    for number in range(count):
        x, y = (generator.randrange(2 * side // 5, 3 * side // 5 - leg + 1) for _ in range(2))
        colours = [(number % 256, 128, 99, 128), (255, number % 256, 0, 64), (x % 256, y % 256, 99, 128)]
        places = [(x, y), (x + leg, y), (x, y + leg)]
        triangles.append([(x, y, 0, colour) for (x, y), colour in zip(places, colours)])
    return Scene(side, side, triangles, "linear")


def one_pixel(count):
    """Triangles that cover the first pixel alone."""
    colours = [(number % 256, 1, 2, 128) for number in range(count)]
    return Scene(32, 32, [[(0, 0, 0, colour), (2, 0, 0, colour), (0, 2, 0, colour)] for colour in colours])


def markers(width, height, count):
    return frame(width, height, [MARKER] * count)


def states(width, height, count):
    """State events of each kind in turn."""
    kinds = [
        *map(compact, (captures.factor(1, 2, 3, 4), captures.raster("back", True), captures.scissor(0, 0, 9, 9))),
        BLENDED,
    ]
    return frame(width, height, [kinds[number % 4] for number in range(count)])


def clears(width, height, count):
    return frame(width, height, [compact(captures.clear(number % 256, 1, 2, 3)) for number in range(count)])
