#!/usr/bin/env python3
"""town: writes the capture of a town: ground, houses, bunnies, particles, full-screen passes and a user interface, with the state events between.

    benches/town.py [--seed N] [--pieces N] [--scale N] FILE

By default about 3,250 draws of 104,000 triangles and 7,000 events, on 2048 by 2048 with depths. --pieces 3 cuts the same meshes into draws of at most three
triangles: 35,000 draws and 70,000 events. --scale N makes the target, and the number of things, N times smaller. FILE may be - for standard output. What is
written is told on standard error.

The same words write the same bytes, on any machine: nothing but sums, products and quotients is worked out, and chance is Python's `random()` of a seed.
"""
import argparse
import random
import sys

import folders

import scenes
from scenes import FARTHEST, PIXEL, captures, compact

FULL_SIDE = 2048
EYE, NEAR, FAR = 30.0, 10.0, 1000.0  # the camera's height, and the depths that it sees
KEEP = ("ZERO", "ONE", "ADD")
OPAQUE = captures.blend(False)
ADDED = captures.blend(True, ("SRC_ALPHA", "ONE", "ADD"), KEEP, 7)
BLENDED = captures.blend(True, ("SRC_ALPHA", "INV_SRC_ALPHA", "ADD"), ("ONE", "INV_SRC_ALPHA", "ADD"))
DARKENED = captures.blend(True, ("DEST_COLOR", "BLEND_FACTOR", "ADD"), KEEP)
TESTED, STRICT = captures.depth(func="LESS_EQUAL"), captures.depth(func="LESS")
UNTESTED, UNWRITTEN = captures.depth(False, False, "ALWAYS"), captures.depth(write=False, func="LESS_EQUAL")
CLOCKWISE, BOTH_SIDES, CUT_OUT = captures.raster("back"), captures.raster("none"), captures.raster("none", scissor=True)
# round the circle by quotients alone
ARC = [((1 - t * t) / (1 + t * t), 2 * t / (1 + t * t)) for t in [step / 16 for step in range(16)]]
CIRCLE = [
    (turn[0] * x + turn[1] * y, turn[2] * x + turn[3] * y)
    for turn in [(1, 0, 0, 1), (0, -1, 1, 0), (-1, 0, 0, -1), (0, 1, -1, 0)]
    for x, y in ARC
]


class Mesh:
    """Corners (x, y, depth, colour) in pixels of the target, and triangles as threes of their numbers."""

    def __init__(self):
        self.corners, self.triangles = [], []

    def corner(self, x, y, depth, colour):
        self.corners.append((x, y, depth, colour))
        return len(self.corners) - 1

    def polygon(self, corners):
        """Three corners or more, round the way a front face goes: clockwise as it is seen."""
        numbers = [self.corner(*corner) for corner in corners]
        self.triangles += [(numbers[0], second, third) for second, third in zip(numbers[1:], numbers[2:])]

    def rectangle(self, left, top, right, bottom, depth, colour):
        self.polygon(
            [
                (left, top, depth, colour),
                (right, top, depth, colour),
                (right, bottom, depth, colour),
                (left, bottom, depth, colour),
            ]
        )

    def pieces(self, size):
        """The same triangles in meshes of so many, in their order, each with the corners that it has."""
        for start in range(0, len(self.triangles), size):
            piece, known = Mesh(), {}
            for triangle in self.triangles[start : start + size]:
                for number in triangle:
                    if number not in known:
                        known[number] = piece.corner(*self.corners[number])
                piece.triangles.append(tuple(known[number] for number in triangle))
            yield piece

    def event(self, interp):
        corners = [captures.vertex(fixed(x), fixed(y), colour, depth) for x, y, depth, colour in self.corners]
        return captures.draw(corners, interp, [number for triangle in self.triangles for number in triangle])


def fixed(pixels):
    """In 1/65536 pixel, no farther from the target than a capture can say."""
    return max(-captures.MOST_POSITION, min(captures.MOST_POSITION, int(pixels * PIXEL)))


class Town:
    """The events of one town, and how many draws and triangles there are."""

    def __init__(self, seed=1, pieces=None, scale=1):
        self.side, self.scale, self.size = max(FULL_SIDE // scale // 32, 1) * 32, scale, pieces
        self.chance = random.Random(seed)
        self.events, self.draws, self.triangles = [], 0, 0
        self.current, self.changes = (
            {},
            [],
        )  # what is set by kind, and the numbers of the events that set something else
        self.begin()
        self.ground()
        self.houses()
        self.bunnies()
        self.particles()
        self.passes(3)
        self.interface()

    def capture(self):
        return scenes.frame(self.side, self.side, map(compact, self.events), 2)

    def middle_change(self):
        """The number of a state event: of those that set something else than what was set, the nearest to the
        frame's middle."""
        return min(self.changes, key=lambda number: abs(2 * number - len(self.events)))

    def between(self, low, high):
        return low + self.chance.random() * (high - low)

    def below(self, count):
        return int(self.chance.random() * count)

    def colour(self, alpha=255):
        return tuple(40 + self.below(200) for _ in range(3)) + (alpha,)

    def many(self, count):
        return max(count // self.scale, 1)

    # ---- events

    def marker(self, name):
        self.events.append(captures.marker(name))

    def state(self, event):
        kind = event["kind"]
        self.events.append(event)
        if self.current.get(kind) != event:
            self.changes.append(len(self.events))
        self.current[kind] = event

    def draw(self, name, mesh, interp="flat"):
        """A marker, where there is a name, and a draw; or the draws of its pieces with an event between, as of a
        program that tells what is known already."""
        if name:
            self.marker(name)
        for number, piece in enumerate(mesh.pieces(self.size) if self.size else [mesh]):
            if number % 4 == 3:
                self.state(self.current["raster"])
            elif number:
                self.marker(f"piece {number}")
            self.events.append(piece.event(interp))
            self.draws += 1
            self.triangles += len(piece.triangles)

    # ---- places

    def seen(self, x, y, z, colour):
        """A corner of the target for a place of the town: x to the right, y up, z away from the camera."""
        scale = 0.8 * self.side / z
        depth = (1 / NEAR - 1 / z) / (1 / NEAR - 1 / FAR)
        return self.side / 2 + scale * x, 0.35 * self.side + scale * (EYE - y), min(int(depth * 65534), 65534), colour

    # ---- what stands in it

    def begin(self):
        self.events += [captures.clear(20, 30, 60, 255), captures.depth_clear(FARTHEST)]
        for event in (BOTH_SIDES, OPAQUE, UNTESTED, captures.factor(128, 128, 128, 255)):
            self.state(event)
        sky = Mesh()
        sky.polygon(
            [
                (0, 0, FARTHEST, (90, 140, 220, 255)),
                (self.side, 0, FARTHEST, (90, 140, 220, 255)),
                (self.side, self.side, FARTHEST, (200, 220, 240, 255)),
                (0, self.side, FARTHEST, (200, 220, 240, 255)),
            ]
        )
        self.draw("sky", sky, "linear")

    def ground(self):
        """64 pieces of land, each a grid of 8 by 8."""
        self.state(TESTED)
        side = self.many(8)
        for row in range(side):
            for column in range(side):
                ends = [20 + 780 * (row + part / 8) / side for part in range(9)]
                edges = [1.4 * (column + part / 8) / side - 0.7 for part in range(9)]
                grid = [
                    [(edge * end, self.between(-0.5, 0), end, (60, 90 + self.below(40), 50, 255)) for edge in edges]
                    for end in reversed(ends)
                ]
                self.draw(f"ground {row} {column}", self.grid(grid), "linear")

    def grid(self, rows):
        """A surface from its places row by row, whose front is where the rows go down and the columns to the right."""
        mesh = Mesh()
        numbers = [[mesh.corner(*self.seen(*place)) for place in row] for row in rows]
        for upper, lower in zip(numbers, numbers[1:]):
            for a, b, c, d in zip(upper, upper[1:], lower[1:], lower):
                mesh.triangles += [(a, b, c), (a, c, d)]
        return mesh

    def houses(self):
        """900 of them in streets of ten; each is a draw of its walls and windows, and one of its roof and chimney."""
        for number in range(self.many(900)):
            if number % 10 == 0:
                self.state(BOTH_SIDES if self.below(3) == 0 else CLOCKWISE)
                self.state(OPAQUE)
                self.state(TESTED if self.below(4) else STRICT)
            row, column = divmod(number * self.scale, 30)
            z = 60 + 24 * row + self.between(-4, 4)
            house = House(self, ((2 * column + 1) / 30 - 1) * 0.7 * z, z)
            self.draw(f"house {number}", house.walls())
            self.draw("", house.roof())

    def bunnies(self):
        """Four closed meshes of 64 by 64 fields with two ears, each in four draws; at the poles some triangles have
        no area."""
        self.state(CLOCKWISE)
        for number in range(4):
            x, z, colour = self.between(-40, 40), self.between(70, 120), self.colour()
            fields = self.many(64)
            places = [
                [self.fur(x, z, colour, row / fields, column / fields) for column in range(fields + 1)]
                for row in range(fields + 1)
            ]
            step = max(fields // 4, 1)
            for start in range(0, fields, step):
                self.draw(f"bunny {number} part {start // step}", self.grid(places[start : start + step + 1]), "linear")

    def fur(self, x, z, colour, down, round_about):
        """A place on a bunny's skin, from its top down and round about."""
        up, out = CIRCLE[min(int(down * 32), 31)] if down < 1 else (-1.0, 0.0)
        turn = CIRCLE[int(round_about * 64) % 64]
        ear = max(0.0, 1 - 6 * abs(up - 0.8)) * max(0.0, abs(turn[0]) - 0.7) * 3
        radius = 9 * (1 + 1.3 * ear + 0.1 * turn[0] * turn[1] * out)
        light = int(60 * (up + 1))
        return (
            x + radius * out * turn[0],
            9 + radius * up,
            z - radius * out * turn[1],
            tuple(min(shade + light, 255) for shade in colour[:3]) + (255,),
        )

    def particles(self):
        """700 clouds of ten sprites each, blended, tested by depth and not written."""
        self.state(UNWRITTEN)
        self.state(BOTH_SIDES)
        for number in range(self.many(700)):
            if number % 2 == 0:
                self.state(ADDED if self.below(2) else BLENDED)
            x, y, z = self.between(-60, 60), self.between(0, 25), self.between(60, 200)
            mesh, colour = Mesh(), self.colour(90)
            for _ in range(10):
                left, top, depth, _ = self.seen(x + self.between(-3, 3), y + self.between(-3, 3), z, colour)
                size = self.side * self.between(0.002, 0.008)
                mesh.rectangle(left, top, left + size, top + size, depth, colour)
            self.draw(f"particles {number}", mesh)

    def passes(self, count):
        """Pairs of draws over the whole target: fog, and a factor that darkens it."""
        for number in range(count):
            for event in (UNTESTED, BLENDED):
                self.state(event)
            mesh = Mesh()
            mesh.rectangle(0, 0, self.side, self.side, 0, (180, 190, 200, 8))
            self.draw(f"fog {number}", mesh)
            self.state(DARKENED)
            self.state(captures.factor(120 + number, 120, 120, 255))
            mesh = Mesh()
            mesh.rectangle(0, 0, self.side, self.side, 0, (127, 127, 127, 255))
            self.draw(f"tone {number}", mesh)

    def interface(self):
        """660 panels of ten letters, each cut out by a scissor of its own."""
        self.state(UNTESTED)
        self.state(CUT_OUT)
        columns, rows = 22, 30
        for number in range(self.many(660)):
            row, column = divmod(number * self.scale, columns)
            left, top = column * self.side / columns, row * self.side / rows
            width, height = self.side / columns, self.side / rows
            box = [int(left), int(top), int(left + width), int(top + height * 0.6)]
            self.state(captures.scissor(*box))
            if number % 20 == 0:
                self.state(BLENDED)
            mesh, colour = Mesh(), self.colour(200)
            for letter in range(10):
                begin, deep = left + width * (letter + 0.2) / 10, top + height * self.between(0.3, 0.7)
                mesh.rectangle(begin, top + height * 0.1, begin + width * 0.06, deep, 0, colour)
            self.draw(f"panel {number}", mesh)


class House:
    """A house that stands somewhere, turned by chance: its walls and its roof, as they are seen."""

    def __init__(self, town, x, z):
        self.town, self.middle, self.turn = town, (x, z), CIRCLE[town.below(len(CIRCLE))]
        self.high, self.colours = town.between(5, 11), [town.colour() for _ in range(3)]

    def at(self, right, up, away, colour):
        """The corner for a place measured from the house's middle, where its walls are 4 to the sides."""
        cosine, sine = self.turn
        return self.town.seen(
            self.middle[0] + right * cosine - away * sine, up, self.middle[1] + right * sine + away * cosine, colour
        )

    def wall(self, number, box, out, colour):
        """A rectangle (left, bottom, right, top) on one of the four walls, so far out of it."""
        left, bottom, right, top = box
        turned = [lambda x: (x, -4 - out), lambda x: (4 + out, x), lambda x: (-x, 4 + out), lambda x: (-4 - out, -x)][
            number
        ]
        return [
            self.at(turned(x)[0], y, turned(x)[1], colour)
            for x, y in ((left, top), (right, top), (right, bottom), (left, bottom))
        ]

    def walls(self):
        """Four walls, ten windows and a door: 30 triangles."""
        mesh = Mesh()
        for number in range(4):
            mesh.polygon(self.wall(number, (-4, 0, 4, self.high), 0, self.colours[0]))
        for window in range(10):
            left, bottom = (-3, 0.5)[window // 4 % 2] + 0.2 * (window // 8), (0.55, 0.15)[window // 8] * self.high
            mesh.polygon(
                self.wall(window % 4, (left, bottom, left + 2, bottom + 0.3 * self.high), 0.05, (210, 220, 120, 255))
            )
        mesh.polygon(self.wall(0, (-0.7, 0, 0.7, 0.35 * self.high), 0.08, self.colours[2]))
        return mesh

    def roof(self):
        """Two slopes, two gables, and two sides of a chimney: 10 triangles."""
        mesh, low, ridge, colour = Mesh(), self.high, self.high + 4, self.colours[1]
        for side in (1, -1):
            mesh.polygon(
                [
                    self.at(*place, colour)
                    for place in (
                        (-side * 5, ridge, 0),
                        (side * 5, ridge, 0),
                        (side * 5, low, -side * 5),
                        (-side * 5, low, -side * 5),
                    )
                ]
            )
            mesh.polygon(
                [
                    self.at(*place, self.colours[0])
                    for place in ((side * 4, ridge, 0), (side * 4, low, side * 4), (side * 4, low, -side * 4))
                ]
            )
            mesh.polygon(
                [
                    self.at(side * x, y, side * -2, self.colours[2])
                    for x, y in ((1, ridge + 2), (2, ridge + 2), (2, low), (1, low))
                ]
            )
        return mesh


def number_from(text):
    number = int(text)
    if number < 1:
        raise ValueError(text)
    return number


number_from.__name__ = "number"  # what argparse calls it


def main():
    parser = argparse.ArgumentParser(description=__doc__, formatter_class=argparse.RawDescriptionHelpFormatter)
    parser.add_argument("--seed", type=int, default=1, help="another town")
    parser.add_argument("--pieces", type=number_from, metavar="N", help="draws of at most so many triangles")
    parser.add_argument("--scale", type=number_from, default=1, metavar="N", help="so many times smaller")
    parser.add_argument("file")
    words = parser.parse_args()
    town = Town(words.seed, words.pieces, words.scale)
    try:
        with open(words.file if words.file != "-" else sys.stdout.fileno(), "wb") as file:
            file.write(town.capture())
    except OSError as fault:
        sys.exit(f"town: {words.file}: {fault.strerror}")
    print(
        f"town: {town.draws:,} draws of {town.triangles:,} triangles, {len(town.events):,} events, {town.side} "
        f"by {town.side}",
        file=sys.stderr,
    )


if __name__ == "__main__":
    main()
