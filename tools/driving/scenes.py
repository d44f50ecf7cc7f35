"""A small capture by a seed, of one feature: what features draw with. Positions are in 1/65536 pixel."""
from collections.abc import Iterable, Iterator, Sequence

import captures
from captures import PIXEL, Event

from .dice import Dice

Point = tuple[int, ...]  # x and y
Triangle = Sequence[Point]

SIDE = 64  # pixels of a target, unless a feature wants more
HALF = PIXEL // 2
STRIDE = 0x9E3779  # between the colours of neighbouring triangles, which lie far apart so that coverage shows


class Scene:
    """Corners lie where a driver of so many bits of a pixel's fraction can hold them, but where these are what is
    tried."""

    def __init__(self, feature: str, seed: int, bits: int = 8) -> None:
        self.step = 1 << 16 - min(bits, 8)
        self.dice = Dice(f"{feature} {seed}")
        self.events: list[Event] = [captures.raster("none")]
        self.number, self.side = 0, SIDE

    def add(self, event: Event) -> None:
        self.events.append(event)

    # ---- Colours and places
    def colour(self) -> list[int]:
        """A colour far from those of the triangles before and after."""
        self.number += 1
        mixed = self.number * STRIDE + self.dice.below(8)
        return [mixed & 255, mixed >> 8 & 255, mixed >> 16 & 255, 128 + self.number * 37 % 128]

    def any(self) -> list[int]:
        """Any colour, with many a 0 and a 255."""
        return [self.dice.choice((0, 255, self.dice.below(256), self.dice.below(256))) for _ in range(4)]

    def place(self, step: int | None = None, fifths: int = 1) -> Point:
        """Somewhere on the target, or up to so many fifths of it outside."""
        step, outside = step or self.step, fifths * SIDE * PIXEL // 5
        return tuple(self.dice.between(-outside, SIDE * PIXEL + outside) // step * step for _ in "xy")

    def near(self, place: Point, reach: int) -> Point:
        """Somewhere at most `reach` away along each axis."""
        return tuple(part + self.dice.between(-reach, reach) // self.step * self.step for part in place)

    def soup(self, count: int, step: int | None = None) -> list[Triangle]:
        """Triangles anywhere."""
        return [tuple(self.place(step) for _ in range(3)) for _ in range(count)]

    def cells(self, side: int) -> Iterator[tuple[Triangle, Triangle]]:
        """The target in squares so many pixels wide, of two triangles each."""
        for y in range(0, SIDE, side):
            for x in range(0, SIDE, side):
                yield box(x, y, x + side, y + side)

    def mesh(self, columns: int, rows: int, step: int, push: int) -> Iterator[Triangle]:
        """The target in triangles that share their edges, with the inner corners pushed about."""
        point: dict[tuple[int, int], Point] = {}
        for i in range(columns + 1):
            for j in range(rows + 1):
                is_inner = 0 < i < columns and 0 < j < rows
                pushed = [self.dice.between(-push, push + 1) if is_inner else 0 for _ in "xy"]
                point[i, j] = tuple(
                    (k * SIDE * PIXEL // of + by) // step * step for k, of, by in zip((i, j), (columns, rows), pushed)
                )
        for i in range(columns):
            for j in range(rows):
                a, b, c, d = point[i, j], point[i + 1, j], point[i + 1, j + 1], point[i, j + 1]
                yield from ((a, b, c), (a, c, d)) if self.dice.is_so(5) else ((a, b, d), (b, c, d))

    # ---- Events
    def draw(
        self,
        triangles: Iterable[Triangle],
        colours: Sequence[list[int]],
        depths: Sequence[int] | None = None,
        interp: str = "flat",
        indices: Sequence[int] | None = None,
    ) -> None:
        """Triangles with a colour for each corner, and perhaps a depth for each."""
        corners = [corner for triangle in triangles for corner in triangle]
        depths = depths or [0] * len(corners)
        self.add(
            captures.draw(
                [captures.vertex(x, y, colour, z) for (x, y), colour, z in zip(corners, colours, depths)],
                interp,
                indices,
            )
        )

    def flat(self, triangles: Sequence[Triangle], depths: Sequence[int] | None = None) -> None:
        """Each triangle of one colour of its own, whichever corner names it."""
        self.draw(triangles, [colour for _ in triangles for colour in [self.colour()] * 3], depths)

    def linear(self, triangles: Sequence[Triangle]) -> None:
        self.draw(triangles, [self.any() for _ in range(3 * len(triangles))], interp="linear")

    def mosaic(self, side: int = 2) -> None:
        """Squares that have any colour each."""
        pairs = list(self.cells(side))
        self.draw(
            [triangle for pair in pairs for triangle in pair], [colour for _ in pairs for colour in [self.any()] * 6]
        )

    def blend(
        self, rgb: Sequence[str], alpha: Sequence[str] = captures.REPLACE, mask: int = 15, enable: bool = True
    ) -> None:
        self.add(captures.blend(enable, rgb, alpha, mask))

    def depth(self, func: str, write: bool = True) -> None:
        self.add(captures.depth(True, write, func))


def box(left: int, top: int, right: int, bottom: int) -> tuple[Triangle, Triangle]:
    """A rectangle of whole pixels, as two triangles."""
    left, top, right, bottom = (part * PIXEL for part in (left, top, right, bottom))
    return ((left, top), (right, top), (left, bottom)), ((right, top), (right, bottom), (left, bottom))
