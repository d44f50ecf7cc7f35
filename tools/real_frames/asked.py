"""What a shader gave at some pixels of a draw, asked of RenderDoc's histories where the draw can't be drawn alone:
which pixels are asked, and what lies between."""
from collections.abc import Iterable, Mapping, Sequence
from typing import TypeVar

from .pieces import Piece
from .planes import CHANNELS, Row, Table
from .records import Colour, Shape

One = TypeVar("One")

MOST_OF_A_DRAW = 12


def pixels_to_ask(
    shapes: Iterable[Shape], size: tuple[int, int], pictures: tuple[bytes, bytes], most: int
) -> list[tuple[int, int]]:
    """Pixels over the triangles of a draw, where its picture isn't as before: so many in all, at least one, and as
    many of each triangle."""
    width, height = size
    before, after = (memoryview(picture).cast("I") for picture in pictures)
    shown = []
    for number, corners in shapes:
        spans = Piece(number, [(x, y, 0) for x, y, _ in corners]).shape.spans(width, height)
        changed = [
            (x, y) for y, x0, x1 in spans for x in range(x0, x1) if before[y * width + x] != after[y * width + x]
        ]
        if changed:
            shown.append(changed)
    chosen = evenly(shown, most)
    return list(dict.fromkeys(pixel for changed in chosen for pixel in evenly(changed, max(most // len(chosen), 1))))


def evenly(some: Sequence[One], most: int) -> list[One]:
    """At most so many of a list, the first and the last among them."""
    if len(some) <= most:
        return list(some)
    return (
        [some[number * (len(some) - 1) // (most - 1)] for number in range(most)] if most > 1 else [some[len(some) // 2]]
    )


class Model:
    """The plane through what was given at some pixels, for each primitive; for one that wasn't asked the mean of the
    others."""

    def __init__(self, known: Mapping[tuple[int, int], Mapping[int, Colour]]) -> None:
        rows: dict[int, dict[int, list[tuple[int, Colour]]]] = {}
        for (x, y), given in sorted(known.items()):
            for primitive, colour in given.items():
                rows.setdefault(primitive, {}).setdefault(y, []).append((x, colour))
        self.planes = {primitive: Plane(samples) for primitive, samples in rows.items()}

    def at(self, primitive: int, x: int, y: int) -> tuple[float, ...]:
        if primitive in self.planes:
            return self.planes[primitive].at(x, y)
        return tuple(
            sum(plane.middle[channel] for plane in self.planes.values()) / len(self.planes) for channel in CHANNELS
        )


class Plane:
    def __init__(self, samples: Mapping[int, Row]) -> None:
        sums = Table(samples).over([(y, row[0][0], row[-1][0] + 1) for y, row in samples.items()])
        self.centre = sums.x / sums.count, sums.y / sums.count
        self.middle = tuple(sums.mean(channel) for channel in CHANNELS)
        self.slopes = tuple(sums.slopes(channel) for channel in CHANNELS)

    def at(self, x: int, y: int) -> tuple[float, ...]:
        right, down = x - self.centre[0], y - self.centre[1]
        return tuple(
            min(max(middle + b * right + c * down, 0.0), 255.0) for middle, (b, c) in zip(self.middle, self.slopes)
        )
