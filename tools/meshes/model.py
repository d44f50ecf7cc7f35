"""A model: points, and faces with a name and a colour; and what is wrong with a file that has none."""
import math
import pathlib
from collections.abc import Sequence
from dataclasses import dataclass, field
from typing import SupportsFloat

from writing.counting import counted

Point = tuple[float, float, float]
Colour = tuple[float, float, float, float]  # red, green, blue, alpha from 0 to 1
Face = tuple[tuple[int, int, int], str, Colour]  # three corners, the part's name, its colour

GREY: Colour = (0.75, 0.74, 0.72, 1.0)
MOST_FILE = 1 << 28  # bytes of a model that are read
MOST_FACES = 700_000  # triangles: a capture's 67,108,864 bytes have room for fewer
MOST_POINTS = 3 * MOST_FACES


class Fault(Exception):
    """The file is cut short or wrong; the text says where and how."""


@dataclass
class Model:
    points: list[Point] = field(default_factory=list)
    faces: list[Face] = field(default_factory=list)

    def add_point(self, point: Point) -> None:
        if not all(map(math.isfinite, point)):
            raise Fault("a point lies endlessly far away")
        if len(self.points) == MOST_POINTS:
            raise Fault(f"it has more than {MOST_POINTS} points, which no capture has room for")
        self.points.append(point)

    def add_polygon(self, corners: Sequence[int], name: str, colour: Colour) -> None:
        """As triangles round its first corner."""
        if len(corners) < 3:
            raise Fault(f"a face has {counted(len(corners), 'corner')}")
        for corner in corners:
            if not 0 <= corner < len(self.points):
                raise Fault(f"a face names point {corner} of {len(self.points)}, counted from 0")
        if len(self.faces) + len(corners) - 2 > MOST_FACES:
            raise Fault(f"it has more than {MOST_FACES} triangles, which no capture has room for")
        self.faces += [((corners[0], b, c), name, colour) for b, c in zip(corners[1:], corners[2:])]


def read_bytes(path: pathlib.Path) -> bytes:
    """The whole of a file, unless it is too long or has no end."""
    with open(path, "rb") as file:
        data = file.read(MOST_FILE + 1)
    if len(data) > MOST_FILE:
        raise Fault(f"it has more than {MOST_FILE} bytes")
    return data


def number(text: str | SupportsFloat) -> float:
    try:
        value = float(text)
    except (ValueError, TypeError, OverflowError):
        raise Fault(f"{str(text)[:20]!r} is no number") from None
    if not math.isfinite(value):
        raise Fault(f"{str(text)[:20]} is no finite number")
    return value
