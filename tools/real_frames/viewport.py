"""Where clip space lands on the target."""
from collections.abc import Sequence
from dataclasses import dataclass

Rectangle = list[int]  # left, top, right, bottom


@dataclass(frozen=True)
class Viewport:
    """In pixels from the upper left corner of the picture."""

    left: float
    top: float
    width: float
    height: float  # below zero where the picture is turned upside down
    nearest: float = 0.0
    farthest: float = 1.0
    y_up: bool = False  # clip space has y up
    half_depth: bool = True  # clip space has 0 <= z <= w, else -w <= z <= w
    rows_from_below: bool = False  # an edge along the middles of a row gives it to what lies over the edge

    def place(self, vertex: Sequence[float]) -> tuple[float, float, float]:
        """Gives (x, y, depth) of a vertex in clip space: pixels, and a depth of 0 to 1."""
        x, y, z, w = vertex
        x, y, z = x / w, y / w, z / w
        if self.y_up:
            y = -y
        if not self.half_depth:
            z = z * 0.5 + 0.5
        return (
            self.left + (x * 0.5 + 0.5) * self.width,
            self.top + (y * 0.5 + 0.5) * self.height,
            self.nearest + z * (self.farthest - self.nearest),
        )

    def box(self) -> Rectangle:
        """The rectangle that it is: left, top, right, bottom in whole pixels."""
        return rectangle(self.left, min(self.top, self.top + self.height), self.width, abs(self.height))


def rectangle(left: float, top: float, width: float, height: float) -> Rectangle:
    return [int(left), int(top), int(left + width), int(top + height)]


def meet(first: Rectangle, second: Rectangle) -> Rectangle:
    """The rectangle that lies in both; its right may be left of its left, where there is none."""
    return [max(first[0], second[0]), max(first[1], second[1]), min(first[2], second[2]), min(first[3], second[3])]
