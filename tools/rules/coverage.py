"""Which side of an edge a pixel lies on, to whom it belongs on the edge itself, and which triangles are culled.
Places are in 1/256 pixel."""
from collections.abc import Mapping, Sequence
from typing import Any, TypeVar

CENTRE = 128  # of a pixel, from its upper left corner

Number = TypeVar("Number", int, float)


def centre(x: int, y: int) -> tuple[int, int]:
    """The place of a pixel's centre."""
    return 256 * x + CENTRE, 256 * y + CENTRE


def cross(a: Sequence[Number], b: Sequence[Number], c: Sequence[Number]) -> Number:
    """Twice the area of a triangle, above zero where it runs clockwise."""
    return (b[0] - a[0]) * (c[1] - a[1]) - (b[1] - a[1]) * (c[0] - a[0])


def least(u: Sequence[int], v: Sequence[int]) -> int:
    """What the edge from u to v wants of a pixel's centre at least: edges at the left and at the top have those that
    lie on them."""
    return 0 if v[1] < u[1] or v[1] == u[1] and v[0] > u[0] else 1


def culled_turn(raster: Mapping[str, Any]) -> bool | None:
    """Which triangles a raster state culls: True for those that run clockwise, False for the others, None for none."""
    return None if raster["cull"] == "none" else (raster["cull"] == "front") != raster["front_ccw"]
