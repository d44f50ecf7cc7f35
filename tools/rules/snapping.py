"""Positions on the grid that triangles are drawn by: from 1/65536 pixel to 1/256 pixel."""
from collections.abc import Mapping


def snap(position: int) -> int:
    """1/65536 pixel to 1/256 pixel: the nearest, ties to even."""
    quotient, rest = divmod(position, 256)
    return quotient + (rest > 128 or rest == 128 and quotient & 1)


def snapped(vertex: Mapping[str, int]) -> tuple[int, int]:
    """The place of a vertex, snapped."""
    return snap(vertex["x"]), snap(vertex["y"])
