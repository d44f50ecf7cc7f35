"""Triangles, lines and points of OpenGL's own modes, with the primitive that each belongs to."""
from collections.abc import Iterator

from real_frames import topology

from . import numbers as gl

Shape = tuple[int, tuple[int, ...]]  # a primitive, and the numbers of its corners


def quads(count: int) -> Iterator[Shape]:
    """As Mesa splits them: at the corner that goes last."""
    for primitive in range(count // 4):
        a, b, c, d = range(4 * primitive, 4 * primitive + 4)
        yield from ((primitive, (a, b, d)), (primitive, (b, c, d)))


def quad_strip(count: int) -> Iterator[Shape]:
    for primitive in range(max(count // 2 - 1, 0)):
        a, b, d, c = range(2 * primitive, 2 * primitive + 4)
        yield from ((primitive, (d, a, c)), (primitive, (a, b, c)))


def polygon(count: int) -> Iterator[Shape]:
    for corners in topology.list_of_fan(list(range(count))):
        yield 0, corners


OWN = {7: quads, 8: quad_strip, 9: polygon}


def shapes(mode: int, count: int) -> list[Shape]:
    """None of a mode that isn't known."""
    if mode in OWN:
        return list(OWN[mode](count))
    name = gl.MODES.get(mode)
    return list(topology.primitives(name, list(range(count)))) if name else []
