"""What the words of a capture are in OpenGL.

The target's row 0 is OpenGL's row 0: y isn't flipped, neither in positions nor in what is read. So a triangle that
is clockwise on the target, where y goes down, is counter-clockwise to OpenGL, and an edge at lower y is the upper
one to both.
"""
import math
from collections.abc import Sequence
from typing import NamedTuple

from . import opengl

FACTORS = {
    "ZERO": 0,
    "ONE": 1,
    "SRC_COLOR": 0x300,
    "INV_SRC_COLOR": 0x301,
    "SRC_ALPHA": 0x302,
    "INV_SRC_ALPHA": 0x303,
    "DEST_ALPHA": 0x304,
    "INV_DEST_ALPHA": 0x305,
    "DEST_COLOR": 0x306,
    "INV_DEST_COLOR": 0x307,
    "BLEND_FACTOR": 0x8001,
    "INV_BLEND_FACTOR": 0x8002,
}
OPERATIONS = {"ADD": 0x8006, "SUBTRACT": 0x800A, "REV_SUBTRACT": 0x800B, "MIN": 0x8007, "MAX": 0x8008}
FUNCTIONS = {
    "NEVER": 0x200,
    "LESS": 0x201,
    "EQUAL": 0x202,
    "LESS_EQUAL": 0x203,
    "GREATER": 0x204,
    "NOT_EQUAL": 0x205,
    "GREATER_EQUAL": 0x206,
    "ALWAYS": 0x207,
}
CULLED = {"front": opengl.FRONT, "back": opengl.BACK}
FRONT_FACES = {False: opengl.CCW, True: opengl.CW}  # by front_ccw
DEEPEST = 65535
FRACTIONS = 65536  # a capture's positions in a pixel; 256 of them are what is drawn with
SNAPPED = 256


class Box(NamedTuple):
    """A viewport: what lies inside isn't clipped."""

    left: int
    top: int
    width: int
    height: int


def power_from(number: int) -> int:
    """The least power of two that is no less."""
    return 1 << math.ceil(math.log2(number))


def viewport(width: int, height: int, wanted: int | str, most: int) -> Box:
    """The viewport of a target. `wanted` is a power of two that it is wide and high, of which a larger target takes
    the next; or "target", what a program would set. In a power of two a position is exact in floats; in the target's
    own size it is so where that is one too.
    """
    if isinstance(wanted, str):
        return Box(0, 0, width, height)
    side = min(most, max(wanted, power_from(max(width, height))))
    return Box(-min(side // 2, side - power_from(width)), -min(side // 2, side - power_from(height)), side, side)


def scissor_of(rect: Sequence[int], width: int, height: int) -> tuple[int, int, int, int]:
    """A rectangle cut to the target, as left, top, width and height; an empty or turned one is none wide or none
    high."""
    left, top, right, bottom = (min(max(edge, 0), side) for edge, side in zip(rect, (width, height) * 2))
    return left, top, max(0, right - left), max(0, bottom - top)


def last_first(order: Sequence[int]) -> list[int]:
    """The corners of triangles turned so that the first of each becomes its last, and each still runs the same way."""
    return [corner for at in range(0, len(order), 3) for corner in (order[at + 1], order[at + 2], order[at])]
