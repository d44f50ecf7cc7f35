#!/usr/bin/env python3
"""Writes the table of blended bytes that the tests of this crate compare with.

Every number here is an exact fraction from 0 to 1, and the rules are those of the Direct3D 11.3 functional
specification, section 17 (output merger), and 3.2.3.6 (FLOAT to UNORM). Nothing is taken from the crate's code.

    python3 vectors/blend_table.py > src/tests/blend/table.rt && rt fmt     (two minutes)
"""

from fractions import Fraction
from functools import cache
from itertools import product
from math import floor

CORNERS = [0, 1, 127, 128, 254, 255]

# For each factor its value at a channel, of: the channel and the alpha of the source (s, sa), those of the
# destination (d, da), and the channel of the blend factor (f).
FACTORS = {
    "ZERO": lambda s, sa, d, da, f: Fraction(0),
    "ONE": lambda s, sa, d, da, f: Fraction(1),
    "SRC_COLOR": lambda s, sa, d, da, f: s,
    "INV_SRC_COLOR": lambda s, sa, d, da, f: 1 - s,
    "SRC_ALPHA": lambda s, sa, d, da, f: sa,
    "INV_SRC_ALPHA": lambda s, sa, d, da, f: 1 - sa,
    "DEST_ALPHA": lambda s, sa, d, da, f: da,
    "INV_DEST_ALPHA": lambda s, sa, d, da, f: 1 - da,
    "DEST_COLOR": lambda s, sa, d, da, f: d,
    "INV_DEST_COLOR": lambda s, sa, d, da, f: 1 - d,
    "BLEND_FACTOR": lambda s, sa, d, da, f: f,
    "INV_BLEND_FACTOR": lambda s, sa, d, da, f: 1 - f,
}
REFUSED_IN_ALPHA = ["SRC_COLOR", "INV_SRC_COLOR", "DEST_COLOR", "INV_DEST_COLOR"]

# Each operation of the two weighted channels (S, D) and the two plain ones (s, d).
OPERATIONS = {
    "ADD": lambda S, D, s, d: S + D,
    "SUBTRACT": lambda S, D, s, d: S - D,
    "REV_SUBTRACT": lambda S, D, s, d: D - S,
    "MIN": lambda S, D, s, d: min(s, d),
    "MAX": lambda S, D, s, d: max(s, d),
}

# Six points (s, sa, d, da, f), by their places among the corners: each variable takes each corner once.
POINTS = [(0, 3, 5, 2, 4), (1, 5, 3, 4, 0), (2, 1, 4, 0, 3), (3, 4, 0, 5, 2), (4, 0, 2, 1, 5), (5, 2, 1, 3, 1)]


def to_byte(value):
    """FLOAT to UNORM: clamped, times 255, plus a half, the fraction dropped."""
    return floor(min(max(value, Fraction(0)), Fraction(1)) * 255 + Fraction(1, 2))


def blended(src, dst, operation, s, sa, d, da, f):
    """One channel of a source over a destination, all given as bytes."""
    s, sa, d, da, f = (Fraction(byte, 255) for byte in (s, sa, d, da, f))
    weighted_source = s * FACTORS[src](s, sa, d, da, f)
    weighted_destination = d * FACTORS[dst](s, sa, d, da, f)
    return to_byte(OPERATIONS[operation](weighted_source, weighted_destination, s, d))


@cache
def alpha_of(src, dst, operation, sa, da, fa):
    """The alpha channel; where the alpha part refuses a factor, the parts are ONE, ZERO, ADD."""
    if src in REFUSED_IN_ALPHA or dst in REFUSED_IN_ALPHA:
        return sa
    return blended(src, dst, operation, sa, sa, da, da, fa)


def digest(src, dst, operation):
    """FNV-1a of 32 bits over red and alpha at each point of the grid, f's corner changing fastest. The blend
    factor's alpha is 255 less its red."""
    result = 2166136261
    for s, sa, d, da, f in product(CORNERS, repeat=5):
        red = blended(src, dst, operation, s, sa, d, da, f)
        for byte in (red, alpha_of(src, dst, operation, sa, da, 255 - f)):
            result = ((result ^ byte) * 16777619) % 2**32
    return result


def rows():
    for src, dst in product(FACTORS, repeat=2):
        values = []
        for operation in ("ADD", "SUBTRACT", "REV_SUBTRACT"):
            for point in POINTS:
                values.append(blended(src, dst, operation, *(CORNERS[place] for place in point)))
        yield values


def listed(numbers):
    return "[" + ", ".join(str(number) for number in numbers) + "]"


def main():
    points = [[CORNERS[place] for place in point] for point in POINTS]
    print("//! Blended bytes, written by vectors/blend_table.py: edit the script, not this file.")
    print()
    print(
        "/// Six points: source channel, source alpha, destination channel, destination alpha, blend factor's channel."
    )
    print("pub(super) static POINTS: [[u8; 5]; 6] = [")
    for point in points:
        print(f"    {listed(point)},")
    print("];")
    print()
    for operation in ("MIN", "MAX"):
        values = [blended("ONE", "ONE", operation, *point) for point in points]
        print(f"/// {operation} at the six points, whatever the factors.")
        print(f"pub(super) static {operation}: [u8; 6] = {listed(values)};")
        print()
    print(
        "/// For each source factor and each destination factor, in the specification's order: ADD, SUBTRACT "
        "and REV_SUBTRACT,"
    )
    print("/// each at the six points.")
    print("pub(super) static VALUES: [[u8; 18]; 144] = [")
    for values in rows():
        print(f"    {listed(values)},")
    print("];")
    print()
    print(
        "/// For each source factor, each destination factor and each operation: the digest over the whole grid "
        "of the corners."
    )
    print("pub(super) static DIGESTS: [u32; 720] = [")
    digests = [digest(src, dst, operation) for src, dst in product(FACTORS, repeat=2) for operation in OPERATIONS]
    for start in range(0, len(digests), 5):
        print("    " + ", ".join(str(number) for number in digests[start : start + 5]) + ",")
    print("];")


if __name__ == "__main__":
    main()
