"""The camera, in floats: where a model's points come to lie on the target, and how far away."""
import math
from collections.abc import Sequence

from captures import FARTHEST

from .model import Colour, Fault, Point

EYE = 4.0  # from the model's middle, in radii of the model
FILLED = 0.88  # of the target, by the model
LIGHT = (-0.45, 0.75, 0.48)


def looked_at(
    points: Sequence[Point], width: int, height: int, azimuth: float, elevation: float
) -> tuple[list[Point], list[Point]]:
    """Each point as the eye has it, and as (x, y, distance): x and y in pixels, the whole model in the picture."""
    low, high = ([f(p[i] for p in points) for i in range(3)] for f in (min, max))
    middle = [a / 2 + b / 2 for a, b in zip(low, high)]
    radius = math.dist(low, high) / 2 or 1
    if not math.isfinite(radius):
        raise Fault("its points lie too far from each other")
    ca, sa, ce, se = (f(math.radians(a)) for a in (azimuth, elevation) for f in (math.cos, math.sin))
    seen = []
    for p in points:
        x, y, z = ((p[i] - middle[i]) / radius for i in range(3))
        x, z = ca * x + sa * z, ca * z - sa * x
        y, z = ce * y - se * z, ce * z + se * y
        seen.append((x, y, z))
    flat = [(x / (EYE - z), -y / (EYE - z), EYE - z) for x, y, z in seen]
    left, top, right, bottom = (f(p[i] for p in flat) for i, f in ((0, min), (1, min), (0, max), (1, max)))
    scale = FILLED * min(width / (right - left or 1), height / (bottom - top or 1))
    return seen, [
        (width / 2 + scale * (x - (left + right) / 2), height / 2 + scale * (y - (top + bottom) / 2), d)
        for x, y, d in flat
    ]


def depth_of(distance: float) -> int:
    """A depth of 16 bits, as a projection from 2.9 to 5.1 radii away has it."""
    near, far = EYE - 1.1, EYE + 1.1
    return round(FARTHEST * (1 / near - 1 / max(near, min(far, distance))) / (1 / near - 1 / far))


def normal(a: Point, b: Point, c: Point) -> Point:
    u, v = [q - p for p, q in zip(a, b)], [q - p for p, q in zip(a, c)]
    return (u[1] * v[2] - u[2] * v[1], u[2] * v[0] - u[0] * v[2], u[0] * v[1] - u[1] * v[0])


def lit(colour: Colour, n: Point) -> list[int]:
    length = math.hypot(*n) or 1
    light = 0.42 + 0.58 * abs(sum(a * b for a, b in zip(n, LIGHT))) / (length * math.hypot(*LIGHT))
    return [round(255 * min(1, max(0, c * light))) for c in colour[:3]] + [round(255 * min(1, max(0, colour[3])))]
