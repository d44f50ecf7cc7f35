"""Triangles, lines and points in clip space, cut to what a capture can say: in front of the eye, and within 16,384
pixels of the target's corner."""
from collections.abc import Callable, Iterable, Sequence

from captures import MOST_SIDE

from .viewport import Viewport

Vertex = tuple[float, ...]  # x, y, z and w
Plane = Callable[[Vertex], float]  # at least zero inside

GUARD = (
    MOST_SIDE - 0.25
)  # pixels from the upper left corner of the target, whose last centre lies at 16,383.5; a little is left for rounding
LEAST_W = 1e-6


def sides(axis: int, middle: float, half: float) -> list[Plane]:
    """Two half spaces: what lies within the guard, of an axis on which clip space has its middle at one place and
    reaches so far from it."""
    return [lambda v: (GUARD - middle) * v[3] - half * v[axis], lambda v: (GUARD + middle) * v[3] + half * v[axis]]


def planes(viewport: Viewport, clip_depth: bool) -> list[Plane]:
    """The half spaces that hold what can be drawn."""
    kept: list[Plane] = [lambda v: v[3] - LEAST_W]
    if clip_depth:
        kept.append((lambda v: v[2]) if viewport.half_depth else (lambda v: v[2] + v[3]))
        kept.append(lambda v: v[3] - v[2])
    across, down = viewport.width / 2, viewport.height / 2
    return (
        kept
        + sides(0, viewport.left + across, across)
        + sides(1, viewport.top + down, -down if viewport.y_up else down)
    )


def cut(polygon: Sequence[Vertex], plane: Plane) -> list[Vertex]:
    """Cuts a convex polygon at one plane. A new vertex is worked out from the inner end, so that two neighbours
    agree."""
    kept: list[Vertex] = []
    for i, here in enumerate(polygon):
        there = polygon[(i + 1) % len(polygon)]
        inside, outside = plane(here), plane(there)
        if inside >= 0:
            kept.append(here)
        if (inside >= 0) != (outside >= 0):
            first, last, at_first, at_last = (
                (here, there, inside, outside) if inside >= 0 else (there, here, outside, inside)
            )
            part = at_first / (at_first - at_last)
            kept.append(tuple(f + (l - f) * part for f, l in zip(first, last)))
    return kept


def clip(corners: Sequence[Vertex], kept_planes: Sequence[Plane]) -> tuple[list[tuple[Vertex, ...]], bool]:
    """Gives the clipped triangle as a list of triangles, and whether anything was cut."""
    outside = [[plane(v) < 0 for v in corners] for plane in kept_planes]
    if not any(any(side) for side in outside):
        return [tuple(corners)], False
    if any(all(side) for side in outside):
        return [], True
    polygon = list(corners)
    for plane in kept_planes:
        polygon = cut(polygon, plane)
        if len(polygon) < 3:
            return [], True
    return [(polygon[0], polygon[i], polygon[i + 1]) for i in range(1, len(polygon) - 1)], True


def clip_line(ends: Sequence[Vertex], kept_planes: Iterable[Plane]) -> tuple[Vertex, ...]:
    """Gives the two ends of the part that is left, or nothing."""
    for plane in kept_planes:
        inside = [plane(end) >= 0 for end in ends]
        if not any(inside):
            return ()
        if not all(inside):
            ends = cut(ends, plane)[:2]
    return tuple(ends)
