"""Triangles, lines and points of a draw, from clip space onto the target in 1/65536 pixel, all as triangles."""
import math
from collections.abc import Iterable, Sequence
from dataclasses import dataclass
from typing import TYPE_CHECKING

from captures import PIXEL, Event
from rules.coverage import CENTRE, cross, culled_turn
from rules.snapping import snap

from .clipping import GUARD, Plane, Vertex, clip, clip_line, planes
from .losses import Losses

if TYPE_CHECKING:
    from .records import Shape
    from .states import State

Place = tuple[float, float, float]  # x and y in pixels, and depth

WHOLE = 256  # a pixel after snapping
STEP = PIXEL // WHOLE


@dataclass(frozen=True)
class Bias:
    """What is added to the depths of a triangle: so many steps of the depth target, and so much of its steepness."""

    constant: float = 0.0
    slope: float = 0.0
    most: float = 0.0  # zero: as much as it is
    step: float = 0.0  # the depth target's; zero: that of a float as large as the triangle's farthest depth

    def of(self, corners: Sequence[Place]) -> float:
        if not (self.constant or self.slope):
            return 0.0
        farthest = max(z for _, _, z in corners)
        step = self.step or math.ldexp(1.0, math.frexp(max(farthest, 1e-30))[1] - 24)
        amount = self.constant * step + self.slope * steepness(corners)
        if self.most:
            amount = min(amount, self.most) if self.most > 0 else max(amount, self.most)
        return amount


def steepness(corners: Sequence[Place]) -> float:
    """The larger of a triangle's two rises of depth a pixel; zero where it has no area."""
    (ax, ay, az), (bx, by, bz), (cx, cy, cz) = corners
    area = cross(*corners)
    if abs(area) < 1e-12:
        return 0.0
    along_x = ((bz - az) * (cy - ay) - (cz - az) * (by - ay)) / area
    along_y = ((cz - az) * (bx - ax) - (bz - az) * (cx - ax)) / area
    return max(abs(along_x), abs(along_y))


def placed(
    primitives: Iterable[tuple[tuple[int, int], Sequence[Vertex]]], state: "State", losses: Losses
) -> "list[Shape]":
    """Gives ((instance, primitive), three corners (x, y, depth)) of each triangle that is left after clipping."""
    shapes: "list[Shape]" = []
    kept = planes(state.viewport, state.clip_depth)
    for number, corners in primitives:
        if not all(math.isfinite(value) for corner in corners for value in corner):
            losses.add("triangles, lines and points with a corner that is no number", "left out")
            continue
        for places in triangles(corners, state, kept, losses):
            bias = state.bias.of(places)
            shapes.append((number, [(round(x * PIXEL), round(y * PIXEL), z + bias) for x, y, z in places]))
    return lowered(shapes) if state.viewport.rows_from_below else shapes


def lowered(shapes: "list[Shape]") -> "list[Shape]":
    """OpenGL counts rows from below: where an edge runs along the middles of a row, that row belongs to what lies
    over the edge, and in framedbg to what lies below it. The ends of such edges are moved down by the least step, in
    each triangle that has them."""
    ends: set[tuple[int, int]] = set()
    for _, corners in shapes:
        for (ax, ay, _), (bx, by, _) in zip(corners, corners[1:] + corners[:1]):
            if snap(ay) == snap(by) and snap(ay) % WHOLE == CENTRE:
                ends |= {(ax, ay), (bx, by)}
    if not ends:
        return shapes
    return [(number, [(x, y + STEP * ((x, y) in ends), z) for x, y, z in corners]) for number, corners in shapes]


def triangles(
    corners: Sequence[Vertex], state: "State", kept: Sequence[Plane], losses: Losses
) -> list[list[Place]]:
    """A primitive on the target, as triangles of three places (x, y, depth) in pixels."""
    if len(corners) < 3:
        losses.add("lines and points", "drawn as quads of their width")
        ends = clip_line(corners, kept)
        return (
            [
                turned(half, state.raster)
                for half in quad([state.viewport.place(end) for end in ends], max(round(state.width), 1))
            ]
            if ends
            else []
        )
    pieces, was_cut = clip(corners, kept)
    if was_cut and pieces:
        losses.add("triangles cut at the near plane or far outside", "carried over in pieces")
    return [[state.viewport.place(corner) for corner in piece] for piece in pieces]


def quad(ends: Sequence[Place], width: int = 1) -> tuple[list[Place], list[Place]]:
    """Two triangles along a line, so many pixels wide across its longer way; round a point, a square of so many."""
    half = width / 2
    if len(ends) == 1:
        ((x, y, z),) = ends
        x, y = (snap(round(place * PIXEL)) / WHOLE for place in (x, y))
        x, y = (math.floor(place) + 0.5 if width % 2 else math.floor(place + 0.5) for place in (x, y))
        ends = (x - half, y, z), (x + half, y, z)
    (ax, ay, az), (bx, by, bz) = ends
    dx, dy = (0, half) if abs(bx - ax) >= abs(by - ay) else (half, 0)
    a, b, c, d = (
        guarded(*corner)
        for corner in ((ax - dx, ay - dy, az), (bx - dx, by - dy, bz), (bx + dx, by + dy, bz), (ax + dx, ay + dy, az))
    )
    return [a, b, c], [a, c, d]


def guarded(x: float, y: float, z: float) -> Place:
    """A corner that a line's width brings out of what a capture takes, moved to its border: both lie far beside the
    target."""
    return min(max(x, -GUARD), GUARD), min(max(y, -GUARD), GUARD), z


def turned(corners: list[Place], raster: Event) -> list[Place]:
    """A triangle of a line, which has no back: turned so that it isn't culled."""
    culled = culled_turn(raster)
    away = raster["front_ccw"] if culled is None else culled
    return [corners[0], corners[2], corners[1]] if (cross(*corners) > 0) == away else corners
