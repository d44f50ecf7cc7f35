"""Where a vertex has to lie. A pixel whose wanted colour says which triangle of the vertex covers it, or that none
does, bounds the vertex by lines: an edge runs on one side of the pixel's centre, and between its corners' colours a
linear triangle has the wanted one along a line alone.

A line is (a, b, c): a x + b y + c is at least 0, with x and y in 1/256 pixel. It is a whole number there, so that
half of one is room for rounding.
"""
import bisect
import itertools
from collections.abc import Iterable, Iterator, Sequence
from dataclasses import dataclass

from rules.coverage import cross, culled_turn, least

from .fragments import Colour, Corner, Fragment, Place
from .frame import order_of
from .painting import has_picture
from .points import Points

Line = tuple[float, ...]  # a, b and c
Polygon = list[tuple[float, float]]
Clause = list[list[Line]]  # alternatives, of one of which all lines hold

REACH = 40 * 256  # how far a vertex is looked for
MOST_TURNS = 300  # choices between alternatives
MOST_POLYGONS, MOST_INSIDE, MOST_TRIED = 24, 40, 120  # that are looked at; places in one, and in all, that are tried
SLACK = 0.5


def line_of(one: Sequence[float], other: Sequence[float], sign: int = 1) -> Line:
    """The cross product from the vertex to one place and another, as a line."""
    return sign * (one[1] - other[1]), sign * (other[0] - one[0]), sign * (one[0] * other[1] - one[1] * other[0])


def added(*weighed: tuple[float, Line]) -> Line:
    """The sum of (factor, line)."""
    return tuple(sum(factor * line[at] for factor, line in weighed) for at in range(3))


def value(line: Line, place: Sequence[float]) -> float:
    return line[0] * place[0] + line[1] * place[1] + line[2]


def clipped(polygon: Polygon, line: Line) -> Polygon:
    """The part of a convex polygon on a line's side."""
    made: Polygon = []
    for here, there in zip(polygon, polygon[1:] + polygon[:1]):
        low, high = value(line, here) + SLACK, value(line, there) + SLACK
        if low >= 0:
            made.append(here)
        if (low < 0) != (high < 0):
            part = low / (low - high)
            made.append((here[0] + part * (there[0] - here[0]), here[1] + part * (there[1] - here[1])))
    return made


@dataclass(frozen=True)
class Own:
    """A triangle of the vertex: its number, the other two corners so that it runs clockwise, and which way it runs
    as it is drawn."""

    number: int
    is_clockwise: bool
    first: Corner
    second: Corner
    flat: Colour  # its colour where it is flat

    def covers(self, middle: Place) -> list[Line] | None:
        """The lines by which it covers a pixel's centre, or None where its third edge forbids that."""
        a, b = self.first[0], self.second[0]
        if cross(a, b, middle) < least(a, b):
            return None
        return [line_of(a, middle), line_of(b, middle, -1), line_of(a, b)]

    def strips(self, middle: Place, channel: int, low: int, high: int, vertex: Corner) -> Iterator[Line]:
        """The lines by which a channel comes out within bounds there."""
        a, b = self.first, self.second
        whole = line_of(a[0], b[0])
        total: Line = (0, 0, cross(a[0], b[0], middle) * vertex[1][channel])
        total = added((1, total), (a[1][channel], line_of(b[0], middle, -1)), (b[1][channel], line_of(a[0], middle)))
        hull = [vertex[1][channel], a[1][channel], b[1][channel]]
        if low > min(hull):
            yield added((2, total), (1 - 2 * low, whole))
        if high < max(hull):
            yield added((-2, total), (2 * high + 1, whole))


class Cell:
    """What the points say of a vertex of a draw, while it stands at a place."""

    def __init__(self, points: Points, number: int, at: int, is_clockwise: bool | None = None) -> None:
        """`is_clockwise` says which way its triangles run where none is culled; else they run as they do with the
        vertex at a place."""
        event = points.frame.events[number - 1]
        self.points, self.number, self.at, self.event = points, number, at, event
        self.state, self.is_clockwise = points.steps[number - 1][0], is_clockwise
        self.corners = [points.corner(vertex) for vertex in event["vertices"]]
        order = order_of(event)
        self.triangles = [order[k : k + 3] for k in range(0, len(order) - 2, 3)]
        self.fixed = self._fixed()

    def _fixed(self) -> dict[int, list[tuple[int, Fragment]]]:
        """Of each point the fragments of the triangles that haven't the vertex, each with its number."""
        made: dict[int, list[tuple[int, Fragment]]] = {}
        for number, triangle in enumerate(self.triangles):
            if self.at not in triangle:
                for point, fragment in self.points.put_out(self.event, [self.corners[i] for i in triangle]):
                    made.setdefault(point, []).append((number, fragment))
        return made

    def own(self, place: Place) -> Iterator[Own]:
        """The triangles of the vertex as they run with it at a place, or as they do to be drawn."""
        culled = culled_turn(self.state["raster"])
        forced = self.is_clockwise if culled is None else not culled
        for number, triangle in enumerate(self.triangles):
            if triangle.count(self.at) == 1:
                k = triangle.index(self.at)
                first, second = (self.corners[triangle[(k + by) % 3]] for by in (1, 2))
                is_clockwise = cross(place, first[0], second[0]) > 0 if forced is None else forced
                pair = (first, second) if is_clockwise else (second, first)
                yield Own(number, is_clockwise, *pair, self.corners[triangle[0]][1])

    def with_own(self, point: int, triangle: Own, source: Colour, depth: int) -> Colour:
        """The point's colour in the end, where one triangle of the vertex covers it with a source."""
        made = sorted([*self.fixed.get(point, ()), (triangle.number, (triangle.is_clockwise, source, depth))])
        return self.points.final(point, self.number - 1, [fragment for _, fragment in made])

    def fits(self, point: int, triangle: Own, place: Place) -> list[Line] | None:
        """The lines by which a triangle covers a point and has the wanted colour there, or None where it can't."""
        middle, vertex = self.points.centres[point], self.corners[self.at]
        lines = triangle.covers(middle)
        if lines is None:
            return None
        source, depth = shaded(triangle, middle, place, vertex)
        wanted = self.points.wanted[point]
        if self.event["interp"] != "linear":
            own = self.points.texel(self.event, point) if has_picture(self.event) else triangle.flat
            is_wanted = own and self.points.is_near(self.with_own(point, triangle, own, depth), wanted)
            return lines if is_wanted else None
        for channel in range(4):
            bounds = self.bounds(point, triangle, source, depth, channel)
            if bounds is None:
                return None
            lines = [*lines, *triangle.strips(middle, channel, *bounds, vertex)]
        return lines

    def bounds(self, point: int, triangle: Own, source: Colour, depth: int, channel: int) -> tuple[int, int] | None:
        """The least and the greatest value of a channel of the source with which the point's is as wanted; None
        where there is none. More of a source is taken to leave more in the end."""
        hull = sorted([self.corners[self.at][1][channel], triangle.first[1][channel], triangle.second[1][channel]])
        wanted, by = self.points.wanted[point][channel], self.points.comparison.tolerance[channel]
        if by == 255:
            return hull[0], hull[2]

        def final(byte: int) -> int:
            return self.with_own(
                point, triangle, tuple(byte if i == channel else other for i, other in enumerate(source)), depth
            )[channel]

        values = range(hull[0], hull[2] + 1)
        low, high = bisect.bisect_left(values, wanted - by, key=final), bisect.bisect_right(
            values, wanted + by, key=final
        )
        return (values[low], values[high - 1]) if low < high else None

    def clauses(self, place: Place) -> Iterator[Clause]:
        """What each point says that says something."""
        own, number = list(self.own(place)), self.number - 1
        for point, wanted in enumerate(self.points.wanted):
            near = [triangle for triangle in own if self.reaches(triangle, point, place)]
            if not near or not self.points.is_inside(point, self.state) or self.is_discarded(point):
                continue
            is_bare = self.points.is_near(
                self.points.final(point, number, [fragment for _, fragment in self.fixed.get(point, ())]), wanted
            )
            fitting = [lines for lines in (self.fits(point, triangle, place) for triangle in near) if lines]
            if is_bare and not fitting:
                for triangle in near:
                    lines = triangle.covers(self.points.centres[point])
                    if lines:
                        yield [[added((-1, line))] for line in lines]
            elif fitting and not is_bare:
                yield fitting

    def is_discarded(self, point: int) -> bool:
        """Whether the draw has a picture that puts out nothing there, wherever the vertex lies."""
        return has_picture(self.event) and self.points.texel(self.event, point) is None

    def reaches(self, triangle: Own, point: int, place: Place) -> bool:
        x, y = self.points.centres[point]
        xs, ys = zip(triangle.first[0], triangle.second[0])
        return min(*xs, place[0] - REACH) <= x <= max(*xs, place[0] + REACH) and min(*ys, place[1] - REACH) <= y <= max(
            *ys, place[1] + REACH
        )

    def places(self, place: Place) -> Iterator[Place]:
        """Places in 1/256 pixel that the points leave of the square round one, at most so many."""
        x, y = place
        signs = (-1, -1), (1, -1), (1, 1), (-1, 1)
        square: Polygon = [(x + across * REACH, y + down * REACH) for across, down in signs]
        found = (
            spot
            for polygon in itertools.islice(polygons(square, list(self.clauses(place)), []), MOST_POLYGONS)
            for spot in inside(polygon)
        )
        return itertools.islice(found, MOST_TRIED)


def polygons(polygon: Polygon, clauses: list[Clause], turns: list[list[Line]]) -> Iterator[Polygon]:
    """What the clauses leave of a polygon: where one has several alternatives, of each what it leaves. `turns`
    counts how often that was so."""
    while True:
        narrower, rest = narrowed(polygon, clauses)
        if narrower is None or len(turns) > MOST_TURNS:
            return
        if len(rest) == len(clauses):
            break
        polygon, clauses = narrower, rest
    if not clauses:
        yield polygon
        return
    clause = min(clauses, key=len)
    for lines in clause:
        turns.append(lines)
        yield from polygons(polygon, [other for other in clauses if other is not clause] + [[lines]], turns)


def narrowed(polygon: Polygon, clauses: Iterable[Clause]) -> tuple[Polygon | None, list[Clause]]:
    """The polygon after each clause that leaves one alternative, and the clauses that leave more; no polygon where
    one leaves none."""
    rest: list[Clause] = []
    for clause in clauses:
        left = [
            lines for lines in clause if all(max(value(line, corner) for corner in polygon) >= -SLACK for line in lines)
        ]
        if any(all(value(line, corner) >= -SLACK for line in lines for corner in polygon) for lines in left):
            continue
        if len(left) > 1:
            rest.append(left)
            continue
        for line in left[0] if left else ():
            polygon = clipped(polygon, line)
            if not polygon:
                return None, []
        if not left:
            return None, []
    return polygon, rest


def inside(polygon: Polygon) -> list[Place]:
    """Places in 1/256 pixel in a polygon and at its edge, the middle first."""
    xs, ys = [round(x) for x, _ in polygon], [round(y) for _, y in polygon]
    middle = sum(x for x, _ in polygon) / len(polygon), sum(y for _, y in polygon) / len(polygon)
    step = max(1, round(((max(xs) - min(xs) + 1) * (max(ys) - min(ys) + 1) / MOST_INSIDE) ** 0.5))
    grid = itertools.product(range(min(xs), max(xs) + 1, step), range(min(ys), max(ys) + 1, step))
    found = dict.fromkeys([(round(middle[0]), round(middle[1])), *zip(xs, ys), *grid])
    return sorted(found, key=lambda spot: abs(spot[0] - middle[0]) + abs(spot[1] - middle[1]))[:MOST_INSIDE]


def shaded(triangle: Own, middle: Place, place: Place, vertex: Corner) -> tuple[Colour, int]:
    """About the source and the depth that a triangle of the vertex has at a pixel, also where it doesn't cover it."""
    a, b = triangle.first, triangle.second
    weights = [cross(a[0], b[0], middle), cross(b[0], place, middle), cross(place, a[0], middle)]
    whole = cross(place, a[0], b[0]) or 1
    mean = lambda values: round(sum(weight * one for weight, one in zip(weights, values)) / whole)
    inside = lambda number, values: min(max(number, min(values)), max(values))
    channels = list(zip(vertex[1], a[1], b[1]))
    depths = vertex[2], a[2], b[2]
    return tuple(inside(mean(values), values) for values in channels), inside(mean(depths), depths)
