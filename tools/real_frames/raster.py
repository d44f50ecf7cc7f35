"""Triangles row by row: the pixels that they cover, and those at which they pass the depth test."""
from collections.abc import Callable, Iterable, Iterator, Sequence

from captures import FARTHEST, Event
from rules.coverage import CENTRE, cross, culled_turn, least
from rules.depth import PASSES
from rules.shading import means_along

Place = tuple[int, int]  # in 1/256 pixel
Span = tuple[int, int, int]  # a row, where it begins, and the place behind its end


class Triangle:
    """A snapped triangle with its edges as whole-number functions of the pixel."""

    def __init__(self, corners: Sequence[Place]) -> None:
        a, b, c = corners
        self.winding = cross(a, b, c)
        self.area = abs(self.winding)
        self.corners = corners
        # (rise with x, rise with y, weight at the first pixel, the least weight that is inside)
        self.edges: list[tuple[int, int, int, int]] = []
        for u, v in ((b, c), (c, a), (a, b)) if self.winding > 0 else ((c, b), (a, c), (b, a)):
            dx, dy = v[0] - u[0], v[1] - u[1]
            self.edges.append((-dy * 256, dx * 256, cross(u, v, (CENTRE, CENTRE)), least(u, v)))

    def weights(self, x: int, y: int) -> list[int]:
        return [rise_x * x + rise_y * y + start for rise_x, rise_y, start, _ in self.edges]

    def box(self, width: int, height: int, rectangle: Sequence[int] | None = None) -> tuple[int, int, int, int]:
        """The pixels that it may cover, within the target and the rectangle: left, top, right, bottom."""
        columns, rows = [x for x, _ in self.corners], [y for _, y in self.corners]
        left, top, right, bottom = rectangle or (0, 0, width, height)
        return (
            max(left, 0, (min(columns) - CENTRE) // 256),
            max(top, 0, (min(rows) - CENTRE) // 256),
            min(right, width, (max(columns) - CENTRE) // 256 + 1),
            min(bottom, height, (max(rows) - CENTRE) // 256 + 1),
        )

    def spans(self, width: int, height: int, rectangle: Sequence[int] | None = None) -> Iterator[Span]:
        """Gives (y, x0, x1) of each row that is covered, within the target and the rectangle (left, top, right,
        bottom)."""
        if self.area == 0:
            return
        left, top, right, bottom = self.box(width, height, rectangle)
        for y in range(top, bottom):
            x0, x1 = left, right
            for rise_x, rise_y, start, inside in self.edges:
                base = rise_y * y + start - inside
                if rise_x > 0:
                    x0 = max(x0, -(base // rise_x))
                elif rise_x < 0:
                    x1 = min(x1, base // -rise_x + 1)
                elif base < 0:
                    x0 = x1
            if x0 < x1:
                yield y, x0, x1

    def is_culled(self, raster: Event) -> bool:
        return self.area != 0 and (self.winding > 0) == culled_turn(raster)


class DepthTarget:
    """The depths of a target, as framedbg will have them."""

    def __init__(self, width: int, height: int) -> None:
        self.width, self.height = width, height
        self.rows = [[FARTHEST] * width for _ in range(height)]
        self.own: set[int] = set()  # the rows that were copied since depths were kept

    def kept(self) -> list[list[int]]:
        """The depths as they are now, to go back to."""
        self.own = set()
        return list(self.rows)

    def writable(self, y: int) -> list[int]:
        """A row to write to: a copy, where it may be one of those that are kept."""
        if y not in self.own:
            self.own.add(y)
            self.rows[y] = self.rows[y][:]
        return self.rows[y]

    def fill(self, depth: int, box: Sequence[int] | None = None) -> None:
        left, top, right, bottom = box or (0, 0, self.width, self.height)
        for y in range(top, bottom):
            self.writable(y)[left:right] = [depth] * (right - left)

    def draw(
        self, shape: Triangle, depths: Sequence[int], state: Event, rectangle: Sequence[int] | None = None
    ) -> list[Span]:
        """Draws one triangle, and gives the spans (y, x0, x1) that passed."""
        spans = shape.spans(self.width, self.height, rectangle)
        if not state["enable"]:
            return list(spans)
        compare = PASSES[state["func"]]
        passed: list[Span] = []
        step = sum(edge[0] * depth for edge, depth in zip(shape.edges, depths))
        for y, x0, x1 in spans:
            total = sum(weight * depth for weight, depth in zip(shape.weights(x0, y), depths))
            passed += self.test(y, x0, means_along(total, step, shape.area, x1 - x0), compare, state["write"])
        return passed

    def test(
        self, y: int, left: int, sources: Sequence[int], compare: Callable[[int, int], bool], write: bool
    ) -> list[Span]:
        """Tests a row of depths, and gives the spans that passed."""
        row = self.writable(y) if write else self.rows[y]
        passed: list[Span] = []
        start = None
        for x, depth in enumerate(sources, left):
            if compare(depth, row[x]):
                if write:
                    row[x] = depth
                if start is None:
                    start = x
            elif start is not None:
                passed.append((y, start, x))
                start = None
        if start is not None:
            passed.append((y, start, left + len(sources)))
        return passed


def pixels(spans: Iterable[Span]) -> int:
    return sum(x1 - x0 for _, x0, x1 in spans)
