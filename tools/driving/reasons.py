"""Why a driver's colour is far off: which triangles it must have drawn there, and which not."""
import collections
import itertools
from collections.abc import Callable, Iterable, Iterator, Sequence
from typing import Any

from blaming.frame import CaptureFrame, order_of
from framedbg_client import Entry
from rules.blending import blended
from rules.coverage import centre, cross
from rules.shading import mean
from rules.snapping import snapped

from .exact import Exact
from .kinds import Kind

Colour = tuple[int, ...]
Point = tuple[int, int]  # in 1/256 pixel
Edges = tuple[tuple[Point, Point], tuple[Point, Point], tuple[Point, Point]]  # of a triangle
Reaching = tuple[int, int, int, Edges]  # a triangle, from where to where it reaches, and its edges

MOST_WEIGHED = 7  # entries of a pixel of which all subsets are weighed: the last ones
NEAR, NEARBY = (
    2,
    12,
)  # how far off a colour may be that is explained so, and by a shaded triangle's colour at a neighbour
NEIGHBOURS = ((-1, 0), (1, 0), (0, -1), (0, 1), (-1, -1), (1, -1), (-1, 1), (1, 1))
TIE = 2  # units of depth
EXACT_FUNCTIONS = ("EQUAL", "NOT_EQUAL")  # a second pass has to meet the depths of its first
BY_VERDICT = {"culled": Kind.CULL, "scissored": Kind.SCISSOR}


def apart(one: Iterable[int], other: Iterable[int]) -> int:
    return max(abs(a - b) for a, b in zip(one, other))


class Reasons:
    """The differences of one draw. `there` tells what the driver had at a pixel; `is_alike` whether both had the
    same depth there."""

    def __init__(
        self,
        exact: Exact,
        frame: CaptureFrame,
        number: int,
        there: Callable[[int, int], tuple[int, ...]],
        is_alike: Callable[[int, int], bool],
    ) -> None:
        self.exact, self.number, self.there, self.is_alike = exact, number, there, is_alike
        self.width, self.height = frame.width, frame.height
        self.draw = frame.events[number - 1]
        self.order = order_of(self.draw)
        self.blend, self.factor = frame.state(number, "blend"), frame.state(number, "factor")["color"]
        self.depth = frame.state(number, "depth")
        self._entries: dict[Point, list[Entry]] = {}
        self._edges: collections.Counter[frozenset[Point]] | None = None
        self._rows: list[list[Reaching]] | None = None

    def of(self, x: int, y: int, drawn: Colour) -> tuple[Kind, bool]:
        """The kind of a pixel where the driver drew a colour that is off by more than 1, and whether OpenGL leaves it
        open."""
        entries = self.entries(x, y)
        right = entries[-1].after if entries else self.there(x, y)
        gap = apart(right, drawn)
        if self.blend["enable"] and gap <= sum(entry.is_drawn for entry in entries):
            return Kind.ADDS_UP, False
        if gap <= NEAR:
            return Kind.BY_2, False
        return (
            self.by_entries(x, y, entries, drawn) or self.by_neighbours(x, y, entries, drawn) or (Kind.BY_MORE, False)
        )

    def entries(self, x: int, y: int) -> list[Entry]:
        """What the draw's triangles did to a pixel; of a neighbour it is asked again, and remembered."""
        if (x, y) not in self._entries:
            self._entries[x, y] = [
                entry for entry in self.exact.entries(self.number, x, y) if entry.triangle is not None
            ]
        return self._entries[x, y]

    def blended(self, source: Iterable[int], there: Iterable[int]) -> Colour:
        return blended(self.blend, tuple(self.factor), tuple(source), tuple(there))

    # ---- By the triangles that cover the pixel
    def by_entries(self, x: int, y: int, entries: list[Entry], drawn: Colour) -> tuple[Kind, bool] | None:
        """The fewest entries that are drawn where they shouldn't be, or aren't where they should, if these make the
        driver's colour."""
        entries = entries[-MOST_WEIGHED:]
        best = self.fewest(entries, self.there(x, y), drawn)
        if best is None:
            return None
        if not best:  # drawn as is right, on what differed before
            return Kind.BY_MORE, False
        verdict = best[0].verdict
        if verdict in BY_VERDICT:
            return BY_VERDICT[verdict], False
        if verdict == "depthfailed" or self.depth["enable"]:
            return (Kind.DEPTH_TIE if any(map(self.is_tie_at(x, y), entries)) else Kind.DEPTH_TEST), False
        is_hole = drawn == tuple(self.there(x, y))
        return Kind.COVERAGE, any(self.is_open(triangle_of(entry), x, y, is_hole) for entry in best)

    def fewest(self, entries: Sequence[Entry], there: Colour, drawn: Colour) -> tuple[Entry, ...] | None:
        """The fewest of some entries that, drawn where they aren't or not drawn where they are, make the driver's
        colour; or None."""
        for count in range(len(entries) + 1):
            for others in itertools.combinations(entries, count):
                colour = there
                for entry in entries:
                    if entry.is_drawn != (entry in others):
                        colour = self.blended(entry.source, colour)
                if apart(colour, drawn) <= NEAR:
                    return others
        return None

    def is_tie_at(self, x: int, y: int) -> Callable[[Entry], bool]:
        """Whether a rounding decides the depth test of an entry: not where both have the same depth stored and the
        triangle's is one all over."""
        is_alike = self.is_alike(x, y)

        def is_tie(entry: Entry) -> bool:
            if (
                not entry.depths
                or abs(entry.depths.source - entry.depths.before) > TIE
                or self.depth["func"] in EXACT_FUNCTIONS
            ):
                return False
            return not is_alike or len({corner["z"] for corner in self.corners(triangle_of(entry))}) > 1

        return is_tie

    # ---- By those of its neighbours
    def by_neighbours(self, x: int, y: int, entries: list[Entry], drawn: Colour) -> tuple[Kind, bool] | None:
        """Whether a triangle that covers a neighbour alone is drawn here: one more, or in the last one's place."""
        own = {entry.triangle for entry in entries}
        shown = [entry for entry in entries if entry.is_drawn]
        there, most = self.there(x, y), NEAR if self.draw["interp"] == "flat" else NEARBY
        for triangle, source in itertools.chain(self.near(x, y), self.touching(x, y)):
            for is_more, below in (
                ((True, shown[-1].after if shown else there), (False, there)) if triangle not in own else ()
            ):
                if apart(self.blended(source, below), drawn) <= most:
                    return Kind.COVERAGE, self.is_open(triangle, x, y, is_more and bool(shown))
        return None if shown else (Kind.COVERAGE, False)

    def near(self, x: int, y: int) -> Iterator[tuple[int, Sequence[int]]]:
        """The triangles that are drawn at its neighbours, each with its colour there."""
        for i, j in NEIGHBOURS:
            u, v = x + i, y + j
            if 0 <= u < self.width and 0 <= v < self.height:
                yield from ((triangle_of(entry), entry.source) for entry in self.entries(u, v) if entry.is_drawn)

    def touching(self, x: int, y: int) -> Iterator[tuple[int, Sequence[int]]]:
        """The triangles on whose edges its centre lies, each with its colour there."""
        at = centre(x, y)
        for triangle, left, right, edges in self.rows()[y]:
            if left <= at[0] <= right and any(lies_on(at, *edge) for edge in edges):
                yield triangle, self.source(triangle, edges, at)

    def rows(self) -> list[list[Reaching]]:
        """For each row of the target the triangles that reach its centres."""
        if self._rows is None:
            self._rows = [[] for _ in range(self.height)]
            for triangle in range(len(self.order) // 3):
                edges = self.edges_of(triangle)
                xs, ys = zip(*(start for start, _ in edges))
                if cross(*(start for start, _ in edges)):
                    for y in range(max(0, (min(ys) + 127) // 256), min(self.height, (max(ys) - 128) // 256 + 1)):
                        self._rows[y].append((triangle, min(xs), max(xs), edges))
        return self._rows

    def source(self, triangle: int, edges: Edges, at: Point) -> Sequence[int]:
        """The colour of a triangle, of which these are the edges, at a place on one of them."""
        colours = [corner["color"] for corner in self.corners(triangle)]
        if self.draw["interp"] == "flat":
            return colours[0]
        weights = [abs(cross(*edge, at)) for edge in (edges[1], edges[2], edges[0])]
        return [mean(weights, values, sum(weights)) for values in zip(*colours)]

    # ---- Edges
    def corners(self, triangle: int) -> list[dict[str, Any]]:
        return [self.draw["vertices"][self.order[3 * triangle + k]] for k in range(3)]

    def edges_of(self, triangle: int) -> Edges:
        a, b, c = map(snapped, self.corners(triangle))
        return (a, b), (b, c), (c, a)

    def is_open(self, triangle: int, x: int, y: int, is_none_or_both: bool) -> bool:
        """Whether the pixel's centre lies on an edge of a triangle, so that OpenGL leaves its coverage open. Of two
        triangles at an edge one has it: that neither or both are drawn isn't left open."""
        at = centre(x, y)
        touched = [edge for edge in self.edges_of(triangle) if lies_on(at, *edge)]
        return bool(touched) and not (is_none_or_both and any(self.shared()[frozenset(edge)] > 1 for edge in touched))

    def shared(self) -> collections.Counter[frozenset[Point]]:
        """How many triangles of the draw have an edge."""
        if self._edges is None:
            triangles = range(len(self.order) // 3)
            self._edges = collections.Counter(
                frozenset(edge) for triangle in triangles for edge in self.edges_of(triangle)
            )
        return self._edges


def triangle_of(entry: Entry) -> int:
    """The triangle of an entry of a draw, which has one."""
    assert entry.triangle is not None
    return entry.triangle


def lies_on(at: Point, u: Point, v: Point) -> bool:
    """Whether a place lies on an edge."""
    is_between = all(min(a, b) <= place <= max(a, b) for place, a, b in zip(at, u, v))
    return u != v and is_between and cross(u, v, at) == 0
