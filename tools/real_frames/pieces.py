"""Triangles of a draw on the target, and how one is cut in two."""
from collections.abc import Iterable

from captures import PIXEL
from rules.snapping import snap

from .raster import Span, Triangle

Corner = tuple[int, int, int]  # x, y and depth
Root = tuple[tuple[float, float], ...]  # the place of a whole triangle
Colour = tuple[int, ...]

WHITE = (255, 255, 255, 255)
SHARES = (128, 112, 144, 96, 160)  # places along a side at which it may be cut, in 256ths


def place(corners: Iterable[tuple[float, float, float]]) -> Root:
    """Where a triangle lies, for telling whether two draws have the same one."""
    return tuple((x, y) for x, y, _ in corners)


class Piece:
    """A triangle of a draw, or a part of one."""

    def __init__(self, number: tuple[int, int], corners: list[Corner], root: Root | None = None) -> None:
        self.number, self.corners = number, corners
        self.shape = Triangle([(snap(x), snap(y)) for x, y, _ in corners])
        self.root = root or place(corners)  # the whole triangle's place
        self.passed: list[Span] = []  # at which it passes
        self.colours: list[Colour] = [WHITE] * 3

    def places(self) -> list[tuple[float, float]]:
        """The corners in pixels."""
        return [(x / PIXEL, y / PIXEL) for x, y, _ in self.corners]

    def sides(self) -> list[int]:
        """The numbers of the sides, the longest first; side i runs from corner i to the next."""

        def length(i: int) -> int:
            (ax, ay, _), (bx, by, _) = self.corners[i], self.corners[(i + 1) % 3]
            return (bx - ax) ** 2 + (by - ay) ** 2

        return sorted(range(3), key=length, reverse=True)

    def halves(self, side: int, share: int) -> list["Piece"]:
        """Two pieces, cut from a point of a side, so many 256ths along it, to the corner that lies over it."""
        a, b, c = (self.corners[(side + k) % 3] for k in range(3))
        x, y, depth = ((p * (256 - share) + q * share) // 256 for p, q in zip(a, b))
        middle = x, y, depth
        return [Piece(self.number, list(corners), self.root) for corners in ((a, middle, c), (middle, b, c))]

    def cut(self, width: int, height: int) -> list[tuple["Piece", list[Span]]]:
        """Two halves that together cover just its pixels, with the spans of each; nothing where none is found."""
        whole = list(self.shape.spans(width, height))
        for side in self.sides():
            for share in SHARES:
                halves = self.halves(side, share)
                covers = [list(half.shape.spans(width, height)) for half in halves]
                if is_shared_out(whole, covers[0], covers[1]):
                    return list(zip(halves, covers))
        return []


def is_shared_out(whole: list[Span], first: list[Span], second: list[Span]) -> bool:
    """Whether two lists of spans, one a row, have each pixel of the whole once and no other."""
    rows: dict[int, list[tuple[int, int]]] = {}
    for y, x0, x1 in first + second:
        rows.setdefault(y, []).append((x0, x1))
    for y, x0, x1 in whole:
        parts = sorted(rows.pop(y, []))
        joined = parts == [(x0, x1)] or (
            len(parts) == 2 and parts[0][0] == x0 and parts[0][1] == parts[1][0] and parts[1][1] == x1
        )
        if not joined:
            return False
    return not rows
