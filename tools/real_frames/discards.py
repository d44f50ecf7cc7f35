"""Fragments that a shader discards, or that fail the alpha or the stencil test: where a draw's picture shows nothing
of a triangle, that part of it is left out."""
from collections.abc import Iterable, Mapping

from .pieces import Piece
from .raster import Span

LEFT_OUT = "what fails it is left out where the picture is as it was; with --detail, within triangles too"


class Unseen:
    """The pixels of a triangle at which it passes: those where the picture is as it was before, and how many there
    are otherwise."""

    def __init__(self, passed: Iterable[Span], same: Mapping[int, Iterable[int]]) -> None:
        """`same` has for each row the x of pixels that are as they were."""
        self.rows: dict[int, tuple[set[int], set[int]]] = {}
        for y, x0, x1 in passed:
            gone = {x for x in same.get(y, ()) if x0 <= x < x1}
            unseen, seen = self.rows.setdefault(y, (set(), set()))
            unseen |= gone
            seen |= set(range(x0, x1)) - gone

    def over(self, spans: Iterable[Span]) -> tuple[int, int]:
        """(how many pixels of some spans are unseen, how many are seen)"""
        unseen = seen = 0
        for y, x0, x1 in spans:
            for number, row in enumerate(self.rows.get(y, ())):
                count = sum(x0 <= x < x1 for x in row)
                unseen, seen = unseen + count * (number == 0), seen + count * (number == 1)
        return unseen, seen


def parts(
    piece: Piece, cover: list[Span], unseen: Unseen, size: tuple[int, int], smallest: int | None
) -> list[tuple[Piece, list[Span]]]:
    """[(piece, its spans)] of what is left of a piece. It is cut while it is seen at some pixels and at others not,
    and at more than so many; None: never cut."""
    gone, there = unseen.over(cover)
    if not gone:
        return [(piece, cover)]
    if not there:
        return []
    halves = piece.cut(*size) if smallest is not None and gone + there > smallest else []
    if not halves:
        return [(piece, cover)] if there >= gone or smallest is None else []
    return [found for half, spans in halves if spans for found in parts(half, spans, unseen, size, smallest)]
