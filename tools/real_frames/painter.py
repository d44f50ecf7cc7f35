"""Gives the triangles of a draw their colours, from its pictures."""
import zlib
from collections.abc import Iterable, Mapping, Sequence
from dataclasses import dataclass

from .discards import Unseen, parts
from .losses import Losses
from .pieces import Colour, Corner, Piece, Root
from .pixels import DrawPixels
from .planes import Table, fit, mean
from .raster import Span, pixels
from .records import DrawRecord

Fitted = tuple[Piece, float, int]  # a piece with its colours, how far off they are, and of how many samples

GREY = (128, 128, 128, 255)
STRAYS = "pixels that change where no triangle of the draw passes"


@dataclass(frozen=True)
class Detail:
    """When a triangle is cut: its colours are off by more than so many bytes, at more than so many pixels."""

    most: float | None = None
    smallest: int = 16


class Painter:
    def __init__(self, width: int, height: int, losses: Losses, detail: Detail, passes: Mapping[Root, int]) -> None:
        self.width, self.height, self.losses, self.detail = width, height, losses, detail
        self.passes = passes  # how many draws with the depth test have a triangle at a place
        self.faults: list[tuple[int, str, int, float]] = []  # (event, name, pixels, how far off) of each draw

    def paint(self, record: DrawRecord, pieces: Sequence[Piece], before: bytes) -> list[Piece]:
        """The pieces with their colours, cut into smaller ones where detail asks for it."""
        assert record.after  # a draw is painted where its colours are wanted
        pictures = (
            before,
            record.after.picture(),
            zlib.decompress(record.alone) if record.alone else b"",
            record.own.picture() if record.own else b"",
        )
        own = DrawPixels(self.width, record, pieces, pictures)
        fitted: list[Fitted] = []
        for number, piece in enumerate(pieces):
            samples, unchanged = own.samples(number, piece)
            table = Table(samples)
            for part, cover in self.seen(record, piece, unchanged):
                fitted += self.fitted(part, cover, table, record.state.depth["enable"])
        self.colour_hidden(fitted)
        self.count(record, own)
        known = [(fault, count) for _, fault, count in fitted if count]
        total = sum(count for _, count in known)
        self.faults.append(
            (record.event, record.name, total, sum(fault * count for fault, count in known) / total if total else 0.0)
        )
        return [piece for piece, _, _ in fitted]

    def seen(
        self, record: DrawRecord, piece: Piece, unchanged: Mapping[int, Iterable[int]]
    ) -> list[tuple[Piece, list[Span]]]:
        """A piece and its spans; of a draw that may discard fragments, what is left where the picture shows none."""
        cover = list(piece.shape.spans(self.width, self.height))
        if not (record.state.discards and unchanged):
            return [(piece, cover)]
        is_cut = self.detail.most is not None and not (record.state.depth["enable"] and self.passes[piece.root] > 1)
        left = parts(
            piece,
            cover,
            Unseen(piece.passed, unchanged),
            (self.width, self.height),
            self.detail.smallest if is_cut else None,
        )
        gone = pixels(cover) - sum(pixels(spans) for _, spans in left)
        if gone:
            record.left_out += gone
            self.losses.add("pixels left out of draws that may discard", "where the picture is as it was before", gone)
        return left

    def count(self, record: DrawRecord, own: DrawPixels) -> None:
        if own.total:
            self.losses.add("pixels of draws", "their colours are planes over triangles", own.total)
        strays = own.strays()
        if strays:
            self.losses.add(
                STRAYS, "seen in the picture; the triangles as they were worked out don't reach there", strays
            )
        if own.unchanged:
            self.losses.add(
                "pixels of draws that stay as they were",
                "discarded, hidden by finer depths, or of the same colour",
                own.unchanged,
            )
        if own.unexplained:
            self.losses.add(
                "pixels of blended draws that the draws' own colours don't explain",
                "their alpha is made up",
                own.unexplained,
            )
        if record.state.blend["enable"] and not (record.alone or record.own):
            if record.known:
                self.losses.add(
                    "blended draws whose alpha is known at some pixels",
                    "asked of their histories; between them it is a plane",
                )
            else:
                self.losses.add(
                    "blended draws whose alpha is made up", "where they can't be drawn alone, nor asked about"
                )

    def fitted(self, piece: Piece, cover: list[Span], table: Table, is_deep: bool) -> list[Fitted]:
        """The piece with its colours, or what it was cut into."""
        sums = table.over(cover)
        if not sums.count:
            return [(piece, 0.0, 0)]
        piece.colours, fault = fit(piece.places(), sums)
        whole = [(piece, fault, sums.count)]
        if self.detail.most is None or fault <= self.detail.most or sums.count <= self.detail.smallest:
            return whole
        if is_deep and self.passes[piece.root] > 1:
            self.losses.add("triangles not cut for detail", "drawn in several passes, whose depths have to stay equal")
            return whole
        halves = piece.cut(self.width, self.height)
        if not halves:
            self.losses.add("cuts for detail not made", "the halves would cover other pixels")
            return whole
        return [found for half, part in halves if part for found in self.fitted(half, part, table, is_deep)]

    def colour_hidden(self, fitted: Sequence[Fitted]) -> None:
        """A triangle that shows nowhere gets the colours that its corners have elsewhere, else the draw's mean."""
        by_place: dict[Corner, list[Colour]] = {}
        known: list[tuple[Piece, float]] = []
        for piece, _, count in fitted:
            if count:
                known.append((piece, count))
                for corner, colour in zip(piece.corners, piece.colours):
                    by_place.setdefault(corner, []).append(colour)
        weight = sum(count for _, count in known)
        middle = (
            tuple(round(sum(sum(c[k] for c in p.colours) / 3 * n for p, n in known) / weight) for k in range(4))
            if weight
            else GREY
        )
        hidden = [piece for piece, _, count in fitted if not count]
        for piece in hidden:
            near = [colour for corner in piece.corners for colour in by_place.get(corner, ())]
            piece.colours = [mean(by_place.get(corner) or near or [middle]) for corner in piece.corners]
        if hidden:
            self.losses.add(
                "triangles whose own colour never shows",
                "coloured as their neighbours, or as the draw's mean",
                len(hidden),
            )


def distinct(number: int) -> Colour:
    """A colour for the draw of a number, far from those of the draws next to it."""
    turn = number * 0.618034 % 1 * 6
    rise = turn % 1
    wheel = [(1, rise, 0), (1 - rise, 1, 0), (0, 1, rise), (0, 1 - rise, 1), (rise, 0, 1), (1, 0, 1 - rise)][int(turn)]
    return tuple(round(55 + 200 * part) for part in wheel) + (255,)
