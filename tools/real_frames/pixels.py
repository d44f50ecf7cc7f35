"""What the pixels of a draw tell of its triangles' colours."""
from collections.abc import Sequence

from . import sources, unblended
from .asked import Model
from .pieces import Piece
from .records import DrawRecord
from .sources import Colour, Pixel, source_of, times_drawn

Samples = dict[int, list[tuple[int, Colour]]]  # of each row: x, and what the draw put out there
Sample = tuple[str | None, Colour | None]  # of which kind it is, and what the draw put out

NOTHING = (0, 0, 0, 0)


class DrawPixels:
    """The pictures of a draw, and which of its pieces pass where."""

    def __init__(
        self, width: int, record: DrawRecord, pieces: Sequence[Piece], pictures: tuple[bytes, bytes, bytes, bytes]
    ) -> None:
        self.width, self.blend, self.times = width, record.state.blend, times_drawn(record.state.depth)
        self.before, self.after, self.alone, self.own = pictures
        self.model = Model(record.known) if record.known else None
        self.discards = record.state.discards
        self.layers: dict[int, int] = {}
        self.owner: dict[int, int] = {}
        for number, piece in enumerate(pieces):
            for y, x0, x1 in piece.passed:
                for at in range(y * width + x0, y * width + x1):
                    self.layers[at] = self.layers.get(at, 0) + 1
                    self.owner[at] = number
        self.total = self.unchanged = self.unexplained = 0
        self.known: dict[Pixel, Colour | None] = {}

    def strays(self) -> int:
        """How many pixels change where none of its pieces passes: none, where what is known of a draw is right."""
        before, after = (memoryview(picture).cast("I") for picture in (self.before, self.after))
        found, row = 0, 4 * self.width
        for left in range(0, len(self.before), row):
            if self.before[left : left + row] != self.after[left : left + row]:
                found += sum(
                    before[at] != after[at] and at not in self.layers for at in range(left // 4, left // 4 + self.width)
                )
        return found

    def samples(self, number: int, piece: Piece) -> tuple[Samples, dict[int, list[int]]]:
        """The samples {y: [(x, colour)]} that tell most of a piece: where it alone shows, else where others of the
        draw do, else where nothing changed; and {y: [x]} where nothing changed."""
        single: Samples = {}
        shared: Samples = {}
        same: Samples = {}
        any_alpha: Samples = {}
        kinds = {"single": single, "shared": shared, "same": same, "open": any_alpha}
        for y, x0, x1 in piece.passed:
            for x in range(x0, x1):
                kind, colour = self.sample(number, piece.number[1], y * self.width + x)
                if kind and colour is not None:
                    kinds[kind].setdefault(y, []).append((x, colour))
        unchanged = {y: [x for x, _ in some] for y, some in same.items()}
        if self.blend["enable"] and same and (single or shared):
            for y, some in same.items():
                single[y] = sorted(single.get(y, []) + some)
        return single or shared or same or any_alpha, unchanged

    def sample(self, number: int, primitive: int, at: int) -> Sample:
        """(kind, source colour) of a pixel for a piece; None for a kind that tells nothing."""
        was, now = self.before[4 * at : 4 * at + 4], self.after[4 * at : 4 * at + 4]
        if not self.blend["enable"]:
            if self.owner[at] != number:
                return None, None
            return self.counted("same" if was == now else "single", self.masked(now))
        if self.own:
            found = self.by_its_own(at, was, now)
            if found:
                return self.counted(*found)
        if not self.alone:
            given = self.model and sources.with_alpha(
                self.blend, self.layers[at], self.model.at(primitive, at % self.width, at // self.width), was, now
            )
            if given:
                return self.counted("single" if self.layers[at] == 1 else "shared", self.masked(given))
            if was == now:
                return self.counted("same", self.unseen(now))
            return self.counted("single" if self.owner[at] == number else None, sources.plainest(self.blend, was, now))
        own = self.alone[4 * at : 4 * at + 4]
        if was == now and not any(own[:3]):
            return self.counted("same", NOTHING)
        colour = self.worked_out(Pixel(self.layers[at], own, was, now))
        if colour is None:
            return self.counted(None, None)
        return self.counted("single" if self.layers[at] == 1 else "shared", colour)

    def by_its_own(self, at: int, was: bytes, now: bytes) -> Sample | None:
        """(kind, source colour) of a pixel, where the colour that the draw gave there is known and its alpha isn't;
        None where no alpha explains the pixel."""
        how, colour = unblended.source_at(self.blend, self.layers[at], self.own[4 * at : 4 * at + 3], was[:3], now)
        if colour is None:
            self.unexplained += 1
            return None
        if was == now and (self.discards or how == unblended.TOLD):
            return "same", self.masked((*colour[:3], 0))
        return "open" if how == unblended.OPEN else "single" if self.layers[at] == 1 else "shared", self.masked(colour)

    def unseen(self, now: bytes) -> Colour:
        """A source that leaves a pixel as it is: with no alpha, and not darker than what it lies beside, where
        colours are multiplied by alpha."""
        source, destination, _ = self.blend["rgb"]
        return tuple(now) if destination == "ZERO" else (*now[:3], 0) if source == "SRC_ALPHA" else NOTHING

    def masked(self, colour: Sequence[float]) -> Colour:
        """A colour with zeros in the channels that aren't written, since nothing tells what the draw's own are."""
        mask = self.blend["mask"]
        return (
            tuple(colour)
            if mask == 15
            else tuple(value if mask >> channel & 1 else 0 for channel, value in enumerate(colour))
        )

    def counted(self, kind: str | None, colour: Colour | None) -> Sample:
        self.total += 1
        self.unchanged += kind == "same"
        return kind, colour

    def worked_out(self, pixel: Pixel) -> Colour | None:
        if pixel not in self.known:
            found = source_of(self.blend, self.times, pixel)
            self.known[pixel] = found and self.masked(found)
        return self.known[pixel]
