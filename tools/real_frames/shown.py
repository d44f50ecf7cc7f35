"""What a draw put out at each pixel at which it passes: the source with which framedbg's blending gives the picture
after it. Where none does the pixel is replaced by what the frame has there; where nothing speaks for it that
anything was put out, it was discarded."""
import zlib
from array import array
from collections import Counter
from collections.abc import Iterable

from . import wide, wide_shown
from .asked import Model
from .layers import MOST, Layers
from .records import Colour, DrawRecord
from .solving import Undoing
from .sources import Pixel, plainest, source_of, tells, times_drawn, with_alpha
from .unblended import TOLD, source_at

KNOWN, WORKED_OUT, REPLACED = "known", "worked out", "replaced"
NONE, SOURCE, OTHER = 0, 1, 2  # what a pixel has: no source, one, or what it is replaced by
WAYS = (KNOWN, SOURCE), (WORKED_OUT, SOURCE), (REPLACED, OTHER)


def words_of(picture: bytes) -> memoryview:
    """A picture as a number for each pixel."""
    return memoryview(picture).cast("I")


def word(colour: Iterable[int]) -> int:
    return int.from_bytes(bytes(colour), "little")


def colour(one: int) -> Colour:
    return tuple(one.to_bytes(4, "little"))


class Shown:
    """Over the box of a draw's pixels, row by row: `texels` and `kinds`. `replaced` is {place: colour}, `holes` the
    places of what was discarded."""

    counted: Counter[str]  # pixels by how their sources were found
    replaced: dict[int, Colour]
    holes: set[int]
    texels: "array[int]"
    known: dict[tuple[int | None, int, int, int], tuple[str, int]]

    def __init__(self, record: DrawRecord, layers: Layers, before: bytes, after: bytes) -> None:
        self.record, self.layers, self.counted = record, layers, Counter()
        self.replaced, self.holes = {}, set()
        self.texels, self.kinds = array("I"), bytearray()
        self.told = Told(record, layers)
        self.blending = Undoing(record.state.blend, (record.state.factor or {}).get("color", (255,) * 4))
        self.before, self.after = words_of(before), words_of(after)
        self.known = {}
        is_plain = not record.state.blend["enable"] and record.state.blend["mask"] == 15 and not record.state.discards
        if wide.numpy and not is_plain and not self.told.asked:
            wide_shown.look(self, WAYS)
            return
        for start, end in layers.rows():
            (self.copy if is_plain else self.look)(start, end)

    def copy(self, start: int, end: int) -> None:
        """A row of a draw that replaces: its picture is what it put out."""
        kinds = self.layers.counts[start:end].translate(bytes([NONE]) + bytes([SOURCE]) * 255)
        self.counted[KNOWN] += len(kinds) - kinds.count(NONE)
        self.kinds += kinds
        self.texels.extend(self.after[start:end])

    def look(self, start: int, end: int) -> None:
        counts = self.layers.counts[start:end]
        for at, count, was, now in zip(range(start, end), counts, self.before[start:end], self.after[start:end]):
            kind, value = NONE, 0
            if count and was == now and self.may_be_discarded(at):
                self.holes.add(at)
            elif count:
                kind, value = self.found(at, count, was, now)
            self.kinds.append(kind)
            self.texels.append(value)

    def found(self, at: int, count: int, was: int, now: int) -> tuple[int, int]:
        """(kind, source) of a pixel; counts how it was found."""
        key = self.told.key(at), count, was, now
        how, value = self.known.get(key) or self.known.setdefault(key, self.solved(at, count, was, now))
        self.counted[how] += 1
        if how == REPLACED:
            self.replaced[at] = colour(now)
        return dict(WAYS)[how], value

    def solved(self, at: int, count: int, was: int, now: int) -> tuple[str, int]:
        before, after = colour(was), colour(now)
        guess, is_known = self.told.guess(at, count, before, after)
        made = None if count == MOST else self.blending.source(guess, before, after, count)
        if made is None:
            return REPLACED, 0
        return KNOWN if made == guess and is_known else WORKED_OUT, word(made)

    def may_be_discarded(self, at: int) -> bool:
        """Whether nothing speaks for it that an unchanged pixel was drawn: where the shader may discard, the draw
        alone left nothing there."""
        return self.record.state.discards and not (self.told.alone and self.told.alone[at])

    def sources(self) -> tuple[int, Colour | None]:
        """How many pixels have a source, and the one that all have, or None."""
        count = self.kinds.count(SOURCE)
        if not count:
            return 0, None
        first = self.texels[self.kinds.index(SOURCE)]
        is_one = (
            wide.are_one(self.texels, self.kinds, SOURCE)
            if wide.numpy
            else all(value == first for value, kind in zip(self.texels, self.kinds) if kind == SOURCE)
        )
        return count, colour(first) if is_one else None


class Told:
    """What is told of a draw's sources but by its blending: by the draw alone, by histories of some pixels, or by
    the draw unblended."""

    def __init__(self, record: DrawRecord, layers: Layers) -> None:
        self.record, self.layers, self.blend = record, layers, record.state.blend
        self.times = times_drawn(record.state.depth)
        self.alone = words_of(zlib.decompress(record.alone)) if record.alone else None
        self.own = words_of(record.own.picture()) if record.own else None
        self.asked = record.known if self.blend["enable"] else {}
        self.model = Model(self.asked) if self.asked else None
        self.last = layers.last() if self.asked else None

    def key(self, at: int) -> int | None:
        """What tells apart two pixels of one colour before and after: nothing, the draw alone or unblended there, or
        the place itself."""
        return at if self.asked else self.alone[at] if self.alone else self.own[at] if self.own else None

    def guess(self, at: int, count: int, was: Colour, now: Colour) -> tuple[Colour, bool]:
        """(a source, whether it is known to be the shader's own)"""
        if not self.blend["enable"]:
            return now, True
        if self.alone:
            return self.by_alone(Pixel(count, colour(self.alone[at]), was, now))
        if self.asked:
            return self.by_histories(at, count, was, now)
        if self.own:
            how, found = source_at(self.blend, count, colour(self.own[at])[:3], was[:3], now)
            if found:
                return rounded(found), how == TOLD
        return rounded(plainest(self.blend, was, now)), False

    def by_alone(self, pixel: Pixel) -> tuple[Colour, bool]:
        if not any(pixel.alone):
            return tuple(pixel.alone), tells(self.blend, self.times, pixel)
        told = source_of(self.blend, self.times, pixel)
        return rounded(told or pixel.after), bool(told) and tells(self.blend, self.times, pixel)

    def by_histories(self, at: int, count: int, was: Colour, now: Colour) -> tuple[Colour, bool]:
        assert self.model and self.last is not None  # it is asked where there are histories
        y, x = divmod(at, self.layers.width)
        given = self.asked.get((x, y), {})
        if len(given) == 1 and count == 1:
            return next(iter(given.values())), True
        near = self.model.at(self.layers.pieces[self.last[at]].number[1], x, y)
        is_empty = was == now and with_alpha(self.blend, count, near, was, now) is None
        return (0, 0, 0, 0) if is_empty else rounded(near), False


def rounded(colour: Iterable[float]) -> Colour:
    return tuple(min(max(round(value), 0), 255) for value in colour)
