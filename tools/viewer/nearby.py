"""The picture of a position from that of another one near it. What lies between them writes inside of some boxes
alone, so that only their pixels are asked for, one by one: an image of 2048 by 2048 is 16 MiB. Where the boxes have
many pixels, or one isn't known, the whole image is asked for."""
from collections.abc import Callable, Collection, Iterable, Iterator, Sequence

from .image import Part, Pixels, kept_part

MOST_PIXELS, LEAST_PIXELS, SHARE = (
    8192,
    1024,
    512,
)  # that are asked for at most: one in so many of the target's, within bounds. Of more the whole image comes as soon
MOST_EVENTS = 256  # between the two positions
TWICE = (
    2  # so often their pixels at most, where boxes lie over each other: to find out which are the same takes time too
)
MOST_SPANS = 16384  # of pixels side by side in a row of a box
BUNDLE = 256  # lines that are written at once
Box = tuple[int, int, int, int]  # left, top, right, bottom
Run = tuple[int, int, int]  # of pixels: their row, the first column, the one behind the last
Boxes = Callable[[int, int, Collection[int]], Sequence[Box] | None]
VALUES = {b"%d" % value: value for value in range(256)}  # of a channel, by how framedbg writes it


class Nearby:
    """What is known of the picture that a run wrote last, as long as no event is switched."""

    position: int
    text: str
    part: Part
    pixels: Pixels

    def __init__(self, boxes: Boxes | None) -> None:
        """`boxes` gives those of the events behind one position up to another, but for what is off: each (left, top,
        right, bottom) of the pixels that may be written; None where that isn't known."""
        self.boxes, self.most = boxes, MOST_PIXELS if boxes else 0
        self.forget()

    def forget(self) -> None:
        self.position = self.text = self.part = self.pixels = None  # type: ignore[assignment]  # until one is kept

    def keep(self, position: int, text: str, part: Part, pixels: Pixels) -> None:
        """The picture of a position as the run wrote it: the first line of the reply, what of the target is kept,
        and its pixels."""
        if self.boxes:
            self.position, self.text, self.part, self.pixels = position, text, part, pixels

    def places(self, position: int, off: Collection[int], window: Sequence[int] | None) -> list[Run] | None:
        """The runs of kept pixels in which the picture of a position may be another one than the last; None where
        the whole image is to be asked for."""
        if self.pixels is None or abs(position - self.position) > MOST_EVENTS:
            return None
        width, height = self.part["width"], self.part["height"]
        if self.part != kept_part(width, height, window):
            return None
        first, last = sorted((position, self.position))
        boxes = self.boxes(first, last, off) if self.boxes else None
        if boxes is None:
            return None
        inside = [box for box in (clipped(box, self.part) for box in boxes) if box]
        most = min(self.most, max(LEAST_PIXELS, width * height // SHARE))
        if (
            sum((right - left) * (bottom - top) for left, top, right, bottom in inside) > TWICE * most
            or sum(bottom - top for _, top, _, bottom in inside) > MOST_SPANS
        ):
            return None
        runs = runs_of(inside)
        return runs if sum(end - start for _, start, end in runs) <= most else None

    def lines(self, runs: Iterable[Run]) -> Iterator[tuple[bytes, int]]:
        """The `pixel` lines for some runs of kept pixels, some at a time: a text without its last line feed, and how
        many they are."""
        left, top, every, columns = (self.part[name] for name in ("left", "top", "every", "columns"))
        words = [b"pixel %d " % (left + column * every) for column in range(columns)]
        some: list[bytes] = []
        count = 0
        for row, start, end in runs:
            y = b"%d\n" % (top + row * every)
            while start < end:
                to = min(end, start + BUNDLE - count)
                some.append(y.join(words[start:to]) + y)
                start, count = to, count + to - start
                if count == BUNDLE:
                    yield b"".join(some)[:-1], count
                    some, count = [], 0
        if some:
            yield b"".join(some)[:-1], count

    def move(self, position: int, runs: Iterable[Run], colours: bytearray) -> tuple[Pixels, list[int]]:
        """To the picture of a position, by the colours of the kept pixels of some runs: the pixels, and the rows in
        which they may be others than before."""
        if runs:
            at, columns = 0, self.part["columns"]
            self.pixels = bytearray(self.pixels)
            for row, start, end in runs:
                size, to = 4 * (end - start), 4 * (row * columns + start)
                self.pixels[to : to + size] = colours[at : at + size]
                at += size
        self.position = position
        return self.pixels, sorted({row for row, _, _ in runs})


def clipped(box: Box, part: Part) -> Box | None:
    """What of a box is kept, in rows and columns of the part; None where that is nothing."""
    left, top, every = part["left"], part["top"], part["every"]
    first, last = max(0, -((left - box[0]) // every)), min(part["columns"], -((left - box[2]) // every))
    above, below = max(0, -((top - box[1]) // every)), min(part["rows"], -((top - box[3]) // every))
    return (first, above, last, below) if first < last and above < below else None


def runs_of(boxes: Iterable[Box]) -> list[Run]:
    """The pixels of some boxes, each once, row by row: (row, the first column, the column behind the last)."""
    rows: dict[int, list[tuple[int, int]]] = {}
    runs: list[Run] = []
    for left, top, right, bottom in boxes:
        span = left, right
        for row in range(top, bottom):
            if row in rows:
                rows[row].append(span)
            else:
                rows[row] = [span]
    for row, spans in sorted(rows.items()):
        spans.sort()
        start, end = spans[0]
        for left, right in spans:
            if left > end:
                runs.append((row, start, end))
                start, end = left, right
            elif right > end:
                end = right
        runs.append((row, start, end))
    return runs


def colours_of(replies: Sequence[bytes]) -> bytearray:
    """Four bytes of each reply to a `pixel` line: all have as many words."""
    words, colours = b"".join(replies).split(), bytearray(4 * len(replies))
    for channel in range(4):
        colours[channel::4] = bytes(map(VALUES.__getitem__, words[1 + channel :: len(words) // len(replies)]))
    return colours
