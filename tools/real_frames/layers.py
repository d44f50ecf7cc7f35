"""How many triangles of a draw pass at each pixel of the target, and which of them is the last."""
from array import array
from collections.abc import Iterator, Sequence

from .pieces import Piece

ONE_MORE = bytes([*range(1, 256), 255])
MOST = 255  # that are counted


class Layers:
    def __init__(self, pieces: Sequence[Piece], width: int, height: int) -> None:
        self.width, self.counts = width, bytearray(width * height)
        self.pieces = pieces
        spans = [span for piece in pieces for span in piece.passed]
        for y, x0, x1 in spans:
            start, end = y * width + x0, y * width + x1
            self.counts[start:end] = self.counts[start:end].translate(ONE_MORE)
        self.total = len(self.counts) - self.counts.count(0)
        self.box = (
            (
                min(x0 for _, x0, _ in spans),
                min(y for y, _, _ in spans),
                max(x1 for _, _, x1 in spans),
                max(y for y, _, _ in spans) + 1,
            )
            if spans
            else (0, 0, 0, 0)
        )

    def rows(self) -> Iterator[tuple[int, int]]:
        """Gives where each row of the box begins and where it ends, as places of pixels."""
        left, top, right, bottom = self.box
        return ((y * self.width + left, y * self.width + right) for y in range(top, bottom))

    def last(self) -> "array[int]":
        """The number of the last piece that passes, for each pixel where one does."""
        found = array("L", bytes(array("L").itemsize * len(self.counts)))
        for number, piece in enumerate(self.pieces):
            for y, x0, x1 in piece.passed:
                start = y * self.width + x0
                found[start : start + x1 - x0] = array("L", [number]) * (x1 - x0)
        return found
