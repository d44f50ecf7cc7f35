"""The image that a page was sent last: of the next one only the rows that are others go through the air."""
import threading
from collections.abc import Iterable, Sequence
from typing import Any

from .image import Pixels

NUMBER = 0  # of an image that is nobody's
Image = tuple[dict[str, Any], Pixels]  # its description, and its bytes


class Sent:
    last: tuple[int, Any, Any]  # its number, its description and its bytes

    def __init__(self) -> None:
        self.lock, self.last, self.count = threading.Lock(), (NUMBER, None, None), NUMBER

    def shortened(self, images: Iterable[Image], base: int) -> list[Image]:
        """The descriptions of some images and their bytes, and of those that follow on the base, or on the one
        before them, their changed rows alone."""
        with self.lock:
            return [
                self._shortened(image, data, base if i == 0 else self.count) for i, (image, data) in enumerate(images)
            ]

    def _shortened(self, image: dict[str, Any], data: Pixels, base: int) -> Image:
        number, part, old = self.last
        made_of, rows = image.get("since", (None, None))
        image = {name: value for name, value in image.items() if name != "since"}
        self.count += 1
        self.last = self.count, image, data
        told = {**image, "number": self.count}
        if number == NUMBER or base != number or part != image:
            return told, data
        bands = changed_rows(data, old, 4 * image["columns"], rows if made_of is old else None)
        stride, view = 4 * image["columns"], memoryview(data)
        piece = b"".join(view[stride * first : stride * (first + count)] for first, count in bands)
        return (
            ({**told, "base": base, "bands": bands, "bytes": len(piece)}, piece)
            if 2 * len(piece) < len(data)
            else (told, data)
        )


def whole(images: Iterable[Image]) -> list[Image]:
    """The same where nothing follows on anything, and nothing is to follow on these."""
    return [({name: value for name, value in image.items() if name != "since"}, data) for image, data in images]


def changed_rows(
    new: Pixels, old: Pixels | memoryview, stride: int, rows: Sequence[int] | None = None
) -> list[list[int]]:
    """Bands of rows that differ, of all rows or of some: (the first, how many)."""
    if new is old or rows is None and new == old:
        return []
    bands: list[list[int]]
    bands, old = [], memoryview(old)
    for row in range(len(new) // stride) if rows is None else rows:
        at = stride * row
        if new.startswith(old[at : at + stride], at):  # compares without a copy of either
            continue
        if bands and sum(bands[-1]) == row:
            bands[-1][1] += 1
        else:
            bands.append([row, 1])
    return bands
