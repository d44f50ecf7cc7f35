"""A picture as rectangles of one plane of colours each: what lay on the target before the first draw that is carried
over."""
from collections.abc import Iterator
from itertools import islice

from .planes import Table, fit

Box = tuple[int, int, int, int]  # left, top, right, bottom
Cell = tuple[Box, list[tuple[int, ...]]]  # and the colours of its four corners
WIDEST = 64  # sides of a rectangle in pixels
NARROWEST = (1, 2, 4, 8)  # the first of which there are few enough rectangles
MOST_CELLS = 40_000
MOST_OFF = 0.5  # bytes, the root of the mean square


def cells(picture: bytes, width: int, height: int) -> list[Cell]:
    """Each pixel is in one of them."""
    words = memoryview(picture).cast("I")
    for narrowest in NARROWEST[:-1]:
        found = list(islice(all_cells(words, width, height, narrowest), MOST_CELLS + 1))
        if len(found) <= MOST_CELLS:
            return found
    return list(all_cells(words, width, height, NARROWEST[-1]))


def all_cells(words: memoryview, width: int, height: int, narrowest: int) -> Iterator[Cell]:
    for top in range(0, height, WIDEST):
        for left in range(0, width, WIDEST):
            yield from split(words, width, (left, top, min(left + WIDEST, width), min(top + WIDEST, height)), narrowest)


def split(words: memoryview, width: int, box: Box, narrowest: int) -> Iterator[Cell]:
    left, top, right, bottom = box
    first = words[top * width + left]
    rows = [words[y * width + left : y * width + right].tolist() for y in range(top, bottom)]
    if all(row.count(first) == right - left for row in rows):
        yield box, [tuple(first.to_bytes(4, "little"))] * 4
        return
    colours, fault = plane(rows, box)
    if fault <= MOST_OFF or (right - left <= narrowest and bottom - top <= narrowest):
        yield box, colours
        return
    middle, centre = (left + right + 1) // 2, (top + bottom + 1) // 2
    for x0, x1 in ((left, middle), (middle, right)):
        for y0, y1 in ((top, centre), (centre, bottom)):
            if x0 < x1 and y0 < y1:
                yield from split(words, width, (x0, y0, x1, y1), narrowest)


def plane(rows: list[list[int]], box: Box) -> tuple[list[tuple[int, ...]], float]:
    """Colours of the corners (upper left, upper right, lower right, lower left), and how far they are off."""
    left, top, right, bottom = box
    table = Table(
        {
            y: [(x, tuple(word.to_bytes(4, "little"))) for x, word in enumerate(row, left)]
            for y, row in enumerate(rows, top)
        }
    )
    corners = [(left, top), (right, top), (right, bottom), (left, bottom)]
    return fit(corners, table.over([(y, left, right) for y in range(top, bottom)]))
