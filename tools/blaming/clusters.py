"""Differing pixels that hang together: one finding each."""
import random
from collections.abc import Iterable, Sequence
from dataclasses import dataclass

from .comparing import pixels_of

Box = tuple[int, int, int, int]  # left, top, right, bottom, the last two exclusive
Cells = dict[tuple[int, int], list[int]]  # pixels by their column and row of cells

CELL = 4  # pixels in cells of so many that touch, also at a corner, hang together
MANY = 20_000  # pixels of a cluster, of which some stand for all
BOXES, MARGIN = 3, 6  # clusters round which pixels that are right are taken, and how far round them
ROUND, ANYWHERE = 24, 24


@dataclass(frozen=True)
class Cluster:
    pixels: tuple[int, ...]  # their numbers, row by row
    box: Box

    def __len__(self) -> int:
        return len(self.pixels)

    def mask(self, size: int) -> bytes:
        made = bytearray(size)
        for pixel in self.pixels:
            made[pixel] = 1
        return bytes(made)


def clusters_of(mask: bytes, width: int) -> list[Cluster]:
    """The clusters of a mask, the largest first."""
    cells: Cells = {}
    for pixel in pixels_of(mask):
        y, x = divmod(pixel, width)
        cells.setdefault((x // CELL, y // CELL), []).append(pixel)
    found = []
    while cells:
        found.append(cluster_from(cells, next(iter(cells)), width))
    return sorted(found, key=lambda cluster: (-len(cluster), cluster.pixels[0]))


def cluster_from(cells: Cells, start: tuple[int, int], width: int) -> Cluster:
    """Takes the cells that hang together with one of them out, and gives their pixels."""
    pixels, todo = cells.pop(start), [start]
    while todo:
        x, y = todo.pop()
        for near in [(x + i, y + j) for i in (-1, 0, 1) for j in (-1, 0, 1)]:
            if near in cells:
                pixels.extend(cells.pop(near))
                todo.append(near)
    return Cluster(tuple(sorted(pixels)), box_of(pixels, width))


def box_of(pixels: Iterable[int], width: int) -> Box:
    columns = [pixel % width for pixel in pixels]
    rows = [pixel // width for pixel in pixels]
    return min(columns), min(rows), max(columns) + 1, max(rows) + 1


def spread(pixels: Sequence[int], width: int, most: int) -> list[int]:
    """At most so many of some pixels, from all over them: of one cell of sixteen by sixteen after the other, in
    turn."""
    cells: Cells = {}
    pixels = thinned(pixels)
    for pixel in pixels:
        y, x = divmod(pixel, width)
        cells.setdefault((x // 16, y // 16), []).append(pixel)
    orders = [scattered(some) for some in cells.values()]
    found: list[int] = []
    turn = 0
    while len(found) < min(most, len(pixels)):
        found += [order[turn] for order in orders if turn < len(order)][: most - len(found)]
        turn += 1
    return found


def thinned(pixels: Sequence[int]) -> Sequence[int]:
    """Some of very many pixels, as far apart in the list as each other."""
    return pixels[:: len(pixels) // MANY | 1]


def outside(mask: bytes, clusters: Sequence[Cluster], width: int) -> list[int]:
    """Pixels that the mask hasn't: some round the largest clusters, and some anywhere; always the same ones."""
    chance, height = random.Random(len(mask)), len(mask) // width
    boxes = [cluster.box for cluster in clusters[:BOXES] for _ in range(ROUND)] + [(0, 0, width, height)] * ANYWHERE
    found: dict[int, None] = {}
    for left, top, right, bottom in boxes:
        x, y = chance.randrange(max(0, left - MARGIN), min(width, right + MARGIN)), chance.randrange(
            max(0, top - MARGIN), min(height, bottom + MARGIN)
        )
        if not mask[y * width + x]:
            found[y * width + x] = None
    return list(found)


def scattered(some: Iterable[int]) -> list[int]:
    """The same ones, those beside each other far apart in the list, and always in the same order."""
    return sorted(some, key=lambda pixel: pixel * 2654435761 % 4294967296)
