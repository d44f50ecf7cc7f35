"""Colours of corners from colours of pixels: the plane that lies nearest to what a draw gave at the pixels of a
triangle.

Sums are kept for each row of samples, added up from its left end, so that the sums over any part of a triangle cost
as much as it has rows.
"""
from collections.abc import Iterable, Mapping, Sequence
from itertools import accumulate

from .raster import Span

Row = Sequence[tuple[int, Sequence[float]]]  # samples from the left end: x, and red, green, blue and alpha

CHANNELS = range(4)


class Table:
    """Samples of each row, as sums."""

    def __init__(self, samples: Mapping[int, Row]) -> None:
        self.rows = {y: self.row(some) for y, some in samples.items() if some}

    @staticmethod
    def row(some: Row) -> tuple[int, int, list[list[float]]]:
        """The first x, and sums over the samples before each place: how many, of x and x squared; of v, x v and v
        squared for each channel."""
        left, width = some[0][0], some[-1][0] - some[0][0] + 1
        there = {x: colour for x, colour in some}
        xs: list[float] = [x if x in there else 0 for x in range(left, left + width)]
        lists: list[list[float]] = [[int(x in there) for x in range(left, left + width)], xs, [x * x for x in xs]]
        nothing = (0, 0, 0, 0)
        colours = [there.get(x, nothing) for x in range(left, left + width)]
        for channel in CHANNELS:
            values = [colour[channel] for colour in colours]
            lists += [values, [x * v for x, v in zip(xs, values)], [v * v for v in values]]
        return left, width, [list(accumulate(one, initial=0)) for one in lists]

    def over(self, spans: Iterable[Span]) -> "Sums":
        """The sums over the samples in spans."""
        total = Sums()
        for y, x0, x1 in spans:
            row = self.rows.get(y)
            if row:
                left, width, lists = row
                first, last = min(max(x0 - left, 0), width), min(max(x1 - left, 0), width)
                if first < last and lists[0][last] > lists[0][first]:
                    total.add(y, [one[last] - one[first] for one in lists])
        return total


class Sums:
    """Over samples: how many they are, and sums of their places, of each channel, and of both together."""

    count: int
    x: float
    y: float
    xx: float
    xy: float
    yy: float
    v: list[float]
    xv: list[float]
    yv: list[float]
    vv: list[float]

    def __init__(self) -> None:
        self.count = self.x = self.y = self.xx = self.xy = self.yy = 0
        self.v, self.xv, self.yv, self.vv = [0] * 4, [0] * 4, [0] * 4, [0] * 4

    def add(self, y: int, row: Sequence[float]) -> None:
        count, x, xx = row[:3]
        self.count += count  # type: ignore[assignment]  # whole, as the first of each row
        self.x += x
        self.xx += xx
        self.y += count * y
        self.xy += x * y
        self.yy += count * y * y
        for channel in CHANNELS:
            v, xv, vv = row[3 + 3 * channel : 6 + 3 * channel]
            self.v[channel] += v
            self.xv[channel] += xv
            self.yv[channel] += v * y
            self.vv[channel] += vv

    def mean(self, channel: int) -> float:
        return self.v[channel] / self.count

    def spreads(self) -> tuple[float, float, float]:
        """The sums of squares about the middle: of x, of x and y, of y."""
        return (
            self.xx - self.x * self.x / self.count,
            self.xy - self.x * self.y / self.count,
            self.yy - self.y * self.y / self.count,
        )

    def rises(self, channel: int) -> tuple[float, float, float]:
        """The sums of the channel with x and with y, and of its own squares, about the middle."""
        mean = self.mean(channel)
        return (
            self.xv[channel] - self.x * mean,
            self.yv[channel] - self.y * mean,
            max(self.vv[channel] - self.v[channel] * mean, 0.0),
        )

    def slopes(self, channel: int) -> tuple[float, float]:
        """Least squares of v = mean + b (x - middle) + c (y - middle); zeros where the samples lie on a line."""
        xx, xy, yy = self.spreads()
        whole = xx * yy - xy * xy
        if whole <= 1e-9 * max(xx * yy, 1.0):
            return 0.0, 0.0
        xv, yv, _ = self.rises(channel)
        return (xv * yy - yv * xy) / whole, (yv * xx - xv * xy) / whole


def fit(corners: Sequence[tuple[float, float]], sums: Sums) -> tuple[list[tuple[int, ...]], float]:
    """Three colours for corners in pixels, and how far the samples are off: the root of the mean square, of the
    channel where it is largest.

    The plane keeps the samples' mean. Where it would leave 0 to 255 at a corner its slope is lessened until it doesn't.
    """
    centre_x, centre_y = sums.x / sums.count + 0.5, sums.y / sums.count + 0.5
    xx, xy, yy = sums.spreads()
    values, worst = [], 0.0
    for channel in CHANNELS:
        middle = sums.mean(channel)
        b, c = sums.slopes(channel)
        rises = [b * (x - centre_x) + c * (y - centre_y) for x, y in corners]
        share = kept_within(middle, rises)
        b, c = b * share, c * share
        xv, yv, vv = sums.rises(channel)
        worst = max(worst, vv - 2 * (b * xv + c * yv) + b * b * xx + 2 * b * c * xy + c * c * yy)
        values.append([clamp(middle + rise * share) for rise in rises])
    return list(zip(*values)), (max(worst, 0.0) / sums.count) ** 0.5


def kept_within(middle: float, rises: Iterable[float]) -> float:
    """The part of the rises that leaves no corner outside of a byte."""
    share = 1.0
    for rise in rises:
        if rise > 1e-9:
            share = min(share, (255 - middle) / rise)
        elif rise < -1e-9:
            share = min(share, middle / -rise)
    return max(share, 0.0)


def clamp(value: float) -> int:
    return min(max(int(round(value)), 0), 255)


def mean(colours: Sequence[Sequence[float]]) -> tuple[int, ...]:
    """The mean of some colours, rounded."""
    return tuple(clamp(sum(colour[channel] for colour in colours) / len(colours)) for channel in CHANNELS)
