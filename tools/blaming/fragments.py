"""Which pixels a triangle covers, and its fragments there, for a few pixels at a time."""
from collections.abc import Iterable

from rules.coverage import cross, least
from rules.shading import mean

Place = tuple[int, int]  # in 1/256 pixel
Colour = tuple[int, ...]
Corner = tuple[Place, Colour, int]  # with its depth
Weights = tuple[int, int, int]
Fragment = tuple[bool, Colour, int]  # whether its triangle runs clockwise, its source and its depth


class Triangle:
    """Three corners, as they are drawn."""

    def __init__(self, corners: Iterable[Corner], is_flat: bool) -> None:
        self.places, self.colours, self.depths = zip(*corners)
        self.is_flat = is_flat
        area = cross(*self.places)
        self.is_clockwise, self.whole = area > 0, abs(area)
        (ax, ay), (bx, by), (cx, cy) = self.places
        self.box = min(ax, bx, cx), min(ay, by, cy), max(ax, bx, cx), max(ay, by, cy)

    def weights(self, centre_: Place) -> Weights | None:
        """The weights of the corners at a pixel's centre that it covers, else None."""
        a, b, c = self.places
        if not self.whole:
            return None
        if not self.is_clockwise:
            b, c = c, b
        first, second, third = cross(b, c, centre_), cross(c, a, centre_), cross(a, b, centre_)
        if first < least(b, c) or second < least(c, a) or third < least(a, b):
            return None
        return (first, second, third) if self.is_clockwise else (first, third, second)

    def fragment(self, weights: Weights) -> Fragment:
        """What it puts out where its corners have these weights."""
        source = (
            self.colours[0]
            if self.is_flat
            else tuple(mean(weights, values, self.whole) for values in zip(*self.colours))
        )
        return self.is_clockwise, source, mean(weights, self.depths, self.whole)
