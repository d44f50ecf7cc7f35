"""The source with which a draw's blending makes of a pixel what the frame has there, by framedbg's own rules.
Several may: the one nearest to what is known of the shader's own is taken."""
from collections.abc import Sequence

from captures import Event
from rules.blending import HALF, Blending

Colour = tuple[int, ...]

BEYOND = 1 << 20  # above any sum of a source and what was there


def nearest(value: int) -> list[int]:
    """The bytes from the nearest to a byte to the farthest."""
    return sorted(range(256), key=lambda other: abs(other - value))


class Undoing(Blending):
    """A blend state with its factor, and what is known already of the sources that give a colour."""

    def __init__(self, blend: Event, factor: Sequence[int]) -> None:
        super().__init__(blend, factor)
        first, second, operation = blend["rgb"]
        self.is_straight = "SRC_COLOR" not in first + second and operation not in (
            "MIN",
            "MAX",
        )  # in each channel of the source
        self.known: dict[tuple[Colour, Colour, Colour, int], Colour | None] = {}
        self.alphas_known: dict[tuple[int, int, int, int], list[int]] = {}

    def over(self, source: Colour, there: Colour, layers: int) -> Colour:
        """A pixel after so many equal layers of a source."""
        for _ in range(layers):
            there = self.colour(source, there)
        return there

    def source(self, guess: Colour, before: Colour, after: Colour, layers: int) -> Colour | None:
        """The source nearest to a guess that gives a pixel's colour after the draw from the one before it; None
        where none is found."""
        key = guess, before, after, layers
        if key not in self.known:
            self.known[key] = self.solved(*key)
        return self.known[key]

    def solved(self, guess: Colour, before: Colour, after: Colour, layers: int) -> Colour | None:
        if self.over(guess, before, layers) == after:
            return guess
        if not self.enable:
            made = tuple(after[channel] if self.mask >> channel & 1 else guess[channel] for channel in range(4))
            return made if self.over(made, before, layers) == after else None
        for alpha in self.alphas(guess[3], before[3], after[3], layers):
            found = self.with_alpha((*guess[:3], alpha), before, after, layers)
            if found:
                return found
        return None

    def alphas(self, guess: int, before: int, after: int, layers: int) -> list[int]:
        """The source's alphas that give an alpha, the nearest to a guess first: no colour is in the alpha part."""
        key = guess, before, after, layers
        if key not in self.alphas_known:
            self.alphas_known[key] = [
                alpha for alpha in nearest(guess) if self.over((0, 0, 0, alpha), (0, 0, 0, before), layers)[3] == after
            ]
        return self.alphas_known[key]

    def with_alpha(self, source: Colour, before: Colour, after: Colour, layers: int) -> Colour | None:
        """The source with this alpha whose other channels are the nearest ones that give what is wanted."""
        for channel in range(3):
            found = (self.straight if self.is_straight and layers == 1 else self.tried)(
                channel, source, (before, after), layers
            )
            if found is None:
                return None
            source = (*source[:channel], found, *source[channel + 1 :])
        return source

    def tried(self, channel: int, source: Colour, both: tuple[Colour, Colour], layers: int) -> int | None:
        """The value of a channel nearest to the source's that gives what is wanted, or None."""
        before, after = both
        for value in nearest(source[channel]):
            if self.over((*source[:channel], value, *source[channel + 1 :]), before, layers)[channel] == after[channel]:
                return value
        return None

    def straight(self, channel: int, source: Colour, both: tuple[Colour, Colour], _: int) -> int | None:
        """The same where the value stands once in the equation: there is an interval of values, by the rounding of
        `unorm`."""
        before, after = both
        if not self.mask >> channel & 1:
            return source[channel] if before[channel] == after[channel] else None
        first, second, operation = self.parts[channel]
        own, was = first(channel, source, before, self.factor), before[channel] * second(
            channel, source, before, self.factor
        )
        low = 255 * after[channel] - HALF if after[channel] else -BEYOND
        high = 255 * after[channel] + HALF if after[channel] < 255 else BEYOND
        low, high = {
            "ADD": (low - was, high - was),
            "SUBTRACT": (low + was, high + was),
            "REV_SUBTRACT": (was - high, was - low),
        }[operation]
        if not own:
            return source[channel] if low <= 0 <= high else None
        least, most = max(-(-low // own), 0), min(high // own, 255)
        return min(max(source[channel], least), most) if least <= most else None
