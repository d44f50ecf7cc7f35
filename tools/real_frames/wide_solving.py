"""What solving.Undoing.source finds, at many pixels at once, by numpy: the same sources, byte for byte. Pictures are
arrays of four rows: red, green, blue and alpha."""
from collections.abc import Iterable, Sequence

from rules.blending import HALF, WHOLE

from .solving import BEYOND, Undoing
from .wide import Array, numpy

AT_ONCE = 1 << 13  # pixels whose 256 candidates are tried at once


def nearest_bytes() -> Array:
    """For each byte the others, from the nearest to the farthest, as solving.nearest has them."""
    values = numpy.arange(256)
    return numpy.argsort(numpy.abs(values[:, None] - values), axis=1, kind="stable").astype("i4")


def unorm(values: Array) -> Array:
    return (numpy.clip(values, 0, WHOLE) + HALF) // 255


class Pixels:
    """Of each the guess, what was there before, what is there after, and how many layers of the source were blended."""

    def __init__(self, guess: Array, before: Array, after: Array, layers: Array) -> None:
        self.guess, self.before, self.after, self.layers = guess, before, after, layers

    def of(self, some: Array) -> "Pixels":
        return Pixels(self.guess[:, some], self.before[:, some], self.after[:, some], self.layers[some])


class WideBlending:
    """A solving.Undoing at many pixels."""

    def __init__(self, blending: Undoing) -> None:
        self.blending, self.nearest = blending, nearest_bytes()

    def channel(self, channel: int, source: Sequence[Array], there: Sequence[Array]) -> Array:
        """What blending leaves in a channel."""
        own = self.blending
        if not own.mask >> channel & 1:
            return there[channel]
        if not own.enable:
            return source[channel]
        first, second, operation = own.parts[channel]
        if operation in ("MIN", "MAX"):
            both = source[channel], there[channel]
            return numpy.minimum(*both) if operation == "MIN" else numpy.maximum(*both)
        given = source[channel] * first(channel, source, there, own.factor)
        was = there[channel] * second(channel, source, there, own.factor)
        return unorm(given + was if operation == "ADD" else given - was if operation == "SUBTRACT" else was - given)

    def over(
        self, source: Sequence[Array], there: Iterable[Array], layers: Array, channels: Iterable[int] = range(4)
    ) -> list[Array]:
        """Some channels of pixels after as many equal layers of a source as each has."""
        there = list(there)
        for layer in range(int(layers.max(initial=0))):
            blended = {channel: self.channel(channel, source, there) for channel in channels}
            for channel, now in blended.items():
                there[channel] = numpy.where(layers > layer, now, there[channel])
        return there

    def source(self, pixels: Pixels) -> tuple[Array, Array]:
        """(sources as four rows, where one is found)"""
        made, found = pixels.guess.copy(), self.gives(pixels.guess, pixels)
        if not self.blending.enable:
            for channel in range(4):
                if self.blending.mask >> channel & 1:
                    made[channel] = pixels.after[channel]
            return made, self.gives(made, pixels)
        for way in (self.with_alpha, self.with_any_alpha):  # that of the guess, which is the nearest, comes first
            left = numpy.flatnonzero(~found)
            for start in range(0, len(left), AT_ONCE):
                part = left[start : start + AT_ONCE]
                made[:, part], found[part] = way(pixels.of(part))
        return made, found

    def gives(self, source: Sequence[Array], pixels: Pixels, channels: Sequence[int] = range(4)) -> Array:
        """Where a source gives what is there after, in some channels."""
        there = self.over(source, pixels.before, pixels.layers, channels)
        return numpy.logical_and.reduce([there[channel] == pixels.after[channel] for channel in channels])

    def with_any_alpha(self, pixels: Pixels) -> tuple[Array, Array]:
        """The sources with the nearest alpha that comes out, and with which the other channels do."""
        order, fits = self.nearest[pixels.guess[3]], self.alphas(pixels)
        made, found = pixels.guess.copy(), numpy.zeros(len(order), bool)
        some = numpy.flatnonzero(fits.any(axis=1))
        while len(some):
            tries = fits[some].argmax(axis=1)
            fits[some, tries] = False
            part = pixels.of(some)
            part.guess[3] = order[some, tries]
            made[:, some], found[some] = self.with_alpha(part)
            some = some[~found[some] & fits[some].any(axis=1)]
        return made, found

    def alphas(self, pixels: Pixels) -> Array:
        """For each pixel which of the alphas, the nearest to its guess first, come out. No colour is in the alpha part,
        so that pixels alike in that are tried once."""
        guess, before, after, layers = pixels.guess[3], pixels.before[3], pixels.after[3], pixels.layers
        key = ((guess.astype("i8") * 256 + before) * 256 + after) * 256 + layers
        _, firsts, places = numpy.unique(key, return_index=True, return_inverse=True)
        order, there = self.nearest[guess[firsts]], [None, None, None, before[firsts, None]]
        made = self.over([None, None, None, order], there, layers[firsts, None], [3])[3]
        return numpy.broadcast_to(made == after[firsts, None], order.shape)[places]

    def with_alpha(self, pixels: Pixels) -> tuple[Array, Array]:
        """The sources with the alpha of the guess whose other channels are the nearest that come out, and where any."""
        source, found = pixels.guess.copy(), self.gives(pixels.guess, pixels, [3])
        for channel in range(3):
            straight = (pixels.layers == 1) & self.blending.is_straight
            for some, way in ((straight, self.straight), (~straight, self.tried)):
                here = numpy.flatnonzero(some & found)
                if len(here):
                    part = pixels.of(here)
                    part.guess = source[:, here]
                    source[channel, here], found[here] = way(channel, part)
        return source, found

    def tried(self, channel: int, pixels: Pixels) -> tuple[Array, Array]:
        """The value of a channel nearest to the guess's that gives what is wanted, and where there is one."""
        order = self.nearest[pixels.guess[channel]]
        source, there = ([row[:, None] for row in rows] for rows in (pixels.guess, pixels.before))
        source[channel] = order
        there = self.over(source, there, pixels.layers[:, None], [channel, 3])[channel]
        fits = numpy.broadcast_to(there == pixels.after[channel][:, None], order.shape)
        return order[numpy.arange(len(order)), fits.argmax(axis=1)], fits.any(axis=1)

    def straight(self, channel: int, pixels: Pixels) -> tuple[Array, Array]:
        """The same where the value stands once in the equation: what solving.Undoing.straight finds."""
        own, before, after = self.blending, pixels.before, pixels.after[channel]
        guess = pixels.guess[channel]
        if not own.mask >> channel & 1:
            return guess, before[channel] == after
        first, second, operation = own.parts[channel]
        share = numpy.broadcast_to(first(channel, pixels.guess, before, own.factor), guess.shape)
        was = before[channel] * second(channel, pixels.guess, before, own.factor)
        low = numpy.where(after > 0, 255 * after - HALF, -BEYOND)
        high = numpy.where(after < 255, 255 * after + HALF, BEYOND)
        low, high = {
            "ADD": (low - was, high - was),
            "SUBTRACT": (low + was, high + was),
            "REV_SUBTRACT": (was - high, was - low),
        }[operation]
        some = numpy.maximum(share, 1)
        least, most = numpy.maximum(-(-low // some), 0), numpy.minimum(high // some, 255)
        found = numpy.where(share > 0, least <= most, (low <= 0) & (high >= 0))
        return numpy.where((share > 0) & found, numpy.clip(guess, least, numpy.maximum(least, most)), guess), found
