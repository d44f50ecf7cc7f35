"""What shown.Told.guess says of a pixel of a draw that was drawn alone, of many at once, by numpy: the same numbers,
byte for byte. Pictures are arrays of four rows: red, green, blue and alpha."""
from collections.abc import Callable

from . import sources
from .records import DrawRecord
from .sources import LEAST_ALPHA, ONE_ON_ZEROS, alpha_by_itself, is_composite, times_drawn
from .wide import Array, numpy

STEPS = 64  # of alpha_by_colour
TELLING = ("ONE", "SRC_ALPHA", "INV_DEST_COLOR", "INV_DEST_ALPHA")  # factors by which it tells its source


def channels(words: Array) -> Array:
    """Numbers of pixels as four rows of bytes, as numbers with room for products of two."""
    return numpy.frombuffer(words.astype("<u4").tobytes(), "u1").reshape(-1, 4).T.astype("i4")


def words(rows: Array) -> Array:
    return numpy.frombuffer(rows.T.astype("u1").tobytes(), "<u4")


def rounded(rows: Array) -> Array:
    """The nearest bytes, as Python's round has them: halves go to bytes without a rest by two."""
    return numpy.clip(numpy.rint(rows), 0, 255).astype("i4")


class Pairs:
    """The pairs of numbers that stand at the same place of two arrays, each once."""

    def __init__(self, first: Array, other: Array) -> None:
        (ones, of_first), (others, of_other) = (numpy.unique(some, return_inverse=True) for some in (first, other))
        both, self.places = numpy.unique(of_first * len(others) + of_other, return_inverse=True)
        self.pairs = [(ones[at].item(), others[other].item()) for at, other in zip(*divmod(both, len(others)))]

    def of(self, function: Callable[..., float]) -> Array:
        """A function of both numbers at each place; it is asked once for each pair."""
        return numpy.array([function(*pair) for pair in self.pairs], "f8")[self.places]


class Alone:
    """The guesses: by what the draw left on zeros, what was there before and after, and how many of its triangles."""

    def __init__(self, record: DrawRecord, pictures: tuple[Array, Array, Array], layers: Array) -> None:
        self.blend, self.times = record.state.blend, times_drawn(record.state.depth)
        self.alone, self.before, self.after = pictures
        self.layers = layers
        self.drawn = layers * self.times
        self.empty = ~self.alone.any(axis=0)
        self.own_alpha = Pairs(self.alone[3], self.drawn).of(self.alpha)

    def alpha(self, byte: int, drawn: int) -> float:
        """That the draw alone leaves, or no number where it tells none."""
        found = alpha_by_itself(self.blend, drawn, (0, 0, 0, byte))
        return float("nan") if found is None else found

    def guesses(self) -> tuple[Array, Array]:
        """(the sources as four rows, whether each is known to be the shader's own)"""
        found, is_told = self.sources()
        found = numpy.where(is_told, rounded(found), self.after)
        return numpy.where(self.empty, self.alone, found), (is_told | self.empty) & self.tells()

    def tells(self) -> Array:
        """What sources.tells says."""
        source, _, operation = self.blend["rgb"]
        of_alpha = self.blend["alpha"]
        if operation == "MAX":
            return numpy.full(len(self.layers), of_alpha[2] == "MAX")
        if operation not in ("ADD", "SUBTRACT") or source not in TELLING:
            return numpy.zeros(len(self.layers), bool)
        of_empty = bool(self.blend["mask"] & 8) and of_alpha[0] in ONE_ON_ZEROS and of_alpha[2] == "ADD"
        by_alpha = self.own_alpha >= LEAST_ALPHA if source == "SRC_ALPHA" else ~numpy.isnan(self.own_alpha)
        return numpy.where(self.empty, of_empty, by_alpha)

    def sources(self) -> tuple[Array, Array]:
        """What sources.source_of gives, and where it gives anything."""
        source, _, operation = self.blend["rgb"]
        everywhere = numpy.ones(len(self.layers), bool)
        if operation in ("MIN", "REV_SUBTRACT", "MAX"):
            return (self.alone if operation == "MAX" else self.after), everywhere
        if source in ("ZERO", "DEST_COLOR", "DEST_ALPHA"):
            return self.plainest(), self.before[:3].max(axis=0) >= 8
        alpha, is_told = self.alphas()
        share = Pairs(alpha, self.drawn).of(self.share)
        is_none = share <= 1e-6
        colours = numpy.minimum(self.undone() / numpy.where(is_none, 1.0, share), 255)
        return numpy.vstack([numpy.where(is_none, 0, colours), 255 * alpha]), is_told

    def plainest(self) -> Array:
        """What sources.plainest gives."""
        source, destination, _ = self.blend["rgb"]
        colours = self.after[:3]
        if destination == "ONE":
            colours = numpy.maximum(self.after - self.before, 0)[:3]
        elif source in ("ZERO", "DEST_COLOR"):
            twice = 2 if source == "DEST_COLOR" and destination == "SRC_COLOR" else 1
            was = numpy.maximum(self.before[:3], 8)
            colours = numpy.where(self.before[:3] >= 8, numpy.minimum(255 * self.after[:3] / was / twice, 255), 255)
        return numpy.vstack([colours, numpy.full(len(self.layers), 255)])

    def alphas(self) -> tuple[Array, Array]:
        """The source's alpha, and where it is told: by what the draw alone leaves of it, else by colours, else 1."""
        alpha, open_ones = self.own_alpha.copy(), numpy.isnan(self.own_alpha)
        is_told = numpy.ones(len(alpha), bool)
        if is_composite(self.blend) and open_ones.any():
            alpha[open_ones] = self.by_colour(open_ones)
            is_told = ~(numpy.isnan(alpha) & ~self.alone[:3].any(axis=0))
        return numpy.where(numpy.isnan(alpha), 1.0, alpha), is_told

    def by_colour(self, some: Array) -> Array:
        """What sources.alpha_by_colour gives at some pixels."""
        own, was, now = self.alone[:3, some], self.before[:3, some], self.after[:3, some]
        pairs = Pairs(self.layers[some], self.drawn[some])
        best, least = numpy.zeros(was.shape[1]), numpy.full(was.shape[1], numpy.inf)
        for step in range(STEPS + 1):
            alpha = step / STEPS
            part = pairs.of(lambda few, many: sources.shown(alpha, few) / sources.shown(alpha, many))
            left = pairs.of(lambda few, _: (1 - alpha) ** few)
            red, green, blue = numpy.abs(own * part + was * left - now)
            fault = red + green + blue
            best, least = numpy.where(fault < least, alpha, best), numpy.minimum(fault, least)
        return numpy.where(was.max(axis=0) < 16, numpy.nan, best)

    def share(self, alpha: float, drawn: int) -> float:
        """Of the source in what so many layers leave."""
        source, destination, _ = self.blend["rgb"]
        amount = sources.shown(alpha, drawn) if is_composite(self.blend) else drawn if destination == "ONE" else 1
        return amount * alpha if source == "SRC_ALPHA" else amount

    def undone(self) -> Array:
        """What sources.undone gives."""
        own = self.alone[:3]
        if self.blend["rgb"][1] != "ONE":
            return own
        return numpy.where(own == 255, numpy.maximum(own, (self.after - self.before)[:3] * self.times), own)
