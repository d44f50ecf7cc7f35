"""What shown.Shown finds row by row, over all of a draw's box at once, by numpy: pixels that are alike in all that is
known of them are solved once."""
from collections.abc import Sequence
from typing import TYPE_CHECKING

from .layers import MOST
from .wide import Array, alike, box_of, numpy, places_of
from .wide_solving import Pixels, WideBlending
from .wide_sources import Alone, channels, words

if TYPE_CHECKING:
    from .shown import Shown, Told

Ways = Sequence[tuple[str, int]]
KNOWN, WORKED_OUT, NONE = 0, 1, 2  # how a source was found


def look(shown: "Shown", ways: Ways) -> None:
    """`ways` are the name and the kind of pixels whose sources are known, worked out, and replaced."""
    layers, told = shown.layers, shown.told
    counts, was, now = (box_of(one, layers) for one in (layers.counts, shown.before, shown.after))
    own = told.alone if told.alone else told.own
    key = box_of(own, layers) if own else numpy.zeros_like(was)
    drawn, places = counts > 0, places_of(layers)
    if shown.record.state.discards:
        empty = drawn & (was == now) & ((key == 0) if told.alone else True)
        shown.holes.update(places[empty].tolist())
        drawn &= ~empty
    some = numpy.flatnonzero(drawn)
    firsts, kinds = alike(some, (key.astype("u8") << 32) | was, (now.astype("u8") << 32) | counts)
    pixels = Pixels(key[firsts], was[firsts], now[firsts], counts[firsts])
    hows, values = (one[kinds] for one in solved(shown, places[firsts], pixels))
    keep(shown, ways, (some, hows, values), (places, now))


def keep(shown: "Shown", ways: Ways, found: tuple[Array, Array, Array], pictures: tuple[Array, Array]) -> None:
    """What was found, as Shown has it: its counts in the order in which each kind comes first."""
    (some, hows, values), (places, now) = found, pictures
    _, first, counts = numpy.unique(hows, return_index=True, return_counts=True)
    for at in numpy.argsort(first):
        shown.counted[ways[hows[first[at]]][0]] += int(counts[at])
    texels, kinds = numpy.zeros(len(now), "<u4"), numpy.zeros(len(now), "u1")
    texels[some], kinds[some] = values, numpy.array([kind for _, kind in ways], "u1")[hows]
    replaced = some[hows == NONE]
    shown.replaced.update(zip(places[replaced].tolist(), map(tuple, channels(now[replaced]).T.tolist())))
    shown.kinds += kinds.tobytes()
    shown.texels.frombytes(texels.tobytes())


def solved(shown: "Shown", places: Array, pixels: Pixels) -> tuple[Array, Array]:
    """What Shown.solved gives at some places, whose pixels are numbers: (how each source was found, the sources)."""
    wide = Pixels(None, channels(pixels.before), channels(pixels.after), pixels.layers.astype("i4"))
    wide.guess, is_known = guesses(shown.told, places, pixels, wide)
    made, found = WideBlending(shown.blending).source(wide)
    found &= wide.layers < MOST
    is_guess = (made == wide.guess).all(axis=0)
    hows = numpy.where(is_known & is_guess, KNOWN, WORKED_OUT)
    return numpy.where(found, hows, NONE), numpy.where(found, words(made), 0)


def guesses(told: "Told", places: Array, pixels: Pixels, wide: Pixels) -> tuple[Array, Array]:
    """What told.guess says of each: (sources as four rows, whether they are known to be the shader's own)."""
    if not told.blend["enable"]:
        return wide.after, numpy.ones(len(places), bool)
    if told.alone:
        return Alone(told.record, (channels(pixels.guess), wide.before, wide.after), wide.layers).guesses()
    some = zip(*(one.tolist() for one in (places, pixels.layers, wide.before.T, wide.after.T)))
    found = [told.guess(*one) for one in some]
    made, are_known = ([one[part] for one in found] for part in range(2))
    return numpy.array(made, "i4").reshape(-1, 4).T, numpy.array(are_known, bool)
