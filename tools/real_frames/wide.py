"""Pictures pixel by pixel, many at once, where numpy is there (Debian: python3-numpy). What comes out is what comes
out without it, byte for byte."""
from array import array
from typing import Any

from captures import Bytes

from .layers import Layers

try:
    import numpy
except ImportError:
    numpy = None  # type: ignore[assignment]

Array = Any  # one of numpy's, which may be missing; the rules of one pixel take it for a number


def box_of(words: Bytes, layers: Layers) -> Array:
    """The numbers of a picture's pixels within a draw's box, row by row."""
    left, top, right, bottom = layers.box
    return numpy.asarray(memoryview(words)).reshape(-1, layers.width)[top:bottom, left:right].ravel()


def places_of(layers: Layers) -> Array:
    """The places of the pixels within a draw's box."""
    left, top, right, bottom = layers.box
    return (numpy.arange(top, bottom)[:, None] * layers.width + numpy.arange(left, right)).ravel()


def alike(some: Array, *keys: Array) -> tuple[Array, Array]:
    """Of places that are alike in their keys the first, for each kind, and for each place the number of its kind."""
    if not len(some):
        return some, some
    order = numpy.lexsort(tuple(key[some] for key in keys))
    sorted_keys = [key[some][order] for key in keys]
    is_new = numpy.concatenate([[True], numpy.logical_or.reduce([key[1:] != key[:-1] for key in sorted_keys])])
    kinds = numpy.empty(len(some), "i8")
    kinds[order] = numpy.cumsum(is_new) - 1
    return some[order[is_new]], kinds


def differing(before: bytes, after: bytes, counts: bytearray | None) -> list[int]:
    """The places of pixels that changed where no triangle passes."""
    was, now = (numpy.frombuffer(picture, "<u4") for picture in (before, after))
    changed = was != now
    if counts:
        changed &= numpy.frombuffer(counts, "u1") == 0
    return numpy.flatnonzero(changed).tolist()


def are_one(texels: "array[int]", kinds: bytearray, kind: int) -> bool:
    """Whether all texels of a kind are alike."""
    values = numpy.asarray(memoryview(texels))[numpy.frombuffer(kinds, "u1") == kind]
    return bool((values == values[0]).all())
