"""What blending makes of a source and of what is there."""
import functools
from collections.abc import Callable, Mapping, Sequence
from typing import Any

WHOLE = 255 * 255
HALF = 127  # of a byte's step in 1/65025, rounded down: no two bytes tie
Weight = Callable[[int, Sequence[int], Sequence[int], Sequence[int]], int]
WEIGHTS: dict[str, Weight] = {  # of a channel, by the source, what is there, and the factor
    "ZERO": lambda channel, source, there, factor: 0,
    "ONE": lambda channel, source, there, factor: 255,
    "SRC_COLOR": lambda channel, source, there, factor: source[channel],
    "INV_SRC_COLOR": lambda channel, source, there, factor: 255 - source[channel],
    "SRC_ALPHA": lambda channel, source, there, factor: source[3],
    "INV_SRC_ALPHA": lambda channel, source, there, factor: 255 - source[3],
    "DEST_COLOR": lambda channel, source, there, factor: there[channel],
    "INV_DEST_COLOR": lambda channel, source, there, factor: 255 - there[channel],
    "DEST_ALPHA": lambda channel, source, there, factor: there[3],
    "INV_DEST_ALPHA": lambda channel, source, there, factor: 255 - there[3],
    "BLEND_FACTOR": lambda channel, source, there, factor: factor[channel],
    "INV_BLEND_FACTOR": lambda channel, source, there, factor: 255 - factor[channel],
}


def unorm(value: int) -> int:
    """The byte nearest to a value in 1/65025."""
    return (min(max(value, 0), WHOLE) + HALF) // 255


class Blending:
    """A blend state with its factor."""

    def __init__(self, blend: Mapping[str, Any], factor: Sequence[int]) -> None:
        self.enable, self.mask, self.factor = blend["enable"], blend["mask"], factor
        self.parts = [
            (WEIGHTS[first], WEIGHTS[second], operation)
            for first, second, operation in (*[blend["rgb"]] * 3, blend["alpha"])
        ]

    def channel(self, channel: int, source: Sequence[int], there: Sequence[int]) -> int:
        """The byte that comes out in one of the four."""
        if not self.mask >> channel & 1:
            return there[channel]
        if not self.enable:
            return source[channel]
        first, second, operation = self.parts[channel]
        if operation in ("MIN", "MAX"):
            return (min if operation == "MIN" else max)(source[channel], there[channel])
        own = source[channel] * first(channel, source, there, self.factor)
        was = there[channel] * second(channel, source, there, self.factor)
        return unorm(own + was if operation == "ADD" else own - was if operation == "SUBTRACT" else was - own)

    def colour(self, source: Sequence[int], there: Sequence[int]) -> tuple[int, ...]:
        """The four bytes that come out."""
        return tuple(self.channel(channel, source, there) for channel in range(4))


@functools.lru_cache(maxsize=4096)
def known(enable: bool, mask: int, *parts: Any) -> tuple[Blending, dict[Any, tuple[int, ...]]]:
    """The blending of a state with a factor, and what came out of it already by source and what is there."""
    return Blending({"enable": enable, "mask": mask, "rgb": parts[:3], "alpha": parts[3:6]}, parts[6:]), {}


def blended(
    blend: Mapping[str, Any], factor: Sequence[int], source: Sequence[int], there: Sequence[int]
) -> tuple[int, ...]:
    """The colour that comes out; `blend` is an event, `factor` four bytes."""
    if not blend["enable"] and blend["mask"] == 15:
        return tuple(source)
    blending, colours = known(blend["enable"], blend["mask"], *blend["rgb"], *blend["alpha"], *factor)
    if (source, there) not in colours:
        colours[source, there] = blending.colour(source, there)
    return colours[source, there]
