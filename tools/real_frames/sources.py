"""What a draw's shader gave, from what the draw left on the target: the blend equation worked backward.

`alone` is the draw on a target of zeros, `before` and `after` are the target's own pixels. All channels are bytes.
`layers` says how many triangles of the draw pass at the pixel, `times` how often RenderDoc drew them for `alone`:
its overlay ClearBeforeDraw is followed by the draw itself, so twice, unless the depth test stops the second.
"""
from collections.abc import Callable, Sequence
from dataclasses import dataclass

from captures import Event

Colour = tuple[float, ...]

ONE_ON_ZEROS = {"ONE", "INV_DEST_COLOR", "INV_DEST_ALPHA"}
LEAST_SHARE = 0.05  # of the source in what is seen, from which it can be worked out
NEAR = 2  # bytes
LEAST_ALPHA = 0.25  # by which a byte may be divided, and is within 2 of what was multiplied
STRICT = {"LESS", "GREATER", "NOT_EQUAL", "NEVER"}


def times_drawn(depth: Event) -> int:
    return 1 if depth["enable"] and depth["write"] and depth["func"] in STRICT else 2


def is_composite(blend: Event) -> bool:
    """Blending where a layer hides what lies under it by its alpha."""
    return blend["rgb"][0] in ("SRC_ALPHA", "ONE") and blend["rgb"][1:] == ["INV_SRC_ALPHA", "ADD"]


def shown(alpha: float, layers: int) -> float:
    """How much of a layer's own amount shows where so many equal layers lie over each other: 1 + (1-a) + (1-a)^2 and
    so on."""
    return sum((1 - alpha) ** i for i in range(layers))


def root(function: Callable[[float], float], wanted: float) -> float:
    """The share (0 to 1) at which a rising function of it reaches a byte."""
    low, high = 0.0, 1.0
    for _ in range(12):
        middle = (low + high) / 2
        if function(middle) * 255 < wanted:
            low = middle
        else:
            high = middle
    return (low + high) / 2


def alpha_by_itself(blend: Event, drawn: int, alone: Sequence[int]) -> float | None:
    """The source's alpha (0 to 1) from the alpha that the draw alone leaves, or None."""
    source, destination, operation = blend["alpha"]
    if not blend["mask"] & 8 or operation != "ADD" or not alone[3]:
        return None
    if source == "SRC_ALPHA":
        amount: Callable[[float], float] = lambda a: a * a
    elif source in ONE_ON_ZEROS:
        amount = lambda a: a
    else:
        return None
    if destination == "INV_SRC_ALPHA":
        return root(lambda a: amount(a) * shown(a, drawn), alone[3])
    return root(lambda a: amount(a) * (drawn if destination == "ONE" else 1), alone[3])


def alpha_by_colour(drawn: int, pixel: "Pixel") -> float | None:
    """The alpha that explains best how the colours before and after differ, or None where the target was dark."""
    if max(pixel.before[:3]) < 16:
        return None

    def fault(alpha: float) -> float:
        part, left = shown(alpha, pixel.layers) / shown(alpha, drawn), (1 - alpha) ** pixel.layers
        return sum(
            abs(own * part + was * left - now) for own, was, now in zip(pixel.alone[:3], pixel.before, pixel.after)
        )

    return min((step / 64 for step in range(65)), key=fault)


def plainest(blend: Event, before: Sequence[int], after: Sequence[int]) -> Colour:
    """A source that gives `after` over `before`, where the draw alone can't be had: opaque where the blending would
    hide by alpha."""
    source, destination, _ = blend["rgb"]
    if destination == "ONE":
        return tuple(max(after[i] - before[i], 0) for i in range(3)) + (255,)
    if source in ("ZERO", "DEST_COLOR"):
        twice = 2 if source == "DEST_COLOR" and destination == "SRC_COLOR" else 1
        return tuple(min(255 * after[i] / before[i] / twice, 255) if before[i] >= 8 else 255 for i in range(3)) + (255,)
    return tuple(after[:3]) + (255,)


def parts_of(blend: Event, layers: int, alpha: float) -> tuple[float, float] | None:
    """(how much of the source is in what is seen, how much of what was there), where both are known; else None."""
    source, destination, operation = blend["rgb"]
    if operation != "ADD" or source not in ("SRC_ALPHA", "ONE"):
        return None
    own = alpha if source == "SRC_ALPHA" else 1.0
    if is_composite(blend):
        return own * shown(alpha, layers), (1 - alpha) ** layers
    return {"ONE": (own * layers, 1.0), "ZERO": (own, 0.0)}.get(destination)


def with_alpha(
    blend: Event, layers: int, given: Sequence[float], before: Sequence[int], after: Sequence[int]
) -> Colour | None:
    """The source from what is known of it, above all its alpha, and from the pixel before and after: so many equal
    layers of it were blended. None where it was none: the pixel is as before, and what is known would have changed
    it."""
    both = parts_of(blend, layers, given[3] / 255)
    if both is None:
        return tuple(given)
    share, left = both
    if before == after:
        return (
            tuple(given)
            if all(abs(own * share + was * left - now) <= NEAR for own, was, now in zip(given, before[:3], after))
            else None
        )
    if share < LEAST_SHARE:
        return tuple(given)
    return tuple(
        own if now == 255 and left == 1 else min(max((now - was * left) / share, 0), 255)
        for own, was, now in zip(given, before[:3], after)
    ) + (given[3],)


@dataclass(frozen=True)
class Pixel:
    """A pixel of a draw: how many of its triangles pass there, and the colours."""

    layers: int
    alone: Sequence[int]
    before: Sequence[int]
    after: Sequence[int]


def source_of(blend: Event, times: int, pixel: "Pixel") -> Colour | None:
    """The source's (r, g, b, a), or None where nothing can be known."""
    if not blend["enable"] or blend["rgb"][2] in ("MIN", "REV_SUBTRACT"):
        return tuple(pixel.after)
    if blend["rgb"][2] == "MAX":
        return tuple(pixel.alone)
    source, destination, _ = blend["rgb"]
    if source in ("ZERO", "DEST_COLOR", "DEST_ALPHA"):
        return plainest(blend, pixel.before, pixel.after) if max(pixel.before[:3]) >= 8 else None
    drawn = pixel.layers * times
    alpha = alpha_of(blend, drawn, pixel)
    if alpha is None and is_composite(blend) and not any(pixel.alone[:3]):
        return None
    if alpha is None:
        alpha = 1.0
    share = shown(alpha, drawn) if is_composite(blend) else drawn if destination == "ONE" else 1
    if source == "SRC_ALPHA":
        share *= alpha
    if share <= 1e-6:
        return 0, 0, 0, 255 * alpha
    return tuple(min(undone(destination, times, pixel, channel) / share, 255) for channel in range(3)) + (255 * alpha,)


def tells(blend: Event, times: int, pixel: "Pixel") -> bool:
    """Whether the draw alone tells the source, so that source_of makes no part of it up; where it was multiplied by
    alpha, within 2 bytes."""
    source, _, operation = blend["rgb"]
    if operation == "MAX":
        return blend["alpha"][2] == "MAX"
    if operation not in ("ADD", "SUBTRACT") or source not in ("ONE", "SRC_ALPHA", "INV_DEST_COLOR", "INV_DEST_ALPHA"):
        return False
    if not any(pixel.alone):
        return bool(blend["mask"] & 8) and blend["alpha"][0] in ONE_ON_ZEROS and blend["alpha"][2] == "ADD"
    alpha = alpha_by_itself(blend, pixel.layers * times, pixel.alone)
    return alpha is not None and (source != "SRC_ALPHA" or alpha >= LEAST_ALPHA)


def undone(destination: str, times: int, pixel: "Pixel", channel: int) -> float:
    """What the layers left of a channel alone; where that is cut off at 255, and the draw adds, what they added to
    what was there."""
    own = pixel.alone[channel]
    if own == 255 and destination == "ONE":
        return max(own, (pixel.after[channel] - pixel.before[channel]) * times)
    return own


def alpha_of(blend: Event, drawn: int, pixel: "Pixel") -> float | None:
    alpha = alpha_by_itself(blend, drawn, pixel.alone)
    if alpha is None and is_composite(blend):
        alpha = alpha_by_colour(drawn, pixel)
    return alpha
