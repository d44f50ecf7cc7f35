"""What a blended draw's shader gave, from two pictures: the target after the draw as it is, and after the same draw
where it replaces what it would be blended with."""
from collections.abc import Sequence

from captures import Event

from .sources import is_composite

LEAST_WEIGHT = 12  # bytes by which alpha has to move a pixel to be told by it
MOST_APART = 3  # bytes between a pixel and what its alpha explains
TOLD, OPEN, APART = "told", "open", "apart"


def tells(blend: Event) -> bool:
    """Whether such pictures tell alpha: where the source is taken whole or by its alpha, and added."""
    source, destination, operation = blend["rgb"]
    return operation == "ADD" and (is_composite(blend) or (source == "SRC_ALPHA" and destination in ("ONE", "ZERO")))


def parts_of(blend: Event, own: Sequence[int], was: Sequence[int]) -> list[tuple[int, int]]:
    """(p, q) of each channel: a pixel is p + q times alpha."""
    source, destination, _ = blend["rgb"]
    if source == "ONE":
        return [(value + there, -there) for value, there in zip(own, was)]
    return {"ONE": list(zip(was, own)), "ZERO": [(0, value) for value in own]}.get(destination) or [
        (there, value - there) for value, there in zip(own, was)
    ]


def source_at(
    blend: Event, layers: int, own: Sequence[int], was: Sequence[int], now: Sequence[int]
) -> tuple[str, tuple[float, ...] | None]:
    """What was given at a pixel where so many equal layers were blended: (TOLD, (r, g, b, a)); (OPEN, ..) where any
    alpha leaves the pixel nearly as it is; (APART, None) where none does, since the two pictures aren't of the same
    draw, or its layers aren't equal."""
    parts = [(p, q, seen) for (p, q), seen in zip(parts_of(blend, own, was), now) if seen < 255 or max(p, p + q) <= 255]
    weight = sum(q * q for _, q, _ in parts)
    share = sum(q * (seen - p) for p, q, seen in parts) / weight if weight else 1.0
    if (layers > 1 and blend["rgb"][0] == "ONE") or any(abs(p + q * share - seen) > MOST_APART for p, q, seen in parts):
        return APART, None
    is_told = max((abs(q) for _, q, _ in parts), default=0) >= LEAST_WEIGHT
    return TOLD if is_told else OPEN, (*own, 255 * min(max(of_one(blend, layers, share), 0.0), 1.0))


def of_one(blend: Event, layers: int, share: float) -> float:
    """The alpha of one layer, where so many together have a share."""
    if is_composite(blend):
        return 1 - max(1 - share, 0.0) ** (1 / layers)
    return share / layers if blend["rgb"][1] == "ONE" else share
