"""RenderDoc's pipeline state in framedbg's words. Names of RenderDoc's enumerations come as text, so that nothing
here needs its module."""
from collections.abc import Sequence
from dataclasses import dataclass
from typing import Any

import captures
from captures import Event

from .losses import Losses
from .placing import Bias
from .viewport import Rectangle, Viewport

FACTORS = {
    "Zero": "ZERO",
    "One": "ONE",
    "SrcCol": "SRC_COLOR",
    "InvSrcCol": "INV_SRC_COLOR",
    "DstCol": "DEST_COLOR",
    "InvDstCol": "INV_DEST_COLOR",
    "SrcAlpha": "SRC_ALPHA",
    "InvSrcAlpha": "INV_SRC_ALPHA",
    "DstAlpha": "DEST_ALPHA",
    "InvDstAlpha": "INV_DEST_ALPHA",
    "FactorRGB": "BLEND_FACTOR",
    "InvFactorRGB": "INV_BLEND_FACTOR",
    "FactorAlpha": "BLEND_FACTOR",
    "InvFactorAlpha": "INV_BLEND_FACTOR",
}
NEAREST = {
    "SrcAlphaSat": "SRC_ALPHA",
    "Src1Col": "SRC_COLOR",
    "Src1Alpha": "SRC_ALPHA",
    "InvSrc1Col": "INV_SRC_COLOR",
    "InvSrc1Alpha": "INV_SRC_ALPHA",
}
OPERATIONS = {
    "Add": "ADD",
    "Subtract": "SUBTRACT",
    "ReversedSubtract": "REV_SUBTRACT",
    "Minimum": "MIN",
    "Maximum": "MAX",
}
COMPARES = {
    "Never": "NEVER",
    "Less": "LESS",
    "Equal": "EQUAL",
    "LessEqual": "LESS_EQUAL",
    "Greater": "GREATER",
    "NotEqual": "NOT_EQUAL",
    "GreaterEqual": "GREATER_EQUAL",
    "AlwaysTrue": "ALWAYS",
}
CULLS = {"NoCull": "none", "Front": "front", "Back": "back"}
raster, depth = captures.raster, captures.depth


@dataclass
class State:
    """The state of a draw: events of framedbg, and what places its triangles."""

    viewport: Viewport
    scissor: Rectangle  # that scissor and viewport leave
    raster: Event
    blend: Event
    factor: Event
    depth: Event
    clip_depth: bool = True
    bias: Bias = Bias()
    width: float = 1.0  # of lines and points, in pixels
    discards: bool = False  # a shader may discard fragments, or the alpha or the stencil test

    def rectangle(self) -> Rectangle | None:
        return self.scissor if self.raster["scissor"] else None


def byte(value: float) -> int:
    return min(max(int(value * 255 + 0.5), 0), 255)


def part(told: Sequence[str], for_alpha: bool, losses: Losses) -> list[str]:
    """One part of a blend state. In the alpha part a colour factor is the alpha factor, as the two are the same
    there."""
    source, destination, operation = told
    words = []
    for name in (source, destination):
        if name in NEAREST:
            losses.add("blend factor " + name, "taken as " + NEAREST[name])
        word = FACTORS.get(name) or NEAREST[name]
        words.append(word.replace("_COLOR", "_ALPHA") if for_alpha else word)
    return words + [OPERATIONS[operation]]


def plain(mask: int = 15) -> Event:
    """No blending."""
    return captures.blend(False, mask=mask & 15)


def blend(colour: Sequence[str], alpha: Sequence[str], mask: int, losses: Losses) -> Event:
    """Each of colour and alpha is a source, a destination and an operation."""
    return captures.blend(True, part(colour, False, losses), part(alpha, True, losses), mask & 15)


def factor(constant: Sequence[float], colour: Sequence[str], losses: Losses) -> Event:
    """The blend constant. Where the colour part takes the constant's alpha, all channels become that alpha."""
    r, g, b, a = (byte(v) for v in constant)
    if any(name.endswith("FactorAlpha") for name in colour[:2]):
        if any(name.endswith("FactorRGB") for name in colour[:2]):
            losses.add("blend constant's colour beside its alpha", "the alpha is taken for both")
        r = g = b = a
    return captures.factor(r, g, b, a)


class StateLog:
    """Adds a state event only where the state isn't so already."""

    def __init__(self, events: list[Event]) -> None:
        self.events = events
        self.last: dict[str, Event] = {}

    def set(self, event: Event, source: dict[str, Any]) -> None:
        if self.last.get(event["kind"]) != event:
            self.last[event["kind"]] = event
            self.events.append({**event, "source": source})
