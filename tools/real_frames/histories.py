"""Pixel histories, by RenderDoc and by framedbg, in the same words: (RenderDoc's event, primitive or None, verdict,
colour after)."""
from collections.abc import Sequence
from typing import TYPE_CHECKING, Any

import renderdoc as rd

from framedbg_client import Client

from .frame import RenderDoc
from .names import BEFORE
from .pictures import WHOLE
from .states import byte

if TYPE_CHECKING:
    from .replay import ReplayedFrame

Entry = tuple[int, int | None, str, tuple[int, ...]]

VERDICTS = (
    ("backfaceCulled", "culled"),
    ("scissorClipped", "scissored"),
    ("shaderDiscarded", "discarded"),
    ("stencilTestFailed", "stencilfailed"),
    ("depthTestFailed", "depthfailed"),
    ("viewClipped", "clipped"),
    ("depthClipped", "depthclipped"),
    ("sampleMasked", "masked"),
)


def by_renderdoc(frame: "ReplayedFrame", target: int, x: int, y: int) -> list[Entry]:
    entries = frame.controller.PixelHistory(frame.textures[target].resourceId, x, y, WHOLE, rd.CompType.Typeless)
    return [
        (entry.eventId, entry.primitiveID, verdict(entry), tuple(byte(v) for v in entry.postMod.col.floatValue))
        for entry in entries
    ]


def verdict(entry: RenderDoc) -> str:
    return next((word for failed, word in VERDICTS if getattr(entry, failed)), "drawn")


def by_framedbg(session: Client, capture: dict[str, Any], x: int, y: int) -> list[Entry]:
    found: list[Entry] = []
    for told in session.history(x, y):
        source = capture["events"][told.event - 1].get("source", {})
        if source.get("name") == BEFORE:
            continue  # no call of the frame's
        primitive = (
            None if told.triangle is None or "primitives" not in source else source["primitives"][told.triangle][1]
        )
        entry = (source.get("event"), primitive, told.verdict, tuple(told.after))
        if primitive is None and found and found[-1][:3] == entry[:3]:
            found.pop()  # a clear of colour and of depth is one event of RenderDoc's
        found.append(entry)
    return found


def compared(theirs: Sequence[Entry], ours: Sequence[Entry]) -> dict[str, bool]:
    """{what: whether it is the same}"""
    a, b = [entry for entry in theirs if entry[2] == "drawn"], [entry for entry in ours if entry[2] == "drawn"]
    return {
        "the draws that wrote": {entry[0] for entry in a} == {entry[0] for entry in b},
        "the last that wrote": [entry[0] for entry in a[-1:]] == [entry[0] for entry in b[-1:]],
        "its primitive": [entry[:2] for entry in a[-1:]] == [(entry[0], entry[1] or 0) for entry in b[-1:]],
        "its colour, within 8 of 255": bool(a) == bool(b)
        and all(abs(p - q) <= 8 for one, other in zip(a[-1:], b[-1:]) for p, q in zip(one[3][:3], other[3][:3])),
    }
