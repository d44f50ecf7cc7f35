"""What a clear does: which of colour and depth, in which rectangles, with which mask."""
import re
from typing import TYPE_CHECKING

import renderdoc as rd

from .frame import Clears, RenderDoc
from .losses import Losses
from .viewport import Rectangle, meet, rectangle

if TYPE_CHECKING:
    from .replay import ReplayedFrame

Boxes = tuple[bool, bool, list[Rectangle], int]  # colour, depth, rectangles, mask

COLOUR, DEPTH = 1, 2  # Vulkan's aspects


def pass_clears(action: RenderDoc, name: str) -> tuple[bool, bool]:
    """(colour, depth) of what the beginning of a Vulkan pass clears. Its name says `C=` only where there are depths
    too."""
    if not action.flags & rd.ActionFlags.BeginPass:
        return False, False
    return bool(re.search(r"\((C=)?Clear\b", name)), bool(re.search(r"\bDS?=Clear", name))


def of(frame: "ReplayedFrame", action: RenderDoc, width: int, height: int) -> Clears:
    """(whether it clears colour, whether depth, its rectangles, None for all, the mask) of the clear that was gone
    to."""
    whole = [0, 0, width, height]
    colour, depth, boxes, mask = of_gl(frame, action, whole) if frame.is_gl() else of_vulkan(frame, action, whole)
    return (
        colour,
        depth and int(action.depthOut) in frame.textures,
        [None if box == whole else box for box in boxes],
        mask,
    )


def of_gl(frame: "ReplayedFrame", action: RenderDoc, whole: Rectangle) -> Boxes:
    flags, name, height = action.flags, frame.name(action), whole[3]
    depth = bool(flags & rd.ActionFlags.ClearDepthStencil) and ("Depth" in name or "glClear" not in name)
    state = frame.state(action, whole[2], whole[3], Losses())
    cut = frame.controller.GetPipelineState().GetScissor(0)
    top = cut.y if frame.from_above else height - cut.y - cut.height
    box = meet(rectangle(cut.x, top, cut.width, cut.height), whole) if cut.enabled else whole
    return bool(flags & rd.ActionFlags.ClearColor), depth and state.depth["write"], [box], state.blend["mask"]


def of_vulkan(frame: "ReplayedFrame", action: RenderDoc, whole: Rectangle) -> Boxes:
    """A pass clears within its area, vkCmdClearAttachments in rectangles, other clears an image."""
    chunk = frame.names.chunks[action.events[-1].chunkIndex]
    if not action.flags & rd.ActionFlags.Clear:
        areas = [rectangle_of(area) for area in named(chunk, "renderArea")]
        return *pass_clears(action, frame.name(action)), [meet(area, whole) for area in areas] or [whole], 15
    aspects = (
        [aspect.data.basic.u for aspect in named(chunk, "aspectMask")] if "Attachments" in frame.name(action) else []
    )
    if not aspects:
        return (
            bool(action.flags & rd.ActionFlags.ClearColor),
            bool(action.flags & rd.ActionFlags.ClearDepthStencil),
            [whole],
            15,
        )
    colour, depth = (any(aspect & wanted for aspect in aspects) for wanted in (COLOUR, DEPTH))
    return colour, depth, [meet(rectangle_of(area), whole) for area in named(chunk, "rect")], 15


def named(chunk: RenderDoc, name: str) -> list[RenderDoc]:
    """The members of a call's words that have a name, however deep."""
    if chunk.name == name:
        return [chunk]
    return [found for number in range(chunk.NumChildren()) for found in named(chunk.GetChild(number), name)]


def rectangle_of(area: RenderDoc) -> Rectangle:
    x, y, width, height = (named(area, name)[0].data.basic.i for name in ("x", "y", "width", "height"))
    return rectangle(x, y, width, height)
