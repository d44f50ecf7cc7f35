"""What else RenderDoc tells of a draw: the textures that it reads and who made them, its shaders, the calls that set
its state, and where in the program it stands."""
from collections.abc import Iterable
from typing import TYPE_CHECKING, Any

import renderdoc as rd

from . import calls, laying
from .frame import RenderDoc, SetBy
from .names import printable
from .viewport import Viewport

if TYPE_CHECKING:
    from .replay import ReplayedFrame

STAGES = (
    ("vertex", rd.ShaderStage.Vertex),
    ("tessellation", rd.ShaderStage.Tess_Eval),
    ("geometry", rd.ShaderStage.Geometry),
    ("pixel", rd.ShaderStage.Pixel),
)
MOST_FRAMES = 32  # of a callstack


class Details:
    """Of a replay.ReplayedFrame that is open."""

    resolver: bool | None  # whether RenderDoc finds places in the program; None: it wasn't asked yet

    def __init__(self, frame: "ReplayedFrame") -> None:
        self.frame, self.controller = frame, frame.controller
        self.names = {int(one.resourceId): printable(one.name) for one in self.controller.GetResources()}
        self.setters = calls.setters(frame.actions, frame.names.chunks, self.names)
        self.writes = writes(frame)
        self.resolver = self.places = None

    def set_by(self, action: RenderDoc) -> SetBy:
        """{kind of state: [[event, text of the call]]}"""
        return self.setters.get(action.eventId, {})

    def of(self, action: RenderDoc, viewport: Viewport, size: tuple[int, int]) -> dict[str, Any]:
        """Members for `source` of a draw that was gone to, whose viewport lies on a target of this size."""
        textures = self.textures()
        made = [(one["id"], self.made(one["id"], action.eventId)) for one in textures]
        carried = laying.shares(self.controller, viewport, size) if any(event is not None for _, event in made) else []
        reads = [
            {"target": target, "event": event, **self.laid(carried, target)}
            for target, event in made
            if event is not None
        ]
        told = {"shaders": self.shaders(), "textures": textures, "reads": reads, "callstack": self.callstack(action)}
        return {name: value for name, value in told.items() if value}

    def textures(self) -> list[dict[str, Any]]:
        """Those that the pixel shader reads, each once. RenderDoc 1.24 tells all that are bound in a frame of
        OpenGL, so the shader's own list is asked, too."""
        found, pipe = {}, self.controller.GetPipelineState()
        used = {
            (one.bindset, one.bind)
            for one in pipe.GetBindpointMapping(rd.ShaderStage.Pixel).readOnlyResources
            if one.used
        }
        for array in pipe.GetReadOnlyResources(rd.ShaderStage.Pixel, True):
            for one in array.resources if (array.bindPoint.bindset, array.bindPoint.bind) in used else ():
                texture = self.frame.textures.get(int(one.resourceId))
                if texture:
                    number = int(texture.resourceId)
                    found[number] = {
                        "id": number,
                        "name": self.names.get(number, ""),
                        "width": texture.width,
                        "height": texture.height,
                    }
        return list(found.values())

    def laid(self, carried: Iterable[laying.Corners], target: int) -> dict[str, str]:
        """How the draw lays a target over its own, as a member of `reads`, where its corners tell it."""
        found = laying.laid(carried, self.frame.is_gl() and not self.frame.is_turned(target))
        return {"laid": found} if found else {}

    def made(self, target: int, event: int) -> int | None:
        """The last event before another one that draws on a target, clears it or copies onto it; None where the
        frame makes none of it before."""
        before = [one for one in self.writes.get(target, ()) if one < event]
        return before[-1] if before else None

    def shaders(self) -> dict[str, str]:
        """{stage: name}"""
        pipe = self.controller.GetPipelineState()
        both = ((stage, pipe.GetShader(number)) for stage, number in STAGES)
        return {
            stage: self.names.get(int(shader), str(int(shader)))
            for stage, shader in both
            if shader != rd.ResourceId.Null()
        }

    def callstack(self, action: RenderDoc) -> list[str]:
        """The places in the program from the call outward, where RenderDoc took them."""
        chunk = calls.chunk_of(action.events[-1], self.frame.names.chunks) if len(action.events) else None
        places = list(chunk.metadata.callstack) if chunk else []
        if not places:
            return []
        if self.resolver is None:
            self.resolver = self.frame.file.InitResolver(False, None) == rd.ResultCode.Succeeded
        told = (
            self.frame.file.GetResolve(places[:MOST_FRAMES])
            if self.resolver
            else [f"{place:#x}" for place in places[:MOST_FRAMES]]
        )
        return [printable(one) for one in told]


def writes(frame: "ReplayedFrame") -> dict[int, list[int]]:
    """{target: the events that draw on it, clear it, or copy onto it}, of depths too."""
    found: dict[int, list[int]] = {}
    for action in frame.actions:
        kind = frame.kind(action)
        onto = (
            [*frame.targets(action), int(action.depthOut)]
            if kind in ("draw", "clear")
            else [frame.copied_onto(action)]
            if kind == "copy"
            else []
        )
        for target in onto:
            found.setdefault(target, []).append(action.eventId)
    return found
