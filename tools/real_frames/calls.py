"""The calls of a frame as text, and which of them set each part of the state. They are RenderDoc's chunks: a name,
and members that are told of by the type they have."""
import re
from collections.abc import Iterable, Mapping, Sequence
from typing import Any

from .frame import RenderDoc, SetBy
from .names import printable

UNSAID = {"DebugMessages", "commandBuffer", "vaobj"}  # members that aren't the caller's words, or say nothing
FACTORS = {
    "sfactor",
    "dfactor",
    "src",
    "dst",
    "sfactorRGB",
    "dfactorRGB",
    "sfactorAlpha",
    "dfactorAlpha",
}  # OpenGL has more than one name for 0 and 1
MOST_PARTS = 8  # of a structure or an array that are told
CAPS = {
    "GL_CULL_FACE": ("raster",),
    "GL_SCISSOR_TEST": ("raster", "scissor"),
    "GL_BLEND": ("blend",),
    "GL_DEPTH_TEST": ("depth",),
}
WHOLE = ("raster", "blend", "depth")  # what a pipeline object has
SETTERS = [
    (re.compile(name), kinds)
    for name, kinds in (
        (r"gl(CullFace|FrontFace)", ("raster",)),
        (r"gl(Scissor|Viewport)", ("scissor",)),
        (r"gl(BlendFunc|BlendEquation|ColorMask)", ("blend",)),
        (r"gl(BlendColor)", ("factor",)),
        (r"gl(DepthFunc|DepthMask)", ("depth",)),
        (r"vkCmd(BindPipeline)", WHOLE),
        (r"vkCmdSet(CullMode|FrontFace)", ("raster",)),
        (r"vkCmdSet(Scissor|Viewport)", ("scissor",)),
        (r"vkCmdSet(Color(?:Blend|Write)\w+)", ("blend",)),
        (r"vkCmdSet(BlendConstants)", ("factor",)),
        (r"vkCmdSet(Depth(?:Test|Write|Compare)\w+)", ("depth",)),
        (r"ID3D1\w+::(RSSetState)$", ("raster",)),
        (r"ID3D1\w+::(RSSet(?:ScissorRects|Viewports))", ("scissor",)),
        (r"ID3D1\w+::(OMSetBlendState)", ("blend", "factor")),
        (r"ID3D1\w+::(OMSetDepthStencilState)", ("depth",)),
        (r"ID3D1\w+::(OMSetBlendFactor)", ("factor",)),
        (r"ID3D1\w+::(SetPipelineState)", WHOLE),
    )
]
LATER = (
    "buf",
    "index",
    "firstScissor",
    "firstViewport",
)  # members that name another target or viewport than the first, where they aren't 0


def members(chunk: RenderDoc) -> list[RenderDoc]:
    return [chunk.GetChild(number) for number in range(chunk.NumChildren())]


def worded(member: RenderDoc, names: Mapping[int, str]) -> str:
    """A member of a call as text; `names` are those of resources."""
    kind, value = member.type.basetype.name, member.data.basic
    if kind == "Enum" and member.name in FACTORS and value.u < 2:
        return ("GL_ZERO", "GL_ONE")[value.u]
    if kind in ("Enum", "String"):
        return member.data.string
    if kind == "Resource":
        return names.get(int(value.id), str(int(value.id)))
    if kind in ("Struct", "Array", "Chunk"):
        parts = members(member)
        return (
            f"[{', '.join(worded(part, names) for part in parts[:MOST_PARTS])}"
            f"{', ..' if len(parts) > MOST_PARTS else ''}]"
        )
    if kind == "Boolean":
        return str(bool(value.b)).lower()
    return {
        "Float": lambda: f"{value.d:g}",
        "SignedInteger": lambda: str(value.i),
        "UnsignedInteger": lambda: str(value.u),
    }.get(kind, lambda: "..")()


def text_of(chunk: RenderDoc, names: Mapping[int, str]) -> str:
    """A call as it would be written: glBlendFunc(GL_ONE, GL_ONE)"""
    return printable(
        f"{chunk.name}({', '.join(worded(member, names) for member in members(chunk) if member.name not in UNSAID)})"
    )


def set_by(chunk: RenderDoc) -> tuple[str, tuple[str, ...]] | None:
    """(what a call takes the place of, the kinds of the state that it sets), or None where it sets no state of the
    first target."""
    given = {member.name: member for member in members(chunk)}
    if any(name in given and given[name].data.basic.u for name in LATER):
        return None
    if re.match(r"gl(Enable|Disable)i?$", chunk.name):
        cap = given["cap"].data.string if "cap" in given else given["target"].data.string if "target" in given else ""
        return (cap, CAPS[cap]) if cap in CAPS else None
    if "COMPUTE" in getattr(getattr(given.get("pipelineBindPoint"), "data", None), "string", ""):
        return None
    return next(((found[1], kinds) for name, kinds in SETTERS if (found := name.match(chunk.name))), None)


def chunk_of(event: RenderDoc, chunks: Sequence[RenderDoc]) -> RenderDoc:
    """The call of an event, or None: RenderDoc adds events of its own to frames of Vulkan, whose number of a chunk
    is that of none."""
    return chunks[event.chunkIndex] if event.chunkIndex < len(chunks) else None


def setters(
    actions: Iterable[RenderDoc], chunks: Sequence[RenderDoc], names: Mapping[int, str]
) -> dict[int, SetBy]:
    """{an action's event: {kind of state: [[event, text]]}}: of the calls up to it those which made that part of the
    state what it is, each the last of its kind."""
    found: dict[int, SetBy] = {}
    last: dict[str, dict[str, list[Any]]] = {}
    told: SetBy = {}
    for action in actions:
        for event in action.events:
            chunk = chunk_of(event, chunks)
            what = chunk and set_by(chunk)
            if what:
                slot, kinds = what
                for kind in kinds:
                    mine = last.setdefault(kind, {})
                    mine.pop(slot, None)
                    mine[slot] = [event.eventId, text_of(chunk, names)]
                    told = {**told, kind: list(mine.values())}
        found[action.eventId] = told
    return found
