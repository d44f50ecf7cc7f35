"""How a draw lays a texture over its target, by what its vertices carry beside their places: straight, where a pixel
reads the texel at its own place, as a share of both sizes, or upside down."""
import struct
from collections.abc import Iterable, Sequence

import renderdoc as rd

from .frame import RenderDoc
from .viewport import Viewport

Corners = Sequence[tuple[tuple[float, float], tuple[float, ...]]]  # the place of each, and what it carries

STRAIGHT, UPSIDE_DOWN = "straight", "upside down"
NEAR = 1e-4  # of the whole, by which a place may be off
EVEN = 1e-6  # by which the corners' w may differ: what lies in perspective isn't laid evenly
FLOATS = struct.Struct("<2f")
PLACE = struct.Struct("<4f")


def offsets(parameters: Sequence[RenderDoc], is_aligned: bool) -> tuple[list[int], int]:
    """Where each of a shader's outputs of two floats or more lies in a vertex: the position comes first, the others in
    their order. And how many bytes a vertex has."""
    first = [one for one in parameters if one.systemValue == rd.ShaderBuiltin.Position]
    found, at = [], 0
    for one in first + [one for one in parameters if one.systemValue != rd.ShaderBuiltin.Position]:
        if is_aligned and one.compCount > 1:
            step = 8 if one.compCount == 2 else 16
            at += -at % step
        if one.compCount > 1 and one.varType == rd.VarType.Float and one not in first:
            found.append(at)
        at += 4 * one.compCount
    return found, at


def shares(controller: RenderDoc, viewport: Viewport, size: tuple[int, int]) -> list[Corners]:
    """[[((x, y), (u, v)) of each corner] for each output of two floats or more]: a corner's place as a share of the
    target's size from above, and what it carries; empty where that isn't known."""
    pipe = controller.GetPipelineState()
    stage, own = rd.MeshDataStage.VSOut, pipe.GetShaderReflection(rd.ShaderStage.Vertex)
    later = [pipe.GetShader(one) for one in (rd.ShaderStage.Geometry, rd.ShaderStage.Tess_Eval)]
    data = controller.GetPostVSData(0, 0, stage)
    if any(one != rd.ResourceId.Null() for one in later) or not own or data.vertexResourceId == rd.ResourceId.Null():
        return []
    content = controller.GetBufferData(data.vertexResourceId, data.vertexByteOffset, 0)
    places, length = offsets(list(own.outputSignature), pipe.HasAlignedPostVSData(stage))
    step = data.vertexByteStride
    starts = range(0, len(content) - length + 1, step) if 0 < length <= step else ()
    corners = [PLACE.unpack_from(content, start) for start in starts]
    if len(corners) < 3 or max(w for *_, w in corners) - min(w for *_, w in corners) > EVEN or corners[0][3] <= 0:
        return []
    there = [viewport.place(corner) for corner in corners]
    shown = [(x / size[0], y / size[1]) for x, y, _ in there]
    return [[(place, FLOATS.unpack_from(content, start + at)) for place, start in zip(shown, starts)] for at in places]


def laid(carried: Iterable[Corners], is_from_below: bool) -> str | None:
    """STRAIGHT or UPSIDE_DOWN, where what the corners carry says one of them; else None. `is_from_below`: v grows
    upward over the picture of the texture."""
    found = {kind for corners in carried for kind in (STRAIGHT, UPSIDE_DOWN) if fits(corners, kind, is_from_below)}
    return found.pop() if len(found) == 1 else None


def fits(corners: Corners, kind: str, is_from_below: bool) -> bool:
    for (x, y), (u, v) in corners:
        down = 1 - v if is_from_below else v
        if abs(u - x) > NEAR or abs(down - (y if kind == STRAIGHT else 1 - y)) > NEAR:
            return False
    return spread(corners)


def spread(corners: Corners) -> bool:
    """Whether the corners lie apart in both ways, so that they tell anything of the texture's ways."""
    columns, rows = zip(*(place for place, _ in corners))
    return max(columns) - min(columns) > NEAR and max(rows) - min(rows) > NEAR
