"""The triangles, lines or points of a draw, as RenderDoc has them behind the vertex shader, or behind geometry and
tessellation where there are any."""
import struct

import renderdoc as rd

from . import topology
from .fault import Fault
from .frame import Primitive, RenderDoc
from .names import printable

POSITION = struct.Struct("<4f")
INDEX = {1: "B", 2: "H", 4: "I"}


def primitives(controller: RenderDoc, action: RenderDoc) -> tuple[list[Primitive], str]:
    """[((instance, primitive), its corners (x, y, z, w): three, two or one)], and what was in the way, or an empty
    text."""
    pipe = controller.GetPipelineState()
    late = any(
        pipe.GetShader(stage) != rd.ResourceId.Null() for stage in (rd.ShaderStage.Geometry, rd.ShaderStage.Tess_Eval)
    )
    stage = rd.MeshDataStage.GSOut if late else rd.MeshDataStage.VSOut
    found: list[Primitive] = []
    trouble = ""
    for instance in range(max(action.numInstances, 1)):
        data = controller.GetPostVSData(instance, 0, stage)
        if data.vertexResourceId == rd.ResourceId.Null():
            return found, printable(data.status) or "no vertices behind the vertex shader"
        try:
            trouble = of_instance(controller, pipe, data, instance, found) or trouble
        except Fault as fault:
            return found, str(fault)
    return found, trouble


def of_instance(
    controller: RenderDoc, pipe: RenderDoc, data: RenderDoc, instance: int, found: list[Primitive]
) -> str:
    """Adds the primitives of one instance; gives what was in the way."""
    content = controller.GetBufferData(data.vertexResourceId, data.vertexByteOffset, 0)
    have = (len(content) - POSITION.size) // data.vertexByteStride + 1 if len(content) >= POSITION.size else 0
    corners: dict[int, tuple[float, ...]] = {}
    trouble = ""
    for primitive, names in topology.primitives(data.topology.name, *indices(controller, pipe, data)):
        if max(names) + data.baseVertex >= have or min(names) + data.baseVertex < 0:
            trouble = "indices beyond the vertices"
            continue
        for index in names:
            if index not in corners:
                corners[index] = POSITION.unpack_from(content, (index + data.baseVertex) * data.vertexByteStride)
        found.append(((instance, primitive), tuple(corners[index] for index in names)))
    return trouble


def indices(controller: RenderDoc, pipe: RenderDoc, data: RenderDoc) -> tuple[list[int], int | None]:
    """The indices of a draw, and the one that begins a new strip, or None."""
    width = data.indexByteStride
    if data.indexResourceId == rd.ResourceId.Null() or width == 0:
        return list(range(data.numIndices)), None
    content = controller.GetBufferData(data.indexResourceId, data.indexByteOffset, data.numIndices * width)
    count = len(content) // width
    found = list(struct.unpack(f"<{count}{INDEX[width]}", content[: count * width]))
    restarts = pipe.IsRestartEnabled() and not data.topology.name.endswith("List")
    return found, pipe.GetRestartIndex() & ((1 << 8 * width) - 1) if restarts else None
