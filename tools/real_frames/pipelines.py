"""The pipeline state at an event, of OpenGL, Vulkan and Direct3D, in framedbg's words. That of Direct3D is read by
RenderDoc's documented types: no frame of it was at hand."""
from collections.abc import Callable, Mapping, Sequence
from dataclasses import dataclass

import renderdoc as rd

from captures import Event

from . import states
from .discards import LEFT_OUT
from .frame import RenderDoc
from .losses import Losses
from .placing import Bias
from .shaders import may_discard
from .viewport import Rectangle, Viewport, meet, rectangle


@dataclass
class Read:
    """What differs between the two: words as the API has them."""

    viewport: Viewport
    scissor: Rectangle
    raster: RenderDoc
    front_ccw: bool
    blend_factor: Sequence[float]
    depth: tuple[bool, bool, RenderDoc]  # enable, write, function
    clip_depth: bool
    stencil: bool
    bias: tuple[float, float, float]  # constant, slope, most


def of_gl(controller: RenderDoc, pipe: RenderDoc, height: int, from_above: bool) -> Read:
    """`from_above`: the target's lowest row is the picture's upper one, so that rows are as OpenGL counts them."""
    own = controller.GetGLPipelineState()
    view, cut = pipe.GetViewport(0), pipe.GetScissor(0)
    lower = own.vertexProcessing.clipOriginLowerLeft
    top = lambda box: box.y if from_above else height - box.y - box.height  # noqa: E731
    viewport = Viewport(
        view.x,
        top(view),
        view.width,
        view.height,
        view.minDepth,
        view.maxDepth,
        y_up=lower != from_above,
        half_depth=not own.vertexProcessing.clipNegativeOneToOne,
        rows_from_below=lower and not from_above,
    )
    raster, depth = own.rasterizer.state, own.depthState
    return Read(
        viewport,
        rectangle(cut.x, top(cut), cut.width, cut.height),
        raster,
        raster.frontCCW == (lower != from_above),
        own.framebuffer.blendState.blendFactor,
        (depth.depthEnable, depth.depthWrites, depth.depthFunction),
        not raster.depthClamp,
        own.stencilState.stencilEnable,
        (raster.depthBias, raster.slopeScaledDepthBias, raster.offsetClamp),
    )


def of_vulkan(controller: RenderDoc, pipe: RenderDoc, *_: object) -> Read:
    own = controller.GetVulkanPipelineState()
    view, cut = pipe.GetViewport(0), pipe.GetScissor(0)
    viewport = Viewport(
        view.x,
        view.y,
        view.width,
        view.height,
        view.minDepth,
        view.maxDepth,
        y_up=False,
        half_depth=not own.viewportScissor.depthNegativeOneToOne,
    )
    raster, depth = own.rasterizer, own.depthStencil
    bias = (
        (raster.depthBias, raster.slopeScaledDepthBias, raster.depthBiasClamp) if raster.depthBiasEnable else (0, 0, 0)
    )
    return Read(
        viewport,
        rectangle(cut.x, cut.y, cut.width, cut.height),
        raster,
        raster.frontCCW,
        own.colorBlend.blendFactor,
        (depth.depthTestEnable, depth.depthWriteEnable, depth.depthFunction),
        raster.depthClipEnable,
        depth.stencilTestEnable,
        bias,
    )


def of_direct3d(own: RenderDoc, pipe: RenderDoc) -> Read:
    """Of Direct3D 11 and 12, whose states have the same members."""
    view, cut = pipe.GetViewport(0), pipe.GetScissor(0)
    raster, output = own.rasterizer.state, own.outputMerger
    depth = output.depthStencilState
    viewport = Viewport(
        view.x,
        view.y,
        view.width,
        view.height,
        view.minDepth,
        view.maxDepth,
        y_up=True,
        half_depth=True,
        rows_from_below=False,
    )
    return Read(
        viewport,
        rectangle(cut.x, cut.y, cut.width, cut.height),
        raster,
        raster.frontCCW,
        output.blendState.blendFactor,
        (depth.depthEnable, depth.depthWrites, depth.depthFunction),
        raster.depthClip,
        depth.stencilEnable,
        (raster.depthBias, raster.slopeScaledDepthBias, raster.depthBiasClamp),
    )


READERS: dict[RenderDoc, Callable[[RenderDoc, RenderDoc, int, bool], Read]] = {
    rd.GraphicsAPI.OpenGL: of_gl,
    rd.GraphicsAPI.Vulkan: of_vulkan,
    rd.GraphicsAPI.D3D11: lambda controller, pipe, *_: of_direct3d(controller.GetD3D11PipelineState(), pipe),
    rd.GraphicsAPI.D3D12: lambda controller, pipe, *_: of_direct3d(controller.GetD3D12PipelineState(), pipe),
}


def read(
    controller: RenderDoc,
    textures: Mapping[int, RenderDoc],
    size: tuple[int, int],
    from_above: bool,
    losses: Losses,
) -> states.State:
    """The state at the event that was gone to, for a target of this size."""
    pipe = controller.GetPipelineState()
    own = READERS[controller.GetAPIProperties().pipelineType](controller, pipe, size[1], from_above)
    target = textures.get(int(pipe.GetDepthTarget().resourceId))
    enable, write, function = own.depth
    if own.stencil:
        losses.add("draws with the stencil test", LEFT_OUT)
    if any(own.bias[:2]):
        losses.add("draws with depth bias", "added to the depths, and rounded with them")
    if own.raster.fillMode != rd.FillMode.Solid:
        losses.add("draws of edges or points alone (fill mode)", "drawn as solid triangles")
    whole = [0, 0, *size]
    box = meet(meet(own.scissor if pipe.GetScissor(0).enabled else whole, own.viewport.box()), whole)
    cull = own.raster.cullMode.name
    if cull == "FrontAndBack":
        box = [0, 0, 0, 0]
    blend, factor = blending(pipe, own.blend_factor, losses)
    discards = discards_of(pipe)
    if discards:
        losses.add("draws whose shader may discard", LEFT_OUT)
    return states.State(
        own.viewport,
        box,
        states.raster(states.CULLS.get(cull, "none"), own.front_ccw, box != whole),
        blend,
        factor,
        states.depth(bool(enable and target), write, states.COMPARES[function.name]),
        own.clip_depth,
        Bias(*own.bias, step=depth_step(target)),
        width_of(pipe, own.raster),
        discards or bool(own.stencil),
    )


def discards_of(pipe: RenderDoc) -> bool:
    """Whether the pixel shader may discard fragments."""
    own = pipe.GetShaderReflection(rd.ShaderStage.Pixel)
    return bool(own) and may_discard(own.encoding.name, own.rawBytes)


def width_of(pipe: RenderDoc, raster: RenderDoc) -> float:
    """Of lines, or of points where the state has it; a shader's own sizes of points aren't told."""
    if pipe.GetPrimitiveTopology() == rd.Topology.PointList:
        return getattr(raster, "pointSize", 0.0) or 1.0
    return getattr(raster, "lineWidth", 1.0)


def blending(pipe: RenderDoc, constant: Sequence[float], losses: Losses) -> tuple[Event, Event]:
    blends = pipe.GetColorBlends()
    first = blends[0] if len(blends) else rd.ColorBlend()
    if first.logicOperationEnabled:
        losses.add("draws with a logic operation")
    colour, alpha = (
        (e.source.name, e.destination.name, e.operation.name) for e in (first.colorBlend, first.alphaBlend)
    )
    state = states.blend(colour, alpha, first.writeMask, losses) if first.enabled else states.plain(first.writeMask)
    return state, states.factor(constant, colour, losses)


def depth_step(target: RenderDoc) -> float:
    """The least step of a depth target of whole numbers; zero for floats."""
    if not target:
        return 0.0
    kind = target.format
    if kind.type in (rd.ResourceFormatType.D24S8,) or (
        kind.type == rd.ResourceFormatType.Regular and kind.compByteWidth == 3
    ):
        return 1 / 0xFFFFFF
    if kind.type in (rd.ResourceFormatType.D16S8,) or (
        kind.type == rd.ResourceFormatType.Regular and kind.compByteWidth == 2
    ):
        return 1 / 0xFFFF
    return 0.0
