"""The state of a context that a draw or a clear takes, and the calls that set it. Values are OpenGL's own numbers."""
from dataclasses import dataclass, fields, replace
from typing import Any

from . import numbers as gl
from .calls import Call
from .matrices import Vertex

Four = tuple[int, int, int, int]


@dataclass
class Settings:
    """As a context has it at its beginning, but for viewport and scissor, which its first window gives it."""

    viewport: Four = (0, 0, 0, 0)
    depth_range: tuple[float, float] = (0.0, 1.0)
    scissor: Four = (0, 0, 0, 0)
    mask: Four = (1, 1, 1, 1)
    clear_colour: Vertex = (0.0, 0.0, 0.0, 0.0)
    clear_depth: float = 1.0
    depth_function: int = 0x201
    depth_mask: int = 1
    blend: tuple[int, ...] = (1, 0, 1, 0)  # source and destination of colour, then of alpha
    equation: tuple[int, int] = (0x8006, 0x8006)
    constant: Vertex = (0.0, 0.0, 0.0, 0.0)
    cull: int = gl.BACK
    front: int = gl.CCW
    fill: tuple[int, int] = (gl.FILL, gl.FILL)  # of front and back
    offset: tuple[float, float] = (0.0, 0.0)  # factor and units
    line_width: float = 1.0
    point_size: float = 1.0
    list_base: int = 0
    planes: tuple[tuple[int, Vertex], ...] = ()  # (number, four numbers in eye coordinates)
    enabled: frozenset[int] = frozenset({gl.DITHER})

    def is_on(self, what: int) -> bool:
        return what in self.enabled

    def copy(self) -> "Settings":
        return replace(self)

    def clip_planes(self) -> list[Vertex]:
        return [plane for number, plane in self.planes if number in self.enabled]


NAMES = {field.name for field in fields(Settings)}
SETTERS = {
    "glViewport": "viewport",
    "glDepthRange": "depth_range",
    "glScissor": "scissor",
    "glColorMask": "mask",
    "glClearColor": "clear_colour",
    "glClearDepth": "clear_depth",
    "glClearDepthf": "clear_depth",
    "glDepthRangef": "depth_range",
    "glDepthFunc": "depth_function",
    "glDepthMask": "depth_mask",
    "glBlendFuncSeparate": "blend",
    "glBlendEquationSeparate": "equation",
    "glBlendColor": "constant",
    "glCullFace": "cull",
    "glFrontFace": "front",
    "glPolygonOffset": "offset",
    "glLineWidth": "line_width",
    "glPointSize": "point_size",
    "glListBase": "list_base",
}

# glPushAttrib's bits: what stands under each, and what glEnable takes of it
GROUPS: dict[int, tuple[set[str], set[int]]] = {
    0x2: ({"point_size"}, {gl.POINT_SMOOTH}),
    0x4: ({"line_width"}, {gl.LINE_SMOOTH, gl.LINE_STIPPLE}),
    0x8: (
        {"cull", "front", "fill", "offset"},
        {gl.CULL_FACE, gl.POLYGON_SMOOTH, gl.POLYGON_STIPPLE, gl.OFFSET_POINT, gl.OFFSET_LINE, gl.OFFSET_FILL},
    ),
    0x40: (set(), {gl.LIGHTING, gl.COLOR_MATERIAL, *gl.LIGHTS}),
    0x80: (set(), {gl.FOG}),
    0x100: ({"depth_function", "depth_mask", "clear_depth"}, {gl.DEPTH_TEST}),
    0x400: (set(), {gl.STENCIL_TEST}),
    0x800: ({"viewport", "depth_range"}, set()),
    0x1000: ({"planes"}, {gl.NORMALIZE, *gl.CLIP_PLANES}),
    0x4000: (
        {"mask", "clear_colour", "blend", "equation", "constant"},
        {gl.ALPHA_TEST, gl.BLEND, gl.DITHER, gl.COLOR_LOGIC_OP},
    ),
    0x20000: ({"list_base"}, set()),
    0x40000: (set(), gl.TEXTURES),
    0x80000: ({"scissor"}, {gl.SCISSOR_TEST}),
}
ENABLE_BIT = 0x2000


def one_or_all(values: list[Any]) -> Any:
    return values[0] if len(values) == 1 else tuple(values)


def is_setter(name: str) -> bool:
    return name in SETTERS or name in ("glEnable", "glDisable", "glBlendFunc", "glBlendEquation", "glPolygonMode")


def set_by(settings: Settings, call: Call) -> None:
    """Does what one of these calls does."""
    values = call.values()
    if call.name == "glEnable":
        settings.enabled |= {values[0]}
    elif call.name == "glDisable":
        settings.enabled -= {values[0]}
    elif call.name == "glBlendFunc":
        settings.blend = (*values, *values)
    elif call.name == "glBlendEquation":
        settings.equation = (values[0], values[0])
    elif call.name == "glPolygonMode":
        face, mode = values
        settings.fill = (settings.fill[0] if face == gl.BACK else mode, settings.fill[1] if face == gl.FRONT else mode)
    else:
        setattr(settings, SETTERS[call.name], one_or_all(values))


def restored(now: Settings, then: Settings, mask: int) -> Settings:
    """The state after glPopAttrib: what the bits of glPushAttrib name is as it was then, the rest as it is now."""
    changes: dict[str, Any] = {}
    switches: set[int] = set()
    for bit, (names, those) in GROUPS.items():
        if mask & bit:
            changes.update({name: getattr(then, name) for name in names})
            switches |= those
    enabled = then.enabled if mask & ENABLE_BIT else (now.enabled - switches) | (then.enabled & switches)
    return replace(now, **changes, enabled=enabled)
