"""A capture's events, drawn by a driver. Positions are whole numbers of 1/256 pixel below 2^22, and the viewport is
a power of two, so each arrives where triangles are drawn without rounding."""
import array
import ctypes
from collections.abc import Callable, Sequence
from dataclasses import dataclass
from typing import Any

from captures import Event
from rules.snapping import snap
from rules.states import AT_START

from . import mapping, opengl
from .egl import Context
from .faults import NoDriver
from .opengl import Functions, program_of
from .target import Target

HEADS = {
    "gl": "#version 330 core",
    "vulkan": "#version 330 core",
    "es": "#version 300 es\nprecision highp float; precision highp int;",
}
VERTEX = """{head}
layout(location = 0) in vec3 place; layout(location = 1) in vec4 given;
{kind} out vec4 colour;
void main() {{ gl_Position = vec4(place, 1.0); colour = given; }}"""
FRAGMENT = """{head}
{kind} in vec4 colour; layout(location = 0) out vec4 drawn;
void main() {{ drawn = colour; }}"""
ATTRIBUTES = ((3, opengl.FLOAT, 0), (4, opengl.UNSIGNED_BYTE, 1))  # place and colour of a corner


@dataclass(frozen=True)
class Way:
    """How a driver is asked to draw."""

    api: str = "gl"  # gl, es or vulkan
    device: int | None = None  # EGL's, counted from 0
    viewport: int | str = 4096  # a power of two, or "target"
    linear: str = "smooth"  # or noperspective, which is the same as w is 1
    convention: str = (
        "first"  # whose colour a flat triangle has; turned: corners are turned so that the first is the last
    )


class Player:
    """A driver with a target. Positions are snapped before the driver gets them, unless `is_raw`."""

    def __init__(self, width: int, height: int, way: Way = Way()) -> None:
        self.way, self.is_raw, self.context = way, False, Context(way.api, way.device)
        self.gl = gl = Functions(self.context)
        if way.api == "vulkan" and not gl.text(opengl.RENDERER).startswith("zink"):
            raise NoDriver(
                "Vulkan is drawn with by Mesa's zink, which isn't there: mesa-vulkan-drivers is wanted, or a "
                "card's driver of Vulkan"
            )
        self.is_turned = way.convention == "turned" or way.api == "es" or not gl.ProvokingVertex
        if not self.is_turned:
            gl.ProvokingVertex(opengl.FIRST_VERTEX)
        self.is_zero_to_one = bool(gl.ClipControl) and way.api != "es" and "GL_ARB_clip_control" in gl.extensions()
        if self.is_zero_to_one:
            gl.ClipControl(opengl.LOWER_LEFT, opengl.ZERO_TO_ONE)
        head = HEADS[way.api]
        kinds = {
            "flat": "flat",
            "linear": "noperspective" if way.linear == "noperspective" and way.api != "es" else "smooth",
        }
        self.programs = {
            interp: program_of(gl, *(text.format(head=head, kind=kind) for text in (VERTEX, FRAGMENT)))
            for interp, kind in kinds.items()
        }
        self.target = Target(gl, head, has_to_draw=way.api == "es")
        self._buffers()
        gl.Disable(opengl.DITHER)
        gl.PixelStorei(opengl.PACK_ALIGNMENT, 1)
        gl.PixelStorei(opengl.UNPACK_ALIGNMENT, 1)
        self.resize(width, height)

    def _buffers(self) -> None:
        gl = self.gl
        gl.BindVertexArray(gl.made("VertexArrays"))
        self.buffers = [gl.made("Buffers") for _ in range(3)]
        for number, (size, kind, is_normalised) in enumerate(ATTRIBUTES):
            gl.BindBuffer(opengl.ARRAY_BUFFER, self.buffers[number])
            gl.VertexAttribPointer(number, size, kind, is_normalised, 0, None)
            gl.EnableVertexAttribArray(number)
        gl.BindBuffer(opengl.ELEMENT_ARRAY_BUFFER, self.buffers[2])

    def close(self) -> None:
        self.context.close()

    def resize(self, width: int, height: int) -> None:
        """A fresh target, perhaps of another size."""
        if (width, height) != (self.target.width, self.target.height):
            self.target.resize(width, height)
        most = min(self.gl.integers(opengl.MAX_VIEWPORT_DIMS, 2))
        self.box = mapping.viewport(width, height, self.way.viewport, 1 << most.bit_length() - 1)
        self._set_viewport()
        self.restart()

    def _set_viewport(self) -> None:
        self.gl.Viewport(*self.box)
        became = tuple(self.gl.integers(opengl.VIEWPORT, 4))
        if became != tuple(self.box):
            raise NoDriver(
                f"the driver makes of the viewport {' '.join(map(str, self.box))} {' '.join(map(str, became))}"
            )

    def named(self) -> dict[str, Any]:
        """What the driver says that it is."""
        gl = self.gl
        return {
            "renderer": gl.text(opengl.RENDERER),
            "version": gl.text(opengl.VERSION),
            "subpixel_bits": gl.integer(opengl.SUBPIXEL_BITS),
        }

    def check(self) -> None:
        """Ends it where OpenGL has noted an error."""
        error = self.gl.GetError()
        if error:
            raise NoDriver(f"the driver notes the error {error:#x} of OpenGL")

    # ---- Events
    def restart(self) -> None:
        """A fresh target and the states at the start."""
        self.states = dict(AT_START)
        self.apply({"kind": "clear", "color": [0, 0, 0, 0]})
        self.apply({"kind": "depth_clear", "depth": mapping.DEEPEST})
        self._set_states()

    def apply(self, event: Event) -> None:
        kind = event["kind"]
        if kind in self.states:
            self.states[kind] = event
            self._set_states(kind)
        elif kind != "marker":
            getattr(self, kind)(event)

    def _set_states(self, *kinds: str) -> None:
        for kind in kinds or self.states:
            getattr(self, f"_set_{kind}")(self.states[kind])

    def _switch(self, what: int, is_on: bool) -> None:
        (self.gl.Enable if is_on else self.gl.Disable)(what)

    def _set_raster(self, state: Event) -> None:
        self._switch(opengl.CULL_FACE, state["cull"] != "none")
        if state["cull"] != "none":
            self.gl.CullFace(mapping.CULLED[state["cull"]])
        self.gl.FrontFace(mapping.FRONT_FACES[state["front_ccw"]])
        self._switch(opengl.SCISSOR_TEST, state["scissor"])

    def _set_scissor(self, state: Event) -> None:
        self.gl.Scissor(*mapping.scissor_of(state["rect"], self.target.width, self.target.height))

    def _set_blend(self, state: Event) -> None:
        (source, there, operation), (alpha_source, alpha_there, alpha_operation) = state["rgb"], state["alpha"]
        self._switch(opengl.BLEND, state["enable"])
        self.gl.BlendFuncSeparate(*(mapping.FACTORS[name] for name in (source, there, alpha_source, alpha_there)))
        self.gl.BlendEquationSeparate(mapping.OPERATIONS[operation], mapping.OPERATIONS[alpha_operation])
        self.gl.ColorMask(*(state["mask"] >> channel & 1 for channel in range(4)))

    def _set_factor(self, state: Event) -> None:
        self.gl.BlendColor(*(byte / 255 for byte in state["color"]))

    def _set_depth(self, state: Event) -> None:
        self._switch(opengl.DEPTH_TEST, state["enable"])
        self.gl.DepthMask(state["write"])
        self.gl.DepthFunc(mapping.FUNCTIONS[state["func"]])

    def clear(self, event: Event) -> None:
        """OpenGL's clears obey scissor and mask, a capture's don't."""
        self.gl.Disable(opengl.SCISSOR_TEST)
        self.gl.ColorMask(1, 1, 1, 1)
        self.gl.ClearBufferfv(opengl.COLOR, 0, (ctypes.c_float * 4)(*(byte / 255 for byte in event["color"])))
        self._set_states("raster", "blend")

    def depth_clear(self, event: Event) -> None:
        self.gl.Disable(opengl.SCISSOR_TEST)
        self.gl.DepthMask(1)
        self.gl.ClearBufferfv(opengl.DEPTH, 0, (ctypes.c_float * 1)(event["depth"] / mapping.DEEPEST))
        self._set_states("raster", "depth")

    def draw(self, event: Event) -> None:
        gl, vertices, order = self.gl, event["vertices"], event.get("indices")
        count = len(vertices if order is None else order) // 3 * 3
        if not count:
            return
        if self.is_turned and event["interp"] == "flat":
            order = mapping.last_first(list(range(count)) if order is None else order[:count])
        gl.UseProgram(self.programs[event["interp"]])
        self._fill(opengl.ARRAY_BUFFER, 0, self._places(vertices).tobytes())
        self._fill(opengl.ARRAY_BUFFER, 1, bytes(byte for vertex in vertices for byte in vertex["color"]))
        if order is None:
            gl.DrawArrays(opengl.TRIANGLES, 0, count)
        else:
            self._fill(opengl.ELEMENT_ARRAY_BUFFER, 2, array.array("I", order[:count]).tobytes())
            gl.DrawElements(opengl.TRIANGLES, count, opengl.UNSIGNED_INT, None)

    def _places(self, vertices: Sequence[dict[str, Any]]) -> "array.array[float]":
        """The corners in clip space: half the viewport from its middle is 1."""
        half_x, half_y = self.box.width / 2, self.box.height / 2
        middle_x, middle_y = self.box.left + half_x, self.box.top + half_y
        unit = mapping.SNAPPED
        snapped: Callable[[int], int] = snap
        if self.is_raw:
            unit, snapped = mapping.FRACTIONS, int
        places = array.array("f")
        for vertex in vertices:
            depth = vertex.get("z", 0) / mapping.DEEPEST
            places.extend(
                (
                    (snapped(vertex["x"]) / unit - middle_x) / half_x,
                    (snapped(vertex["y"]) / unit - middle_y) / half_y,
                    depth if self.is_zero_to_one else 2 * depth - 1,
                )
            )
        return places

    def _fill(self, kind: int, number: int, data: bytes) -> None:
        self.gl.BindBuffer(kind, self.buffers[number])
        self.gl.BufferData(kind, len(data), data, opengl.STREAM_DRAW)

    # ---- Pixels
    def colours(self) -> bytes:
        return self.target.colours()

    def depths(self) -> "array.array[int]":
        words = self.target.depths()
        if self.target.other:
            self._set_viewport()
            self._set_states()
        return words

    def put(self, colours: bytes | None = None, depths: bytes | None = None) -> None:
        """Sets the target's pixels, so that the next event is judged by itself."""
        self.target.put(colours, depths)
