"""The target of a driver: eight bits of each colour and sixteen of depth, that can be read and set."""
import array
import ctypes

from . import opengl
from .faults import NoDriver
from .opengl import Functions, program_of

# Depths are drawn as two bytes where they can't be read
WHOLE = """{head}
void main() {{ gl_Position = vec4(gl_VertexID == 1 ? 3.0 : -1.0, gl_VertexID == 2 ? 3.0 : -1.0, 0.0, 1.0); }}"""
TWO_BYTES = """{head}
uniform highp sampler2D depths; layout(location = 0) out vec4 bytes;
void main() {{
    int depth = int(texelFetch(depths, ivec2(gl_FragCoord.xy), 0).r * 65535.0 + 0.5);
    bytes = vec4(float(depth / 256), float(depth % 256), 0.0, 0.0) / 255.0;
}}"""


class Target:
    """A framebuffer with a texture of colours and one of depths. `head` is the first line of shaders; `has_to_draw`
    says that depths can't be read."""

    def __init__(self, gl: Functions, head: str, has_to_draw: bool) -> None:
        self.gl, self.width, self.height = gl, 0, 0
        self.frame = gl.made("Framebuffers")
        self.textures: list[int] = []
        self.other = gl.made("Framebuffers") if has_to_draw else None
        self.program = program_of(gl, WHOLE.format(head=head), TWO_BYTES.format(head=head)) if has_to_draw else None

    def resize(self, width: int, height: int) -> None:
        """Another size, with pixels of any colour."""
        gl = self.gl
        most = gl.integer(opengl.MAX_TEXTURE_SIZE)
        if max(width, height) > most:
            raise NoDriver(
                f"the driver's textures have at most {most} pixels a side, and the target is {width} by {height}"
            )
        if self.textures:
            gl.DeleteTextures(len(self.textures), (ctypes.c_uint * len(self.textures))(*self.textures))
        self.width, self.height = width, height
        colours, depths = self._texture(opengl.RGBA8), self._texture(opengl.DEPTH_COMPONENT16)
        self.textures = [colours, depths]
        self._attach(self.frame, {opengl.COLOR_ATTACHMENT0: colours, opengl.DEPTH_ATTACHMENT: depths})
        if self.other:
            self.textures.append(self._texture(opengl.RGBA8))
            self._attach(self.other, {opengl.COLOR_ATTACHMENT0: self.textures[-1]})
            gl.BindFramebuffer(opengl.FRAMEBUFFER, self.frame)

    def _texture(self, kind: int) -> int:
        gl, name = self.gl, self.gl.made("Textures")
        gl.BindTexture(opengl.TEXTURE_2D, name)
        gl.TexImage2D(opengl.TEXTURE_2D, 0, kind, self.width, self.height, 0, *self._form(kind), None)
        for filter_ in (opengl.MIN_FILTER, opengl.MAG_FILTER):
            gl.TexParameteri(opengl.TEXTURE_2D, filter_, opengl.NEAREST)
        return name

    def _form(self, kind: int) -> tuple[int, int]:
        is_colour = kind == opengl.RGBA8
        return (opengl.RGBA, opengl.UNSIGNED_BYTE) if is_colour else (opengl.DEPTH_COMPONENT, opengl.UNSIGNED_SHORT)

    def _attach(self, frame: int, textures: dict[int, int]) -> None:
        self.gl.BindFramebuffer(opengl.FRAMEBUFFER, frame)
        for attachment, name in textures.items():
            self.gl.FramebufferTexture2D(opengl.FRAMEBUFFER, attachment, opengl.TEXTURE_2D, name, 0)
        if self.gl.CheckFramebufferStatus(opengl.FRAMEBUFFER) != opengl.FRAMEBUFFER_COMPLETE:
            raise NoDriver("the driver has no target of RGBA8 and 16 bits of depth")

    # ---- Reading and setting
    def colours(self) -> bytes:
        """Red, green, blue and alpha of each pixel, row by row from the top."""
        data = ctypes.create_string_buffer(4 * self.width * self.height)
        self.gl.ReadPixels(0, 0, self.width, self.height, opengl.RGBA, opengl.UNSIGNED_BYTE, data)
        return data.raw

    def depths(self) -> "array.array[int]":
        """The depth of each pixel, a word of 16 bits, in the same order."""
        if self.other:
            return self._drawn_depths()
        words = array.array("H", bytes(2 * self.width * self.height))
        room = (ctypes.c_uint16 * len(words)).from_buffer(words)
        self.gl.ReadPixels(0, 0, self.width, self.height, opengl.DEPTH_COMPONENT, opengl.UNSIGNED_SHORT, room)
        return words

    def _drawn_depths(self) -> "array.array[int]":
        """The same, drawn on another target with nothing but a scissor that is off; the caller sets its state anew."""
        gl = self.gl
        for what in (opengl.SCISSOR_TEST, opengl.CULL_FACE, opengl.BLEND, opengl.DEPTH_TEST):
            gl.Disable(what)
        gl.ColorMask(1, 1, 1, 1)
        gl.BindFramebuffer(opengl.FRAMEBUFFER, self.other)
        gl.Viewport(0, 0, self.width, self.height)
        gl.BindTexture(opengl.TEXTURE_2D, self.textures[1])
        gl.UseProgram(self.program)
        gl.DrawArrays(opengl.TRIANGLES, 0, 3)
        four = self.colours()
        gl.BindFramebuffer(opengl.FRAMEBUFFER, self.frame)
        return array.array("H", [high << 8 | low for high, low in zip(four[0::4], four[1::4])])

    def put(self, colours: bytes | None = None, depths: bytes | None = None) -> None:
        """Sets all colours or all depths, whatever the state."""
        for texture, kind, data in zip(self.textures, (opengl.RGBA8, opengl.DEPTH_COMPONENT16), (colours, depths)):
            if data is not None:
                self.gl.BindTexture(opengl.TEXTURE_2D, texture)
                self.gl.TexSubImage2D(
                    opengl.TEXTURE_2D, 0, 0, 0, self.width, self.height, *self._form(kind), bytes(data)
                )
