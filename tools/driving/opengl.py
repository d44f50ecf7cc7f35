"""OpenGL's functions and numbers, as far as a capture wants them (OpenGL 3.3, OpenGL ES 3.0)."""
import ctypes
from ctypes import byref, c_char_p, c_float, c_int, c_ubyte, c_uint, c_void_p
from typing import TYPE_CHECKING, Any

from .egl import Context
from .faults import NoDriver

# what is bound, and of what kind it is
TEXTURE_2D, FRAMEBUFFER, COLOR_ATTACHMENT0, DEPTH_ATTACHMENT, FRAMEBUFFER_COMPLETE = (
    0xDE1,
    0x8D40,
    0x8CE0,
    0x8D00,
    0x8CD5,
)
ARRAY_BUFFER, ELEMENT_ARRAY_BUFFER, STREAM_DRAW, TRIANGLES = 0x8892, 0x8893, 0x88E0, 4
RGBA, RGBA8, DEPTH_COMPONENT, DEPTH_COMPONENT16 = 0x1908, 0x8058, 0x1902, 0x81A5
UNSIGNED_BYTE, UNSIGNED_SHORT, UNSIGNED_INT, FLOAT = 0x1401, 0x1403, 0x1405, 0x1406
MIN_FILTER, MAG_FILTER, NEAREST, UNPACK_ALIGNMENT, PACK_ALIGNMENT = 0x2801, 0x2800, 0x2600, 0xCF5, 0xD05
VERTEX_SHADER, FRAGMENT_SHADER, COMPILE_STATUS, LINK_STATUS = 0x8B31, 0x8B30, 0x8B81, 0x8B82
# state
SCISSOR_TEST, CULL_FACE, BLEND, DEPTH_TEST, DITHER = 0xC11, 0xB44, 0xBE2, 0xB71, 0xBD0
FRONT, BACK, CW, CCW = 0x404, 0x405, 0x900, 0x901
COLOR, DEPTH = 0x1800, 0x1801  # of glClearBuffer
FIRST_VERTEX, LOWER_LEFT, ZERO_TO_ONE = 0x8E4D, 0x8CA1, 0x935F
# what can be asked
RENDERER, VERSION, EXTENSIONS, NUM_EXTENSIONS = 0x1F01, 0x1F02, 0x1F03, 0x821D
MAX_TEXTURE_SIZE, MAX_VIEWPORT_DIMS, VIEWPORT, SUBPIXEL_BITS = 0xD33, 0xD3A, 0xBA2, 0xD50

u, i, f, p = c_uint, c_int, c_float, c_void_p
# by their names without gl: what they take, and what they give
FUNCTIONS: dict[str, tuple[tuple[Any, ...], Any]] = {
    "GetError": ((), u),
    "GetString": ((u,), c_char_p),
    "GetStringi": ((u, u), c_char_p),
    "GetIntegerv": ((u, p), None),
    "Viewport": ((i, i, i, i), None),
    "Scissor": ((i, i, i, i), None),
    "Enable": ((u,), None),
    "Disable": ((u,), None),
    "CullFace": ((u,), None),
    "FrontFace": ((u,), None),
    "ColorMask": ((c_ubyte,) * 4, None),
    "DepthMask": ((c_ubyte,), None),
    "DepthFunc": ((u,), None),
    "BlendFuncSeparate": ((u,) * 4, None),
    "BlendEquationSeparate": ((u, u), None),
    "BlendColor": ((f,) * 4, None),
    "ClearBufferfv": ((u, i, p), None),
    "PixelStorei": ((u, i), None),
    "ReadPixels": ((i, i, i, i, u, u, p), None),
    "GenTextures": ((i, p), None),
    "BindTexture": ((u, u), None),
    "DeleteTextures": ((i, p), None),
    "TexImage2D": ((u, i, i, i, i, i, u, u, p), None),
    "TexSubImage2D": ((u, i, i, i, i, i, u, u, p), None),
    "TexParameteri": ((u, u, i), None),
    "GenFramebuffers": ((i, p), None),
    "BindFramebuffer": ((u, u), None),
    "FramebufferTexture2D": ((u, u, u, u, i), None),
    "CheckFramebufferStatus": ((u,), u),
    "CreateShader": ((u,), u),
    "ShaderSource": ((u, i, p, p), None),
    "CompileShader": ((u,), None),
    "GetShaderiv": ((u, u, p), None),
    "GetShaderInfoLog": ((u, i, p, p), None),
    "CreateProgram": ((), u),
    "AttachShader": ((u, u), None),
    "LinkProgram": ((u,), None),
    "GetProgramiv": ((u, u, p), None),
    "UseProgram": ((u,), None),
    "GenVertexArrays": ((i, p), None),
    "BindVertexArray": ((u,), None),
    "GenBuffers": ((i, p), None),
    "BindBuffer": ((u, u), None),
    "BufferData": ((u, c_void_p, p, u), None),
    "VertexAttribPointer": ((u, i, u, c_ubyte, i, p), None),
    "EnableVertexAttribArray": ((u,), None),
    "DrawArrays": ((u, i, i), None),
    "DrawElements": ((u, i, u, p), None),
}
OPTIONAL: dict[str, tuple[tuple[Any, ...], Any]] = {"ProvokingVertex": ((u,), None), "ClipControl": ((u, u), None)}


class Functions:
    """The functions of a context: `functions.DrawArrays(..)` is glDrawArrays. Those that a driver need not have may
    be None."""

    if TYPE_CHECKING:

        def __getattr__(self, name: str) -> Any: ...

    def __init__(self, context: Context) -> None:
        for name, (arguments, gives) in {**FUNCTIONS, **OPTIONAL}.items():
            found = context.function(f"gl{name}", arguments, gives)
            if not found and name in FUNCTIONS:
                raise NoDriver(f"the driver has no gl{name}")
            setattr(self, name, found)

    def integer(self, name: int) -> int:
        return self.integers(name, 1)[0]

    def integers(self, name: int, count: int) -> list[int]:
        found = (c_int * max(count, 4))()
        self.GetIntegerv(name, found)
        return list(found[:count])

    def text(self, name: int) -> str:
        return (self.GetString(name) or b"").decode("utf-8", "replace")

    def made(self, what: str) -> int:
        """The name of one more object: of "Textures", "Buffers", and so on."""
        name = c_uint()
        getattr(self, f"Gen{what}")(1, byref(name))
        return name.value

    def extensions(self) -> set[str]:
        return {self.GetStringi(EXTENSIONS, number).decode() for number in range(self.integer(NUM_EXTENSIONS))}


def program_of(gl: Functions, vertex: str, fragment: str) -> int:
    """A linked program of two shaders' texts."""
    made = gl.CreateProgram()
    for kind, text in ((VERTEX_SHADER, vertex), (FRAGMENT_SHADER, fragment)):
        shader, source, done = gl.CreateShader(kind), c_char_p(text.encode()), c_int()
        gl.ShaderSource(shader, 1, byref(source), None)
        gl.CompileShader(shader)
        gl.GetShaderiv(shader, COMPILE_STATUS, byref(done))
        if not done.value:
            said = ctypes.create_string_buffer(2000)
            gl.GetShaderInfoLog(shader, len(said), None, said)
            raise NoDriver(f"the driver compiles no shader: {said.value.decode('utf-8', 'replace').strip()}")
        gl.AttachShader(made, shader)
    linked = c_int()
    gl.LinkProgram(made)
    gl.GetProgramiv(made, LINK_STATUS, byref(linked))
    if not linked.value:
        raise NoDriver("the driver links no shaders")
    return made
