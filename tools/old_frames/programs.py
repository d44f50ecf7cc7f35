"""Which programs have a vertex shader that places vertices otherwise than fixed function does."""
import re

from . import numbers as gl
from .calls import Call

AS_FIXED = re.compile(r"gl_Position\s*=\s*(ftransform\s*\(\s*\)|gl_ModelViewProjectionMatrix\s*\*\s*gl_Vertex)\s*;")


class Programs:
    def __init__(self) -> None:
        self.own: dict[int, bool] = {}  # of a shader whether it is one of vertices that has its own way
        self.kinds: dict[int, int] = {}
        self.attached: dict[int, set[int]] = {}

    def do(self, call: Call) -> bool:
        """Does a call on shaders or programs; whether it was one."""
        words = list(call.words.values())
        if call.name in ("glCreateShader", "glCreateShaderObject"):
            self.kinds[call.result] = words[0]
        elif call.name == "glShaderSource":
            text = "".join(map(str, words[2])) if isinstance(words[2], (list, tuple)) else str(words[2])
            self.own[words[0]] = not AS_FIXED.search(text)
        elif call.name in ("glAttachShader", "glAttachObject"):
            self.attached.setdefault(words[0], set()).add(words[1])
        elif call.name in ("glDetachShader", "glDetachObject"):
            pass  # a linked program stays as it was linked
        else:
            return False
        return True

    def has_own_vertices(self, program: int) -> bool:
        return any(
            self.kinds.get(shader) == gl.VERTEX_SHADER and self.own.get(shader, True)
            for shader in self.attached.get(program, ())
        )
