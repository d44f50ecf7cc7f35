"""The stacks of matrices of a context."""
from collections.abc import Callable, Sequence
from typing import Any

from . import matrices
from . import numbers as gl
from .matrices import Matrix

MAKERS: dict[str, Callable[..., Matrix]] = {
    "glTranslate": matrices.translation,
    "glScale": matrices.scaling,
    "glRotate": matrices.rotation,
    "glFrustum": matrices.frustum,
    "glOrtho": matrices.ortho,
}
CALLS = {
    "glMatrixMode",
    "glPushMatrix",
    "glPopMatrix",
    "glLoadIdentity",
    "glLoadMatrix",
    "glMultMatrix",
    "glLoadTransposeMatrix",
    "glMultTransposeMatrix",
    *MAKERS,
}


def plain(name: str) -> str:
    """Without the letter of its numbers' type: glTranslatef and glTranslated are glTranslate."""
    return name[:-1] if name[-1:] in "fd" and name[:-1] in CALLS else name


class Stacks:
    def __init__(self) -> None:
        self.mode = gl.MODELVIEW
        self.stacks: dict[int, list[Matrix]] = {}

    def stack(self, mode: int) -> list[Matrix]:
        return self.stacks.setdefault(mode, [matrices.IDENTITY])

    def top(self, mode: int) -> Matrix:
        return self.stack(mode)[-1]

    def do(self, name: str, values: Sequence[Any]) -> None:
        """One of CALLS."""
        stack = self.stack(self.mode)
        if name == "glMatrixMode":
            self.mode = values[0]
        elif name == "glPushMatrix":
            stack.append(stack[-1])
        elif name == "glPopMatrix":
            if len(stack) > 1:
                stack.pop()
        elif name == "glLoadIdentity":
            stack[-1] = matrices.IDENTITY
        elif name in ("glLoadMatrix", "glLoadTransposeMatrix"):
            stack[-1] = self.given(name, values)
        elif name in ("glMultMatrix", "glMultTransposeMatrix"):
            stack[-1] = matrices.multiplied(stack[-1], self.given(name, values))
        else:
            stack[-1] = matrices.multiplied(stack[-1], MAKERS[name](*values))

    @staticmethod
    def given(name: str, values: Sequence[float]) -> Matrix:
        return matrices.transposed(values) if "Transpose" in name else tuple(values)
