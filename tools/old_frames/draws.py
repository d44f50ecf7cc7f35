"""What draws give: vertices in the program's own coordinates, and from those primitives in clip space."""
import operator
from collections.abc import Iterable, Sequence
from dataclasses import dataclass, field
from typing import TYPE_CHECKING, Any

from real_frames.clipping import cut

from . import matrices
from . import numbers as gl
from .arrays import Arrays, Place
from .calls import Call
from .matrices import Matrix, Vertex
from .settings import Settings
from .shapes import shapes
from .stacks import Stacks

if TYPE_CHECKING:
    from .machine import Machine

Words = dict[str, Any]  # of a call
Part = tuple[int, list[Vertex] | None]  # a mode, and vertices where there are such
Primitive = tuple[tuple[int, int], tuple[tuple[float, ...], ...]]  # (0, number), three, two or one corners

LISTED = "a draw of arrays in a list"
OWN_SHADER = "a vertex shader of its own, which isn't worked out"
NO_VERTICES = "vertices that aren't in the arrays"


@dataclass
class Done:
    """What a call did. The corners of primitives are in clip space."""

    number: int
    name: str
    kind: str  # draw, clear, copy or marker
    target: int
    settings: Settings = field(default_factory=Settings)
    mode: int = 0
    primitives: list[Primitive] = field(default_factory=list)
    trouble: str = ""
    buffers: int = 0  # glClear's
    matrices: tuple[Matrix, Matrix] = (matrices.IDENTITY, matrices.IDENTITY)  # projection and modelview


def padded(values: Sequence[float]) -> Vertex:
    """Two, three or four coordinates as four."""
    return tuple(values) + (0.0, 0.0, 0.0, 1.0)[len(values) :]


def rectangle(values: Sequence[Any]) -> list[Vertex]:
    """The four corners of glRect."""
    (left, bottom), (right, top) = values if len(values) == 2 else (values[:2], values[2:])
    return [padded(corner) for corner in ((left, bottom), (right, bottom), (right, top), (left, top))]


def of_arrays(words: Words, arrays: Arrays) -> list[Part]:
    return [(words["mode"], arrays.vertices(range(words["first"], words["first"] + words["count"])))]


def of_elements(words: Words, arrays: Arrays) -> list[Part]:
    return [element_part(words, arrays, words["count"], words["indices"], words.get("basevertex", 0))]


def element_part(words: Words, arrays: Arrays, count: int, place: Place, base: int = 0) -> Part:
    numbers = arrays.indices(count, words["type"], place)
    return words["mode"], None if numbers is None else arrays.vertices([number + base for number in numbers])


def of_many_arrays(words: Words, arrays: Arrays) -> list[Part]:
    return [
        (words["mode"], arrays.vertices(range(first, first + count)))
        for first, count in zip(words["first"], words["count"])
    ]


def of_many_elements(words: Words, arrays: Arrays) -> list[Part]:
    return [element_part(words, arrays, count, place) for count, place in zip(words["count"], words["indices"])]


READERS = {
    "glDrawArrays": of_arrays,
    "glDrawElements": of_elements,
    "glDrawRangeElements": of_elements,
    "glDrawElementsBaseVertex": of_elements,
    "glMultiDrawArrays": of_many_arrays,
    "glMultiDrawElements": of_many_elements,
}


def parts(call: Call, arrays: Arrays) -> list[Part]:
    """Those of a draw of arrays."""
    return call.words["parts"] if call.name == LISTED else READERS[call.name](call.words, arrays)


def done(machine: "Machine", call: Call, name: str, some: Iterable[Part]) -> list[Done]:
    """A Done for each mode of the parts, with what the context is at."""
    found: list[Done] = []
    for mode, vertices in some:
        one = Done(
            call.number,
            f"{name}({gl.MODE_NAMES.get(mode, mode)})",
            "draw",
            machine.target,
            machine.settings.copy(),
            mode,
            matrices=(machine.stacks.top(gl.PROJECTION), machine.stacks.top(gl.MODELVIEW)),
        )
        if machine.shared.programs.has_own_vertices(machine.program) or gl.VERTEX_PROGRAM in machine.settings.enabled:
            one.trouble = OWN_SHADER
        elif vertices is None:
            one.trouble = NO_VERTICES
        else:
            one.primitives = primitives(mode, vertices, machine.stacks, machine.settings.clip_planes())
        if found and (found[-1].mode, found[-1].trouble) == (mode, one.trouble):
            last = len(found[-1].primitives)
            found[-1].primitives += [((0, last + number), corners) for (_, number), corners in one.primitives]
        else:
            found.append(one)
    return found


def primitives(mode: int, vertices: Sequence[Vertex], stacks: Stacks, planes: Sequence[Vertex]) -> list[Primitive]:
    """A draw's primitives in clip space, cut at the program's own planes."""
    projection, view = stacks.top(gl.PROJECTION), stacks.top(gl.MODELVIEW)
    whole = matrices.multiplied(projection, view)
    placed = [matrices.applied(whole, vertex) for vertex in vertices]
    if planes:
        eyes = [matrices.applied(view, vertex) for vertex in vertices]
        placed = [
            corner + tuple(sum(p * e for p, e in zip(plane, eye)) for plane in planes)
            for corner, eye in zip(placed, eyes)
        ]
    found: list[Primitive] = []
    for primitive, numbers in shapes(mode, len(vertices)):
        for corners in within([placed[number] for number in numbers], len(planes)):
            found.append(((0, primitive), tuple(corner[:4] for corner in corners)))
    return found


def within(corners: list[tuple[float, ...]], planes: int) -> list[list[tuple[float, ...]]]:
    """The parts of a primitive whose distances from all planes, which its corners have from the fifth number on, are
    at least zero."""
    for number in range(planes):
        inside = [corner[4 + number] >= 0 for corner in corners]
        if not any(inside):
            return []
        if not all(inside):
            corners = cut(corners, operator.itemgetter(4 + number))
            corners = corners[:2] if len(inside) == 2 else corners
    if len(corners) <= 3:
        return [corners]
    return [[corners[0], corners[i], corners[i + 1]] for i in range(1, len(corners) - 1)]
