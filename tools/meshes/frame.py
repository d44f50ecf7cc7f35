"""The events that draw a model: a backdrop, and each part with its state; and the bugs that may be planted in one of
them."""
from collections.abc import Iterator, Sequence
from dataclasses import dataclass
from typing import Any

import captures
from captures import FARTHEST, MOST_TRIANGLES, PIXEL, Event, blend, clear, draw, raster, scissor

from .camera import depth_of, lit, looked_at, normal
from .model import Face, Fault, Model, Point

Part = tuple[str, bool, list[Face]]  # its name, whether it is opaque, and its faces
Vertex = dict[str, Any]

LAYERS = 24
OFF = blend(False)
OVER = blend(True, ["SRC_ALPHA", "INV_SRC_ALPHA", "ADD"], ["ONE", "INV_SRC_ALPHA", "ADD"])
ADDED = blend(True, ["ONE", "ONE", "ADD"], ["ZERO", "ONE", "ADD"])
# What may be planted: in a part and those after it, or in the part alone
BUGS = {
    "blend": "the part is added to what is behind it, and that is never taken back",
    "mask": "the part writes red alone, and so does all after it",
    "scissor": "from the part on, half of the target is cut off",
    "winding": "back faces are culled, and the part's corners run the wrong way round",
    "order": "the part's triangles come from the nearest to the farthest",
    "flat": "the part is shaded flat where the others are smooth, or the other way round",
    "index": "the part's corners slip by one, from its middle on",
    "depth": "the part's depth test is turned round (with --depth)",
}


@dataclass
class Look:
    size: tuple[int, int]  # of the target
    view: tuple[float, float]  # degrees round the model and above it
    by: str = "part"  # what is drawn from far to near: part, or depth
    smooth: bool = False
    depth: bool = False  # a capture of version 2, whose test hides what is behind
    bug: str = ""
    part: int = 0  # where the bug is, from 1


def capture(model: Model, look: Look) -> dict[str, Any]:
    width, height = look.size
    seen, placed = looked_at(model.points, width, height, *look.view)
    events = [marker("backdrop"), clear(0, 0, 0, 255), backdrop(width, height, look.depth)]
    events.append(raster("back" if look.bug == "winding" else "none"))
    if look.depth:
        events.append(depth("LESS"))
    state, parts = OFF, parts_of(model.faces, placed, look.by)
    if look.bug and not 1 <= look.part <= len(parts):
        raise Fault(f"it has {len(parts)} parts, so a bug can't be planted in part {look.part}")
    for number, (name, opaque, faces) in enumerate(parts, 1):
        wrong = look.bug if number == look.part else ""
        events.append(marker(name))
        wanted = state_of(look, number, opaque)
        if wanted != state:
            events.append(wanted)
            state = wanted
        events += before(wrong, look) + list(draws(faces, seen, placed, look, wrong)) + after(wrong)
    return captures.frame(width, height, events, 2 if look.depth else 1)


def state_of(look: Look, number: int, opaque: bool) -> Event:
    """The blend state that a part is drawn with; a planted one stays."""
    started = look.part and number >= look.part
    if look.bug == "blend" and started:
        return ADDED
    state = OFF if opaque else OVER
    return {**state, "mask": 1} if look.bug == "mask" and started else state


def before(wrong: str, look: Look) -> list[Event]:
    if wrong == "scissor":
        width, height = look.size
        return [scissor(0, 0, width // 2, height), raster("none", scissor=True)]
    return [depth("GREATER")] if wrong == "depth" else []


def after(wrong: str) -> list[Event]:
    return [depth("LESS")] if wrong == "depth" else []


def depth(function: str) -> Event:
    return captures.depth(func=function)


def parts_of(faces: list[Face], placed: Sequence[Point], by: str) -> list[Part]:
    """The faces in parts, farthest first, and those that aren't opaque last."""

    def distance(face: Face) -> float:
        return -sum(placed[c][2] for c in face[0])

    if by == "depth":
        faces = sorted(faces, key=distance)
        step = max(1, -(-len(faces) // LAYERS))
        return [
            (f"layer {i // step + 1}", all(f[2][3] >= 1 for f in faces[i : i + step]), faces[i : i + step])
            for i in range(0, len(faces), step)
        ]
    named: dict[str, list[Face]] = {}
    for face in faces:
        named.setdefault(face[1], []).append(face)
    parts = [(name, all(f[2][3] >= 1 for f in some), sorted(some, key=distance)) for name, some in named.items()]
    return sorted(parts, key=lambda part: (not part[1], sum(map(distance, part[2])) / len(part[2])))


def draws(
    faces: list[Face], seen: Sequence[Point], placed: Sequence[Point], look: Look, wrong: str
) -> Iterator[Event]:
    normals = corner_normals(faces, seen)
    smooth = look.smooth != (wrong == "flat")
    faces = faces[::-1] if wrong == "order" else faces
    for at in range(0, len(faces), MOST_TRIANGLES):
        vertices = []
        for corners, _, colour in faces[at : at + MOST_TRIANGLES]:
            n = face_normal(corners, seen)
            for c in in_turn(corners, placed, look, wrong):
                shade = lit(colour, normals[c] if look.smooth or wrong == "flat" else n)
                vertices.append(vertex(placed[c], shade, look.depth))
        yield slipped(vertices, wrong) | {"interp": "linear" if smooth else "flat"}


def in_turn(corners: tuple[int, int, int], placed: Sequence[Point], look: Look, wrong: str) -> tuple[int, int, int]:
    """Where back faces are culled, as the model has its corners: counter-clockwise from outside, so turned here,
    where y grows down."""
    if look.bug != "winding":
        return corners
    (ax, ay, _), (bx, by, _), (cx, cy, _) = (placed[c] for c in corners)
    clockwise = (bx - ax) * (cy - ay) - (by - ay) * (cx - ax) > 0
    return corners if clockwise != (wrong == "winding") else (corners[0], corners[2], corners[1])


def slipped(vertices: list[Vertex], wrong: str) -> Event:
    made = draw(vertices)
    if wrong == "index":
        count = len(vertices)
        made["indices"] = [i if i < count // 2 or i % 3 else (i + 4) % count for i in range(count)]
    return made


def face_normal(corners: tuple[int, int, int], seen: Sequence[Point]) -> Point:
    a, b, c = (seen[corner] for corner in corners)
    return normal(a, b, c)


def corner_normals(faces: list[Face], seen: Sequence[Point]) -> dict[int, Point]:
    """The sum of what stands upright on a corner's faces."""
    normals: dict[int, Point] = {}
    for corners, *_ in faces:
        n = face_normal(corners, seen)
        for c in corners:
            x, y, z = normals.get(c, (0, 0, 0))
            normals[c] = x + n[0], y + n[1], z + n[2]
    return normals


def vertex(place: Point, colour: list[int], deep: bool) -> Vertex:
    x, y, distance = place
    return captures.vertex(round(x * PIXEL), round(y * PIXEL), colour, depth_of(distance) if deep else None)


def marker(name: str) -> Event:
    return captures.marker(captures.label(name))


def backdrop(width: int, height: int, deep: bool) -> Event:
    corner = lambda x, y, colour: captures.vertex(x * PIXEL, y * PIXEL, colour, FARTHEST if deep else None)
    up, down = [236, 239, 244, 255], [150, 160, 178, 255]
    a, b, c, d = corner(0, 0, up), corner(width, 0, up), corner(width, height, down), corner(0, height, down)
    return draw([a, b, c, d], "linear", [0, 1, 3, 1, 2, 3])
