"""glTF 2.0 in its binary form (.glb): triangles, base colours, node transforms."""
import collections
import json
import math
import pathlib
import struct
from collections.abc import Iterable, Iterator, Sequence
from typing import Any

from .model import GREY, MOST_POINTS, Colour, Fault, Model, Point, number, read_bytes

Json = dict[str, Any]
Matrix = tuple[float, ...]  # columns one after another, as glTF has them

MAGIC, JSON_CHUNK, BINARY_CHUNK = 0x46546C67, 0x4E4F534A, 0x004E4942
COMPONENTS = {5120: "b", 5121: "B", 5122: "h", 5123: "H", 5125: "I", 5126: "f"}
WIDE = {"SCALAR": 1, "VEC2": 2, "VEC3": 3, "VEC4": 4, "MAT4": 16}
TRIANGLES, STRIP, FAN = 4, 5, 6
MOST_PLACED = 200_000  # primitives, counted at each node that has them
ONE: Matrix = (1, 0, 0, 0, 0, 1, 0, 0, 0, 0, 1, 0, 0, 0, 0, 1)


def read(path: pathlib.Path) -> Model:
    tree, binary = chunks(read_bytes(path))
    try:
        file = File(tree, binary)
        model = Model()
        for mesh, matrix in file.placed():
            file.add_mesh(model, mesh, matrix)
        return model
    except (KeyError, IndexError, TypeError, AttributeError, ValueError, OverflowError, struct.error) as fault:
        raise Fault(f"the JSON doesn't fit the buffer: {type(fault).__name__} {fault}") from None


def chunks(data: bytes) -> tuple[Json, bytes]:
    """The JSON and the binary chunk."""
    if len(data) < 20 or struct.unpack_from("<I", data)[0] != MAGIC:
        raise Fault("a .glb begins with glTF")
    _, version, length = struct.unpack_from("<III", data)
    if version != 2:
        raise Fault(f"version {version}: only glTF 2.0 is read")
    if length != len(data):
        raise Fault(f"the file has {len(data)} bytes, and says {length}: it is cut short or grown")
    found: dict[int, bytes] = {}
    at = 12
    while at + 8 <= length:
        size, kind = struct.unpack_from("<II", data, at)
        if at + 8 + size > length:
            raise Fault("a chunk ends behind the file")
        found.setdefault(kind, data[at + 8 : at + 8 + size])
        at += 8 + size
    try:
        tree = json.loads(found[JSON_CHUNK])
    except (KeyError, ValueError, RecursionError):
        raise Fault("the first chunk is no JSON") from None
    if not isinstance(tree, dict):
        raise Fault("the JSON is no object")
    return tree, found.get(BINARY_CHUNK, b"")


class File:
    def __init__(self, tree: Json, binary: bytes) -> None:
        self.tree, self.binary, self.placed_primitives = tree, binary, 0
        needed = tree.get("extensionsRequired", [])
        if needed:
            raise Fault(f"it needs the extension {needed[0]}")

    def placed(self) -> Iterator[tuple[int, Matrix]]:
        """The meshes of the scene with their matrices; of a file without scenes, the meshes as they are."""
        scenes = self.tree.get("scenes")
        if not scenes:
            yield from ((mesh, ONE) for mesh in range(len(self.tree.get("meshes", []))))
            return
        nodes = item(scenes, self.tree.get("scene", 0)).get("nodes", [])
        waiting = collections.deque((node, ONE) for node in nodes)
        seen: set[int] = set()
        while waiting:
            index, above = waiting.popleft()
            node = item(self.tree["nodes"], index)
            if index in seen:
                raise Fault(f"the nodes go round in a ring, or node {index} hangs below two")
            seen.add(index)
            matrix = times(above, matrix_of(node))
            if "mesh" in node:
                yield node["mesh"], matrix
            waiting += [(child, matrix) for child in node.get("children", [])]

    def add_mesh(self, model: Model, index: int, matrix: Matrix) -> None:
        mesh = item(self.tree["meshes"], index)
        for primitive in mesh["primitives"]:
            self.placed_primitives += 1
            if self.placed_primitives > MOST_PLACED:
                raise Fault(f"more than {MOST_PLACED} primitives are placed")
            if primitive.get("mode", TRIANGLES) in (TRIANGLES, STRIP, FAN):  # points and lines aren't drawn
                self.add_primitive(model, primitive, text_or(mesh.get("name"), f"mesh {index}"), matrix)

    def add_primitive(self, model: Model, primitive: Json, name: str, matrix: Matrix) -> None:
        first, positions = len(model.points), self.values(primitive["attributes"]["POSITION"], "VEC3")
        for x, y, z in positions:
            model.add_point(applied(matrix, (x, y, z)))
        count = len(positions)
        order = (
            [whole(i) for i, in self.values(primitive["indices"], "SCALAR")]
            if "indices" in primitive
            else list(range(count))
        )
        name, colour = self.material(primitive, name)
        turned = determinant(matrix) < 0  # a mirror turns the winding
        for a, b, c in triangles(order, primitive.get("mode", TRIANGLES)):
            if max(a, b, c) >= count:
                raise Fault(f"an index names point {max(a, b, c)} of {count}")
            model.add_polygon(
                [first + a, first + c, first + b] if turned else [first + a, first + b, first + c], name, colour
            )

    def material(self, primitive: Json, name: str) -> tuple[str, Colour]:
        if "material" not in primitive:
            return name, GREY
        material = item(self.tree["materials"], primitive["material"])
        base = material.get("pbrMetallicRoughness", {}).get("baseColorFactor", [1, 1, 1, 1])
        red, green, blue, alpha = (number(channel) for channel in base)
        opaque = material.get("alphaMode", "OPAQUE") == "OPAQUE"
        colour = encoded(red), encoded(green), encoded(blue), 1.0 if opaque else alpha
        return text_or(material.get("name"), name), colour

    def values(self, index: int, kind: str) -> list[tuple[float, ...]]:
        """The rows of an accessor."""
        accessor = item(self.tree["accessors"], index)
        if accessor["type"] != kind or "sparse" in accessor:
            raise Fault(
                f"accessor {index} is {'sparse' if 'sparse' in accessor else accessor['type']}, and a plain "
                f"{kind} is wanted"
            )
        view = item(self.tree["bufferViews"], accessor["bufferView"])
        if item(self.tree["buffers"], view["buffer"]).get("uri") is not None:
            raise Fault("its buffer is another file; only a .glb that has all is read")
        row = struct.Struct("<" + str(WIDE[kind]) + COMPONENTS[accessor["componentType"]])
        start, stride = (
            whole(view.get("byteOffset", 0)) + whole(accessor.get("byteOffset", 0)),
            whole(view.get("byteStride", 0)) or row.size,
        )
        end = start + stride * (accessor["count"] - 1) + row.size
        if whole(accessor["count"]) > MOST_POINTS:
            raise Fault(f"accessor {index} has more than {MOST_POINTS} rows, which no capture has room for")
        if accessor["count"] and end > min(len(self.binary), view.get("byteOffset", 0) + view["byteLength"]):
            raise Fault(f"accessor {index} reads behind the end of its buffer: the file is cut short")
        rows = [row.unpack_from(self.binary, start + stride * i) for i in range(accessor["count"])]
        return [tuple(map(number, some)) for some in rows] if kind != "SCALAR" else rows


def item(some: Any, index: Any) -> Any:
    if not 0 <= whole(index) < len(some):
        raise Fault(f"number {index} of {len(some)} is named, counted from 0")
    return some[index]


def whole(value: Any) -> int:
    if type(value) is not int or value < 0:
        raise Fault(f"{str(value)[:20]!r} is no count and no place")
    return value


def text_or(value: Any, other: str) -> str:
    """A name, or another one where it is none."""
    return value if isinstance(value, str) else other


def triangles(order: Sequence[int], mode: int) -> Iterable[Sequence[int]]:
    if mode == TRIANGLES:
        return (order[i : i + 3] for i in range(0, len(order) - 2, 3))
    if mode == FAN:
        return ((order[0], b, c) for b, c in zip(order[1:], order[2:]))
    return ((order[i], order[i + 1 + i % 2], order[i + 2 - i % 2]) for i in range(len(order) - 2))


def encoded(channel: float) -> float:
    """A linear channel as sRGB has it: base colours are linear."""
    channel = min(1.0, max(0.0, channel))
    return 12.92 * channel if channel <= 0.0031308 else 1.055 * channel ** (1 / 2.4) - 0.055


def matrix_of(node: Json) -> Matrix:
    if "matrix" in node:
        if len(node["matrix"]) != 16:
            raise Fault("a matrix has 16 numbers")
        return tuple(map(number, node["matrix"]))
    x, y, z, w = map(number, node.get("rotation", (0, 0, 0, 1)))
    a, b, c = map(number, node.get("scale", (1, 1, 1)))
    t = tuple(map(number, node.get("translation", (0, 0, 0))))
    length = math.sqrt(x * x + y * y + z * z + w * w) or 1
    x, y, z, w = x / length, y / length, z / length, w / length
    return (
        a * (1 - 2 * (y * y + z * z)),
        a * 2 * (x * y + z * w),
        a * 2 * (x * z - y * w),
        0,
        b * 2 * (x * y - z * w),
        b * (1 - 2 * (x * x + z * z)),
        b * 2 * (y * z + x * w),
        0,
        c * 2 * (x * z + y * w),
        c * 2 * (y * z - x * w),
        c * (1 - 2 * (x * x + y * y)),
        0,
        *t,
        1,
    )


def times(m: Matrix, n: Matrix) -> Matrix:
    return tuple(sum(m[row + 4 * k] * n[k + 4 * column] for k in range(4)) for column in range(4) for row in range(4))


def applied(m: Matrix, point: Point) -> Point:
    x, y, z = point
    across, down, deep = (m[row] * x + m[row + 4] * y + m[row + 8] * z + m[row + 12] for row in range(3))
    return across, down, deep


def determinant(m: Matrix) -> float:
    return (
        m[0] * (m[5] * m[10] - m[6] * m[9]) - m[4] * (m[1] * m[10] - m[2] * m[9]) + m[8] * (m[1] * m[6] - m[2] * m[5])
    )
