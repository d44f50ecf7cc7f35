"""PLY, in text and in both orders of bytes."""
import math
import pathlib
import struct
from collections.abc import Callable

from .model import GREY, Colour, Fault, Model, number, read_bytes

TYPES = {
    "char": "b",
    "int8": "b",
    "uchar": "B",
    "uint8": "B",
    "short": "h",
    "int16": "h",
    "ushort": "H",
    "uint16": "H",
    "int": "i",
    "int32": "i",
    "uint": "I",
    "uint32": "I",
    "float": "f",
    "float32": "f",
    "double": "d",
    "float64": "d",
}
FLOATS = ("float", "float32", "double", "float64")
SCALARS, CORNERS = ("x", "y", "z", "red", "green", "blue", "alpha"), ("vertex_indices", "vertex_index")
FORMATS = {"ascii": None, "binary_little_endian": "<", "binary_big_endian": ">"}

Element = tuple[str, int, list[tuple[str, str | None, str]]]  # its rows, and of each property what a list counts by
Take = Callable[[str], float]  # gives the next number of a kind


def read(path: pathlib.Path) -> Model:
    data = read_bytes(path)
    head, mark, body = data.partition(b"end_header")
    if not data.startswith(b"ply") or not mark or b"\n" not in body:
        raise Fault("a PLY begins with ply and has an end_header")
    elements, form = header(head.decode("ascii", "replace").splitlines())
    body = body[body.index(b"\n") + 1 :]
    order = FORMATS[form]
    take = text_taker(body) if order is None else byte_taker(body, order)
    model = Model()
    colours: list[Colour] = []
    for kind, count, properties in elements:
        kinds = {name: kind_of for name, _, kind_of in properties}
        if count > len(body):
            raise Fault(f"{kind}: {count} rows are declared, and the file ends too early")
        for at in range(count):
            try:
                row = {name: values(take, counted, kind_of, len(body)) for name, counted, kind_of in properties}
                add_row(model, colours, kind, row, kinds, path.stem)
            except Fault as fault:
                raise Fault(f"{kind} {at} of {count}: {fault}") from None
    return model


def header(lines: list[str]) -> tuple[list[Element], str]:
    elements: list[Element] = []
    form = ""
    for at, line in enumerate(lines, 1):
        words = line.split()
        try:
            if words[:1] == ["format"]:
                form = words[1]
            elif words[:1] == ["element"]:
                elements.append((words[1], int(words[2]), []))
            elif words[:2] == ["property", "list"]:
                elements[-1][2].append((words[4], words[2], words[3]))
            elif words[:1] == ["property"]:
                elements[-1][2].append((words[2], None, words[1]))
        except (IndexError, ValueError):
            raise Fault(f"line {at} of the header: {line[:40]!r}") from None
    if form not in FORMATS:
        raise Fault(f"the format is {form or None}")
    for name, count, properties in elements:
        if count < 0 or (count and not properties):
            raise Fault(f"the element {name} has {count} rows of {len(properties)} properties")
        for _, counted, kind in properties:
            if kind not in TYPES or counted not in (None, *TYPES):
                raise Fault(f"there is no type {kind if kind not in TYPES else counted}")
        check_forms(name, {name: counted is not None for name, counted, _ in properties})
    return elements, form


def check_forms(element: str, is_list: dict[str, bool]) -> None:
    """Of the properties that are read each is a list, or one number, as it should be."""
    wanted = {"vertex": dict.fromkeys(SCALARS, False), "face": dict.fromkeys(CORNERS, True)}.get(element, {})
    for name, listed in is_list.items():
        if wanted.get(name, listed) != listed:
            raise Fault(f"the property {name} of a {element} is {'a list' if listed else 'one number'}")


def add_row(
    model: Model, colours: list[Colour], kind: str, row: dict[str, list[float]], kinds: dict[str, str], name: str
) -> None:
    if kind == "vertex":
        if not {"x", "y", "z"} <= set(row):
            raise Fault("a vertex has x, y and z")
        x, y, z = (number(row[axis][0]) for axis in "xyz")
        model.add_point((x, y, z))
        colours.append(colour_of(row, 1 if kinds.get("red") in FLOATS else 255))
    elif kind == "face":
        corners = [length(c) for c in next((row[name] for name in CORNERS if name in row), [])]
        if corners and corners[0] < len(colours):
            model.add_polygon(corners, name, colours[corners[0]])
        elif corners:
            raise Fault(f"a face names point {corners[0]} of {len(colours)}, counted from 0")


def colour_of(row: dict[str, list[float]], scale: int) -> Colour:
    if not {"red", "green", "blue"} <= set(row):
        return GREY
    red, green, blue = (row[channel][0] / scale for channel in ("red", "green", "blue"))
    return red, green, blue, row.get("alpha", [scale])[0] / scale


def values(take: Take, counted: str | None, kind: str, most: int) -> list[float]:
    """The next ones of a row: a number alone, or a list of at most so many."""
    if counted is None:
        return [take(kind)]
    count = length(take(counted))
    if count > most:
        raise Fault(f"a list of {count} is declared, and the file ends too early")
    return [take(kind) for _ in range(count)]


def length(value: float) -> int:
    if not math.isfinite(value) or value < 0 or value != int(value):
        raise Fault(f"{value} is no count and no point's number")
    return int(value)


def text_taker(body: bytes) -> Take:
    words = iter(body.split())

    def take(_: str) -> float:
        word = next(words, None)
        if word is None:
            raise Fault("the file ends too early")
        return number(word.decode("ascii", "replace"))

    return take


def byte_taker(body: bytes, order: str) -> Take:
    at = 0

    def take(kind: str) -> float:
        nonlocal at
        value: float
        try:
            (value,) = struct.unpack_from(order + TYPES[kind], body, at)
        except struct.error:
            raise Fault("the file ends too early") from None
        at += struct.calcsize(TYPES[kind])
        return value

    return take
