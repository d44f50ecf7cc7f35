"""Wavefront OBJ, with the colours of its MTL."""
import pathlib
from collections.abc import Iterator

from .model import GREY, Colour, Fault, Model, Point, number, read_bytes


def read(path: pathlib.Path) -> Model:
    model, name = Model(), path.stem
    colours: dict[str, Colour] = {}
    libraries: set[str] = set()
    for at, line in lines_of(path):
        word, _, rest = line.partition(" ")
        try:
            if word == "v":
                model.add_point(three(rest))
            elif word == "mtllib" and rest not in libraries:
                libraries.add(rest)
                colours.update(read_materials(path.parent / rest.strip()))
            elif word == "usemtl":
                name = rest.strip()
            elif word == "f":
                corners = [corner_of(text, len(model.points)) for text in rest.split()]
                model.add_polygon(corners, name, colours.get(name, GREY))
        except Fault as fault:
            raise Fault(f"line {at}: {fault}") from None
    return model


def read_materials(path: pathlib.Path) -> dict[str, Colour]:
    """The colours of an MTL; one that isn't there has none."""
    colours: dict[str, Colour] = {}
    name = None
    for at, line in lines_of(path) if path.is_file() else []:
        word, _, rest = line.partition(" ")
        try:
            if word == "newmtl":
                name = rest.strip()
                colours[name] = GREY
            elif word == "Kd" and name is not None:
                colours[name] = (*three(rest), colours[name][3])
            elif word == "d" and name is not None:
                colours[name] = (*colours[name][:3], number(rest.split()[-1] if rest.split() else rest))
        except Fault as fault:
            raise Fault(f"{path.name}, line {at}: {fault}") from None
    return colours


def lines_of(path: pathlib.Path) -> Iterator[tuple[int, str]]:
    text = read_bytes(path).decode(errors="replace").replace("\\\r\n", " ").replace("\\\n", " ")
    return ((at, line.strip()) for at, line in enumerate(text.splitlines(), 1))


def three(text: str) -> Point:
    words = text.split()
    if len(words) < 3:
        raise Fault(f"three numbers are wanted, not {len(words)}")
    x, y, z = map(number, words[:3])
    return x, y, z


def corner_of(text: str, count: int) -> int:
    first = text.split("/")[0]
    try:
        index = int(first)
    except ValueError:
        raise Fault(f"{first[:20]!r} is no point's number") from None
    if index == 0 or index > count or index < -count:
        raise Fault(f"a face names point {index} of {count}")
    return index - 1 if index > 0 else count + index
