"""The triangles, lines or points that a list of indices stands for, by its topology."""
from collections.abc import Callable, Iterator, Sequence

from .fault import Fault

Corners = tuple[int, ...]  # three, two or one


def list_of_strip(indices: Sequence[int]) -> Iterator[Corners]:
    """Writes out one strip; every other triangle is turned so that all run the same way round."""
    for i in range(len(indices) - 2):
        a, b, c = indices[i : i + 3]
        yield (a, b, c) if i % 2 == 0 else (b, a, c)


def list_of_fan(indices: Sequence[int]) -> Iterator[Corners]:
    for i in range(1, len(indices) - 1):
        yield indices[0], indices[i], indices[i + 1]


def list_of_list(indices: Sequence[int]) -> Iterator[Corners]:
    for i in range(0, len(indices) - 2, 3):
        yield tuple(indices[i : i + 3])


def list_of_lines(indices: Sequence[int]) -> Iterator[Corners]:
    for i in range(0, len(indices) - 1, 2):
        yield tuple(indices[i : i + 2])


def list_of_line_strip(indices: Sequence[int]) -> Iterator[Corners]:
    yield from zip(indices, indices[1:])


def list_of_line_loop(indices: list[int]) -> Iterator[Corners]:
    yield from zip(indices, indices[1:] + indices[:1])


def list_of_points(indices: Sequence[int]) -> Iterator[Corners]:
    yield from ((index,) for index in indices)


WRITERS: dict[str, Callable[[list[int]], Iterator[Corners]]] = {
    "TriangleList": list_of_list,
    "TriangleStrip": list_of_strip,
    "TriangleFan": list_of_fan,
    "LineList": list_of_lines,
    "LineStrip": list_of_line_strip,
    "LineLoop": list_of_line_loop,
    "PointList": list_of_points,
}


def cut_at_restarts(indices: list[int], restart: int | None) -> list[list[int]]:
    """Cuts a list of indices at the restart index; None stands for no restart."""
    if restart is None:
        return [indices]
    parts: list[list[int]] = []
    part: list[int] = []
    for index in indices:
        if index == restart:
            parts.append(part)
            part = []
        else:
            part.append(index)
    parts.append(part)
    return [part for part in parts if part]


def primitives(topology: str, indices: list[int], restart: int | None = None) -> Iterator[tuple[int, Corners]]:
    """Gives (primitive, its three corners, its two ends, or its one point); a Fault for a topology that isn't known."""
    if topology not in WRITERS:
        raise Fault(f"topology {topology}")
    primitive = 0
    for part in cut_at_restarts(indices, restart):
        for corners in WRITERS[topology](part):
            yield primitive, corners
            primitive += 1
