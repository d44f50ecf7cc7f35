"""What differs between two positions: states and images."""
from collections.abc import Iterator
from typing import TYPE_CHECKING

from framedbg_client import Image

from .faults import Slip
from .telling import Parts, set_by, state_parts
from .words import WORDS, number

if TYPE_CHECKING:
    from .session import Session

BYTES = 4


def differing(one: Image, other: Image) -> Iterator[tuple[int, int]]:
    """The pixels in which two images of one size differ, as (x, y), row by row."""
    stride = BYTES * one.width
    for y in range(one.height):
        start = y * stride
        if one.samples[start : start + stride] == other.samples[start : start + stride]:
            continue
        rows = [memoryview(image.samples)[start : start + stride].cast("I") for image in (one, other)]
        yield from ((x, y) for x, (a, b) in enumerate(zip(*rows)) if a != b)


def tell_images(one: Image, other: Image) -> list[str]:
    """How many pixels differ, in which box, and where the most."""
    count, box, most = 0, [one.width, one.height, 0, 0], (-1, 0, 0)
    for x, y in differing(one, other):
        count += 1
        box = [min(box[0], x), min(box[1], y), max(box[2], x + 1), max(box[3], y + 1)]
        by = max(abs(a - b) for a, b in zip(one.pixel(x, y), other.pixel(x, y)))
        most = max(most, (by, -y, -x))  # of several the first, row by row
    if not count:
        return ["images: the same"]
    x, y = -most[2], -most[1]
    colours = [" ".join(map(str, image.pixel(x, y))) for image in (one, other)]
    return [
        f"images: {count} of {one.width * one.height} pixels differ, in the box {' '.join(map(str, box))}",
        f"most at {x} {y}: {colours[0]}, and then {colours[1]}",
    ]


def tell_states(one: Parts, other: Parts) -> list[str]:
    told = [
        f"{part}: {text} {set_by(event)}, and then {then} {set_by(later)}"
        for (part, text, event), (_, then, later) in zip(one, other)
        if text != then
    ]
    return told or ["states: the same"]


@WORDS.add(
    "d",
    "d I J",
    "what differs between positions I and J: states and images",
    "The box is left, top, right and bottom, the last two exclusive.",
    also=("diff",),
    takes=("position", "position"),
)
def differences(session: "Session", arguments: list[str]) -> None:
    if len(arguments) != 2:
        raise Slip("d I J is wanted")
    frame, home = session.frame, session.frame.position
    seen = []
    for position in [number(text, "a position", len(frame)) for text in arguments]:
        reached = frame.client.goto(position)
        if reached != position:
            frame.client.goto(home)
            raise Slip(f"no more memory: framedbg came to {reached} alone")
        seen.append((state_parts(frame, frame.client.state()), frame.client.value("show", Image)))
    told = tell_states(seen[0][0], seen[1][0]) + tell_images(seen[0][1], seen[1][1])
    frame.client.goto(home)
    session.tell("note", *told)
