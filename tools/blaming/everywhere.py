"""A kind of change for drivers: one thing in all events of a kind, or in all of those that have it. What a driver
ignores or mixes up it does so everywhere, and rarely in one event."""
import functools
from collections.abc import Callable, Iterable, Iterator, Sequence
from typing import Any

import captures
from captures import Event

from .frame import order_of
from .kinds import KINDS, Case, Made, kind

Members = dict[str, Any]  # of an event
Otherwise = Callable[[Event], Members]  # the members that an event has after it
Key = tuple[str, int | None]  # a member, and the item of one that is a list
Parts = dict[Key, Any]

# kinds of change of one event that set members of it, and nothing else
SINGLE = (
    "write mask",
    "blending on or off",
    "factor of blending",
    "operation of blending",
    "cull",
    "front face",
    "scissor on or off",
    "depth test on or off",
    "depth writes",
    "depth function",
    "value of a depth clear",
    "interpolation",
    "colour of a clear",
    "blend factor",
)
EVERYWHERE = "one thing in all events of a kind"
OTHER_FACES = {"front": "back", "back": "front", "none": "none"}
SIDES = ("left", "top", "right", "bottom")
ALL = [name for name in captures.KINDS if name != "marker"]
LEAST = 2  # events of a kind, or with a value: a change of the only one is no change everywhere
COARSE = captures.PIXEL // 16  # the grid of a driver with 4 bits of a pixel's fraction
NAMES = {"clear": "clears", "depth_clear": "depth clears", "draw": "draws"}


def last_corner(draw: Event) -> Members:
    """The members of a draw whose flat triangles begin with their last corner; none where that changes no colour."""
    order, vertices = order_of(draw), draw["vertices"]
    firsts = range(0, len(order) - 2, 3)
    are_alike = lambda at: vertices[order[at]]["color"] == vertices[order[at + 2]]["color"]
    if draw["interp"] != "flat" or all(map(are_alike, firsts)):
        return {}
    return {"indices": [corner for at in firsts for corner in (order[at + 2], order[at], order[at + 1])]}


def coarse(draw: Event) -> Members:
    """The members of a draw whose corners are moved to a coarser grid."""
    moved = lambda vertex: {name: (vertex[name] + COARSE // 2) // COARSE * COARSE for name in "xy"}
    return {"vertices": [vertex | moved(vertex) for vertex in draw["vertices"]]}


def like_colour(blend: Event) -> Members:
    """The members of a blend event whose alpha part is that of the colours."""
    return {"alpha": [word.replace("_COLOR", "_ALPHA") for word in blend["rgb"]]}


def moved_edge(at: int, by: int) -> Otherwise:
    return lambda event: {"rect": [edge + by if i == at else edge for i, edge in enumerate(event["rect"])]}


# By kind of event: what it says, and what becomes of an event
OTHERWISE: dict[str, list[tuple[str, Otherwise]]] = {
    "blend": [("the alpha part like the colour part", like_colour)],
    "raster": [
        ("front and back exchanged", lambda event: {"cull": OTHER_FACES[event["cull"]]}),
        ("front faces the other way round", lambda event: {"front_ccw": not event["front_ccw"]}),
    ],
    "scissor": [
        (f"{side} 1 {'more' if by > 0 else 'less'}", moved_edge(at, by))
        for at, side in enumerate(SIDES)
        for by in (1, -1)
    ],
    "draw": [
        ("the last corner's colour in flat triangles", last_corner),
        ("corners on 4 bits of a pixel's fraction", coarse),
    ],
}


@kind(EVERYWHERE, *ALL, for_drivers=True)
def everywhere(case: Case, number: int) -> Made:
    """Each is told of the first suspect that it changes."""
    name = case.frame.kind(number)
    those = [at for at, event in enumerate(case.frame.events, 1) if event["kind"] == name]
    if len(those) < LEAST:
        return
    told = counted(those, name)
    for says, members in OTHERWISE.get(name, ()):
        yield from changed(case, number, those, (f"{says} in all {told}", members))
    if name != "draw":
        yield from left_out(case, number, those, f"without all {told}")
    for says, before, after in singly(case, number):
        some = [at for at in those if parts_of(case.frame.events[at - 1], before) == before]
        having = "" if len(some) == len(those) else " that have it"
        members = functools.partial(with_parts, parts=after)
        if len(some) >= LEAST:
            yield from changed(case, number, some, (f"{says} in all {counted(some, name)}{having}", members))
        if having:
            yield from changed(case, number, those, (f"{says.partition(' in place of ')[0]} in all {told}", members))


def counted(those: Sequence[int], name: str) -> str:
    return f"{len(those)} {NAMES.get(name, f'{name} events')}"


def changed(case: Case, number: int, those: Iterable[int], how: tuple[str, Otherwise]) -> Made:
    """The change of some events, where it is new and changes the one of the number. Others may be so already."""
    says, members = how
    if says in case.everywhere:
        return
    events, others = list(case.frame.events), []
    for at in those:
        event = events[at - 1]
        made = event | members(event)
        if made != event:
            events[at - 1] = made
            others.append(at)
    if number in others:
        case.everywhere.add(says)
        yield says, events, *(at for at in others if at != number)


def left_out(case: Case, number: int, those: Sequence[int], says: str) -> Made:
    """All of a kind ignored: a state stays as it is at the start."""
    if says not in case.everywhere:
        case.everywhere.add(says)
        gone = set(those)
        kept = [event for at, event in enumerate(case.frame.events, 1) if at not in gone]
        yield says, kept, *(at for at in those if at != number)


def singly(case: Case, number: int) -> Iterator[tuple[str, Parts, Parts]]:
    """What each change of this one event says, the parts that the event has, and those that it gets."""
    event = case.frame.events[number - 1]
    for one in KINDS:
        if one.name in SINGLE and event["kind"] in one.of:
            for says, events, *_ in one.make(case, number):
                was, made = split(event), split(events[number - 1])
                after = {key: value for key, value in made.items() if was.get(key) != value}
                yield says, parts_of(event, after), after


# ---- Members of an event, those that are lists item by item
def split(event: Event) -> Parts:
    found: Parts = {}
    for name, value in event.items():
        if name in ("rgb", "alpha"):
            found.update({(name, at): item for at, item in enumerate(value)})
        elif name != "source":
            found[name, None] = value
    return found


def parts_of(event: Event, keys: Iterable[Key]) -> Parts:
    held = split(event)
    return {key: held.get(key) for key in keys}


def with_parts(event: Event, parts: Parts) -> Members:
    """The members of an event with some parts."""
    made: Members = {}
    for (name, at), value in parts.items():
        if at is None:
            made[name] = value
        else:
            made[name] = [value if i == at else item for i, item in enumerate(made.get(name, event[name]))]
    return made
