"""Captures that are a little smaller or plainer than one: each function gives some, the smallest first. Nothing is
changed in place."""
from collections.abc import Iterable, Iterator
from typing import Any

from captures import PIXEL, Event

Capture = dict[str, Any]
Corner = dict[str, Any]

SIDES = (1, 2, 4, 8, 16, 32)  # pixels of a target that is cut out
PLAIN_STATES = (
    ("cull", "none"),
    ("scissor", False),
    ("front_ccw", False),
    ("enable", False),
    ("mask", 15),
    ("rgb", ["ONE", "ZERO", "ADD"]),
    ("alpha", ["ONE", "ZERO", "ADD"]),
)
PLAIN_COLOURS = ([255] * 4, [0] * 4)
ROUND_PLACES, ROUND_DEPTHS = (8 * PIXEL, PIXEL, PIXEL // 2, 4096, 256), (65535, 32768, 4096, 256)
MOST_CORNERS, MOST_DEPTH = 24, 65535  # of a draw whose corners are taken one by one


def with_event(capture: Capture, at: int, event: Event) -> Capture:
    events = list(capture["events"])
    events[at] = event
    return capture | {"events": events}


def with_corner(capture: Capture, at: int, number: int, **parts: Any) -> Capture:
    event = capture["events"][at]
    vertices = list(event["vertices"])
    vertices[number] = vertices[number] | parts
    return with_event(capture, at, event | {"vertices": vertices})


def with_place(capture: Capture, place: Corner, **parts: Any) -> Capture:
    """With all corners moved that lie where one does: a triangle that is drawn twice stays the same triangle."""

    def moved_there(corner: Corner) -> Corner:
        return corner | parts if all(corner.get(name) == place.get(name) for name in "xyz") else corner

    events = [
        event | {"vertices": list(map(moved_there, event["vertices"]))} if event["kind"] == "draw" else event
        for event in capture["events"]
    ]
    return capture | {"events": events}


def triangles_of(event: Event) -> list[list[Corner]]:
    """The triangles of a draw, three corners each, and no index and no corner that is left over."""
    order = event.get("indices", range(len(event["vertices"])))
    corners = [event["vertices"][number] for number in order]
    return [corners[at : at + 3] for at in range(0, len(corners) - 2, 3)]


def of_triangles(event: Event, triangles: Iterable[Iterable[Corner]]) -> Event:
    return {
        "kind": "draw",
        "interp": event["interp"],
        "vertices": [corner for triangle in triangles for corner in triangle],
    }


def plainer_event(capture: Capture, at: int) -> Iterator[Capture]:
    """With one part of an event at what a capture begins with, or of a plain colour."""
    event = capture["events"][at]
    for name, plain in PLAIN_STATES:
        if name in event and event[name] != plain:
            yield with_event(capture, at, event | {name: plain})
    if event.get("color") not in (None, *PLAIN_COLOURS):
        yield from (with_event(capture, at, event | {"color": plain}) for plain in PLAIN_COLOURS)
    if event["kind"] == "draw":
        yield from plainer_draw(capture, at, event)


def plainer_draw(capture: Capture, at: int, event: Event) -> Iterator[Capture]:
    if event["interp"] == "linear":
        yield with_event(capture, at, event | {"interp": "flat"})
    vertices = event["vertices"]
    if any(corner["color"] != PLAIN_COLOURS[0] for corner in vertices):
        yield with_event(
            capture, at, event | {"vertices": [corner | {"color": PLAIN_COLOURS[0]} for corner in vertices]}
        )
    for number, corner in enumerate(vertices[:MOST_CORNERS]):
        if corner["color"] not in PLAIN_COLOURS:
            yield from (with_corner(capture, at, number, color=plain) for plain in PLAIN_COLOURS)


def cut_out(capture: Capture, x: int, y: int) -> Iterator[Capture]:
    """The target round a pixel alone: positions move by whole pixels."""
    width, height = capture["width"], capture["height"]
    for side in SIDES:
        if side >= width and side >= height:
            return
        left, top = (min(max(0, at - side // 2), max(0, whole - side)) for at, whole in ((x, width), (y, height)))
        events = [moved(event, left, top) for event in capture["events"]]
        yield capture | {"width": min(side, width), "height": min(side, height), "events": events}


def moved(event: Event, left: int, top: int) -> Event:
    if event["kind"] == "scissor":
        return event | {"rect": [edge - by for edge, by in zip(event["rect"], (left, top, left, top))]}
    if event["kind"] != "draw":
        return event
    return event | {
        "vertices": [
            corner | {"x": corner["x"] - left * PIXEL, "y": corner["y"] - top * PIXEL} for corner in event["vertices"]
        ]
    }


def without_depth(capture: Capture) -> Iterator[Capture]:
    """As a capture of version 1, where nothing of depth is left."""
    if capture["version"] == 1 and not any(
        "z" in corner for event in capture["events"] for corner in event.get("vertices", ())
    ):
        return
    if not any(event["kind"] in ("depth", "depth_clear") for event in capture["events"]):
        events = [
            event
            | {
                "vertices": [
                    {name: part for name, part in corner.items() if name != "z"} for corner in event["vertices"]
                ]
            }
            if event["kind"] == "draw"
            else event
            for event in capture["events"]
        ]
        yield capture | {"version": 1, "events": events}


def rounder(capture: Capture, at: int, number: int, name: str) -> Iterator[Capture]:
    """With a rounder coordinate of a corner, and of all others that lie where it does, the roundest first; up to the
    one that it has."""
    corner = capture["events"][at]["vertices"][number]
    value = corner.get(name)
    for step in () if value is None else ROUND_DEPTHS if name == "z" else ROUND_PLACES:
        near = (value + step // 2) // step * step
        if near == value:
            return
        if name != "z" or near <= MOST_DEPTH:
            yield with_place(capture, corner, **{name: near})
