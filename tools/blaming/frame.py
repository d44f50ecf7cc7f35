"""A capture as blame changes it: its events, the state before each, and the text of any list of events, of the whole
target or of a window of it.

A list of events is never changed: a change makes another list, in which the events that stay are the same objects.
"""
import itertools
import json
import operator
import os
import pathlib
from collections.abc import Iterable, Sequence
from typing import Any

import captures
from captures import LEAST_EDGE, MOST_BYTES, MOST_EDGE, MOST_POSITION, PIXEL, STATES, Event, compact
from rules.states import AT_START, Setters

from .faults import READING, Fault
from .painting import Album, Window, has_picture


def read_capture(path: str | os.PathLike[str]) -> dict[str, Any]:
    """The capture in a file that framedbg accepts; the events without what framedbg passes over."""
    try:
        data = pathlib.Path(path).read_bytes()
    except OSError as fault:
        raise Fault(f"{path}: {fault.strerror}", READING) from None
    if len(data) > MOST_BYTES:
        raise Fault(f"{path}: a capture has at most {MOST_BYTES} bytes")
    try:
        capture = without_colours(json.loads(data))
    except (ValueError, RecursionError):
        raise Fault(f"{path}: no JSON") from None
    if capture["version"] == 1:
        forget_depths(capture["events"])
    return capture


def forget_depths(events: Iterable[Event]) -> None:
    """Takes the depths of vertices away: in version 1 they are none, whatever stands there."""
    for event in events:
        if event["kind"] == "draw":
            for vertex in event["vertices"]:
                vertex.pop("z", None)


def without_colours(capture: dict[str, Any]) -> dict[str, Any]:
    """Without the colours that stand at the corners of draws with pictures, which framedbg passes over."""
    for event in capture["events"] if capture.get("version") == 3 else ():
        if has_picture(event):
            event["vertices"] = [
                {name: what for name, what in vertex.items() if name != "color"} for vertex in event["vertices"]
            ]
    return capture


def key_of(event: Event) -> str:
    """What an event sets, the same for two that set the same."""
    return json.dumps({name: what for name, what in event.items() if name != "source"}, sort_keys=True)


def order_of(draw: Event) -> list[int]:
    """The vertices' numbers that a draw takes, three a triangle."""
    order: list[int] = draw["indices"] if "indices" in draw else list(range(len(draw["vertices"])))
    return order


def differing_part(events: Sequence[Event], changed: Sequence[Event]) -> tuple[int, int]:
    """Where two lists of events differ: from where, and how many behind it are the same."""
    most = min(len(events), len(changed))
    start = first_other(events, changed, most)
    return start, first_other(reversed(events), reversed(changed), most - start)


def first_other(some: Iterable[Event], others: Iterable[Event], most: int) -> int:
    """The first place at which two rows have different objects, or the most that is looked at."""
    return next(itertools.compress(range(most), map(operator.is_not, some, others)), most)


class CaptureFrame:
    """The frame of a capture."""

    def __init__(self, capture: dict[str, Any]) -> None:
        self.capture = capture
        self.events: list[Event] = capture["events"]
        self.version, self.width, self.height = capture["version"], capture["width"], capture["height"]
        self.states = [kind for kind in STATES if kind != "depth" or self.version > 1]
        self.album = Album()
        self.setters = Setters([event["kind"] for event in self.events])
        self._ways: dict[str, list[list[int]]] = {}
        # the list that was asked about last, and the answer
        self._differing: tuple[Sequence[Event], tuple[int, int]] | None = None
        # by an event's identity and a window; the event is kept with it, so that its identity stays its own
        self._texts: dict[tuple[int, Window | None], tuple[Event, str]] = {}

    def with_events(self, events: list[Event]) -> "CaptureFrame":
        made = CaptureFrame(self.capture | {"events": events})
        made._texts, made.album = self._texts, self.album
        return made

    def differing_part(self, events: Sequence[Event]) -> tuple[int, int]:
        """Where a list differs from the frame's events: from where, and how many behind it are the same."""
        if self._differing is None or self._differing[0] is not events:
            self._differing = events, differing_part(self.events, events)
        return self._differing[1]

    def kind(self, number: int) -> str:
        return self.events[number - 1]["kind"]

    def setter(self, number: int, kind: str) -> int | None:
        """The event that set a part of the state with which an event is drawn, or None: it is as at the start."""
        return self.setters.before(number, kind)

    def settings(self, number: int, kind: str, most: int) -> list[int]:
        """Of each way in which a part of the state is set the first event that sets it so; where there are many,
        those that are set nearest to an event."""
        if kind not in self._ways:
            ways: dict[str, list[int]] = {}
            for by in self.setters.of(kind):
                ways.setdefault(key_of(self.events[by - 1]), []).append(by)
            self._ways[kind] = list(ways.values())
        near = sorted(self._ways[kind], key=lambda numbers: min(abs(by - number) for by in numbers))[:most]
        return sorted(numbers[0] for numbers in near)

    def state(self, number: int, kind: str) -> Event:
        """That part of the state, as the event that sets it."""
        by = self.setter(number, kind)
        return self.events[by - 1] if by else AT_START[kind]

    def draws(self) -> list[int]:
        return [i for i, event in enumerate(self.events, 1) if event["kind"] in ("draw", "clear", "depth_clear")]

    def can_have(self, window: Window) -> bool:
        """Whether no vertex comes to stand farther away than a capture may say."""
        least = [window[0] * PIXEL - MOST_POSITION, window[1] * PIXEL - MOST_POSITION]
        return all(
            corner["x"] >= least[0] and corner["y"] >= least[1]
            for event in self.events
            if event["kind"] == "draw"
            for corner in event["vertices"]
        )

    def text(self, events: Iterable[Event], window: Window | None = None) -> str:
        """A capture with these events; of a window alone where one is given, as a target of its own."""
        head = captures.head(self.width, self.height, self.version)
        if window:
            head |= {"width": window[2] - window[0], "height": window[3] - window[1]}
        texts = (self._text(event, window) for event in events)
        return json.dumps(head)[:-1] + ',"events":[' + ",\n".join(text for text in texts if text) + "]}"

    def _text(self, event: Event, window: Window | None) -> str:
        key = id(event), window
        if key not in self._texts:
            own = {name: what for name, what in event.items() if name != "source"} if "source" in event else event
            shown = moved(own, window, self.album) if window else own
            self._texts[key] = event, compact(shown) if shown else ""
        return self._texts[key][1]

    def forget(self, events: Iterable[Event]) -> None:
        """Lets go of the texts of events that are in no list any more."""
        kept = {id(event) for event in events}
        self._texts = {key: value for key, value in self._texts.items() if key[0] in kept}


def moved(event: Event, window: Window, album: Album) -> Event | None:
    """An event as it is drawn on a window: what can't reach it is left out, and a draw that can't is None."""
    left, top, right, bottom = window
    if event["kind"] == "scissor":
        by = (left, top, left, top)
        return event | {
            "rect": [min(max(edge - offset, LEAST_EDGE), MOST_EDGE) for edge, offset in zip(event["rect"], by)]
        }
    if event["kind"] != "draw":
        return event
    box = [left * PIXEL, top * PIXEL, right * PIXEL, bottom * PIXEL]
    vertices, order = event["vertices"], order_of(event)
    named = [
        order[k : k + 3] for k in range(0, len(order) - 2, 3) if meets([vertices[i] for i in order[k : k + 3]], box)
    ]
    if not named:
        return None
    numbers = {number: at for at, number in enumerate(dict.fromkeys(i for triangle in named for i in triangle))}
    shifted = [vertices[i] | {"x": vertices[i]["x"] - box[0], "y": vertices[i]["y"] - box[1]} for i in numbers]
    order = [numbers[i] for triangle in named for i in triangle]
    if not has_picture(event):
        return captures.draw(shifted, event["interp"], order)
    part = album.on(event, window)
    return part and captures.picture_draw(shifted, part, order)


def meets(corners: Sequence[dict[str, Any]], box: Sequence[int]) -> bool:
    """Whether a triangle's box meets a box."""
    x, y = [corner["x"] for corner in corners], [corner["y"] for corner in corners]
    return max(x) >= box[0] and min(x) <= box[2] and max(y) >= box[1] and min(y) <= box[3]
