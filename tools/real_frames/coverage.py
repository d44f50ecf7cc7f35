"""The pixels that each draw of a converted frame covers, and those at which it passes, as framedbg has them; and how
two such sets agree."""
from collections.abc import Sequence
from typing import Any

from captures import Event, scissor

from . import program, states

WHITE = [255, 255, 255, 255]


def places_of(capture: dict[str, Any]) -> dict[int, list[int]]:
    """{RenderDoc's event: the places of its draws in the list of events}"""
    found: dict[int, list[int]] = {}
    for at, event in enumerate(capture["events"]):
        if event["kind"] == "draw" and "primitives" in event.get("source", {}):
            found.setdefault(event["source"]["event"], []).append(at)
    return found


def without_parts(capture: dict[str, Any], places: Sequence[int]) -> int:
    """How many pixels of a draw were left out as discarded: RenderDoc's overlays have them."""
    return max(capture["events"][at]["source"].get("left_out", 0) for at in places)


def white(draw: Event) -> Event:
    return dict(draw, interp="flat", vertices=[dict(vertex, color=WHITE) for vertex in draw["vertices"]])


def covered(framedbg: str, capture: dict[str, Any], places: Sequence[int]) -> bytes:
    """Without any test: each triangle, culled or not, as far as the viewport goes."""
    events, view = [states.raster("none", False, False)], capture["events"][places[0]]["source"].get("viewport")
    if view:
        events = [states.raster("none", False, True), scissor(*view)]
    return program.marked(framedbg, dict(capture, events=events + [white(capture["events"][at]) for at in places]))


def passing(framedbg: str, capture: dict[str, Any], places: Sequence[int]) -> bytes:
    """All that comes before, and then the draw, where only the draw writes colour."""
    events, wanted = [], set(places)
    for at, event in enumerate(capture["events"][: places[-1] + 1]):
        if event["kind"] in ("blend", "clear"):
            continue
        if event["kind"] == "draw":
            events.append(states.plain(15 if at in wanted else 0))
            event = white(event) if at in wanted else event
        events.append(event)
    return program.marked(framedbg, dict(capture, events=events))


class Agreement:
    """Of sets of pixels, each a byte of 0 or 1 for every pixel: how many are in both, in either, and which are in
    one alone."""

    def __init__(self) -> None:
        self.both = self.either = 0

    def add(self, theirs: bytes, ours: bytes, width: int) -> list[tuple[int, int, bool]]:
        """Counts two sets; gives [(x, y, whether it is theirs)] of each pixel in one alone."""
        a, b = int.from_bytes(theirs, "little"), int.from_bytes(ours, "little")
        self.both += (a & b).bit_count()
        self.either += (a | b).bit_count()
        apart = (a ^ b).to_bytes(len(theirs), "little")
        found, at = [], apart.find(1)
        while at >= 0:
            found.append((at % width, at // width, bool(theirs[at])))
            at = apart.find(1, at + 1)
        return found

    def share(self) -> float:
        return self.both / self.either if self.either else 1.0

    def __str__(self) -> str:
        return f"{self.both} of {self.either} pixels alike"


def near(first: bytes, second: bytes, by: int) -> float:
    """The share of pixels whose red, green and blue are no more than so many bytes apart."""
    apart = 0
    for at in range(0, len(first), 4):
        if (
            first[at : at + 3] != second[at : at + 3]
            and max(abs(p - q) for p, q in zip(first[at : at + 3], second[at : at + 3])) > by
        ):
            apart += 1
    return 1 - 4 * apart / len(first)
