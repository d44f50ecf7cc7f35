"""A kind of change: a draw in two parts, with another state for the second one. A batch that wasn't ended where the
program set a state is one draw, and its later triangles are drawn with the state of the earlier ones."""
from collections.abc import Iterator
from typing import Any

from captures import Event
from rules.states import AT_START

from .frame import CaptureFrame, key_of, order_of
from .kinds import Case, Made, kind
from .states import MOST_HELD, USUAL, told

MOST_STATES = 3  # of those that help the most where the second part begins as late as it can
MOST_EARLIER = 16  # triangles before that one at which the second part may begin too


@kind("a part of the state from a triangle on", "draw", searches=True)
def from_triangle(case: Case, number: int) -> Made:
    """As at the start, as another event sets it, or as is usual. Where a later draw has the state it is set back
    behind the draw."""
    last = latest(case, number)
    if not last:
        return
    for _, says, part, event, *by in sorted(helping(case, number, last), key=lambda one: one[0])[:MOST_STATES]:
        for triangle in range(last, max(0, last - MOST_EARLIER), -1):
            yield f"with {part} {says} from triangle {triangle} on", split(case.frame, number, triangle, event), *by


def latest(case: Case, number: int) -> int:
    """The last triangle from which on another state can mend all pixels: each wrong one that the draw met has to
    have that one or a later one. None is 0."""
    met = [
        [entry.triangle for entry in sample.entries if entry.event == number and entry.triangle is not None]
        for sample in case.samples
    ]
    return min((max(triangles) for triangles in met if triangles), default=0)


def helping(case: Case, number: int, triangle: int) -> Iterator[tuple[Any, ...]]:
    """(what is left of the points, what it says, the part, the state event, the number of an event that sets it so)
    of each state after which fewer are wrong."""
    for part in case.frame.states:
        held: list[tuple[Any, ...]] = [
            ("as at the start", AT_START[part]),
            *(
                (f"as event {i} sets it", case.frame.events[i - 1], i)
                for i in case.frame.settings(number, part, MOST_HELD)
            ),
            *((told(event), event) for event in USUAL.get(part, ())),
        ]
        seen = {key_of(case.frame.state(number, part))}
        for says, event, *by in held:
            if key_of(event) not in seen:
                seen.add(key_of(event))
                left = sum(case.weighed(split(case.frame, number, triangle, event)))
                if left < case.points.wrong:
                    yield left, says, part, event, *by


def split(frame: CaptureFrame, number: int, triangle: int, event: Event) -> list[Event]:
    """The events where a state is set before a triangle of a draw, and is set back where a later draw has it."""
    draw, part = frame.events[number - 1], event["kind"]
    order = order_of(draw)
    halves = [draw | {"indices": some} for some in (order[: 3 * triangle], order[3 * triangle :])]
    next_one = next((other["kind"] for other in frame.events[number:] if other["kind"] in (part, "draw")), part)
    back = [frame.state(number, part)] if next_one == "draw" else []
    return frame.events[: number - 1] + [halves[0], event, halves[1], *back] + frame.events[number:]
