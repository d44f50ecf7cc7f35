"""Kinds of change: the order of events, an event too many, and one that is missing."""
from .kinds import Case, Made, inserted, kind

DRAWN = ("draw", "clear", "depth_clear")
ALL = (*DRAWN, "raster", "scissor", "blend", "factor", "depth")
WITHOUT = "without an event"
MOST_MOVES = 24  # places that an event is moved to, the nearest first


@kind(WITHOUT, *ALL)
def without(case: Case, number: int) -> Made:
    yield "without it", case.frame.events[: number - 1] + case.frame.events[number:]


@kind("order of draws", *DRAWN)
def moves(case: Case, number: int) -> Made:
    """Before or after another one that meets it at a wrong pixel, or that is its neighbour."""
    events, event = case.frame.events, case.frame.events[number - 1]
    rest = events[: number - 1] + events[number:]
    draws = case.frame.draws()
    at = draws.index(number)
    near = [*draws[max(0, at - 3) : at], *draws[at + 1 : at + 4]]
    others = sorted(
        {*near, *(other for other in case.touched() if other != number and case.frame.kind(other) in DRAWN)},
        key=lambda other: abs(other - number),
    )
    for other in others[:MOST_MOVES]:
        to = other - 1
        yield f"drawn {'before' if other < number else 'after'} event {other}", rest[:to] + [event] + rest[to:], other
    for other in others[:MOST_MOVES]:  # with the state events that stand between
        to = other if other < number else other - 2
        yield f"drawn {'after' if other < number else 'before'} event {other}", rest[:to] + [event] + rest[to:], other
    yield "drawn at the end", [*rest, event]


@kind("order of states", "raster", "scissor", "blend", "factor", "depth")
def state_moves(case: Case, number: int) -> Made:
    """Set later or earlier: a state event on the other side of a draw. One that is set earlier stands in for the one
    by which the draw had been drawn."""
    events, event = case.frame.events, case.frame.events[number - 1]
    rest = events[: number - 1] + events[number:]
    draws = case.frame.draws()
    for other in [d for d in draws if d < number][-3:] + [d for d in draws if d > number][:3]:
        to, by = other - 1, case.frame.setter(other, event["kind"]) if other < number else None
        yield f"set {'before' if other < number else 'after'} event {other}", rest[:to] + [event] + rest[to:], *(
            [by] if by else []
        ), other


@kind("two events exchanged", *DRAWN)
def exchanged(case: Case, number: int) -> Made:
    for other in [other for other in case.touched() if other > number and case.frame.kind(other) in DRAWN][:MOST_MOVES]:
        events = list(case.frame.events)
        events[number - 1], events[other - 1] = events[other - 1], events[number - 1]
        yield f"exchanged with event {other}", events, other


@kind("an event once more", *DRAWN)
def doubled(case: Case, number: int) -> Made:
    """Drawn twice, or a clear that is missing later on."""
    event = case.frame.events[number - 1]
    yield "twice", inserted(case.frame.events, number, event)
    draws = [d for d in case.frame.draws() if d > number + 1]
    touched = set(case.touched())
    for before in [d for d in draws if d in touched][:MOST_MOVES]:
        yield f"once more before event {before}", inserted(case.frame.events, before, event), before
