"""Where `c` and `rc` stop: at an event, at events of a kind, where a pixel changes, at events that change one of a
box."""
from collections.abc import Iterable, Sequence
from dataclasses import dataclass

from .conditions import Condition
from .frame import Box, Change, DebuggedFrame


def nearest(events: Sequence[int], position: int, forward: bool) -> int | None:
    """Of events in their order the first after a position, or the last before it."""
    if forward:
        return next((event for event in events if event > position), None)
    return next((event for event in reversed(events) if event < position), None)


class Place:
    def next(self, frame: DebuggedFrame, position: int, forward: bool) -> int | None:
        """The event after or before a position at which it stops."""
        raise NotImplementedError


@dataclass(frozen=True)
class AtEvent(Place):
    event: int

    def __str__(self) -> str:
        return f"event {self.event}"

    def next(self, frame: DebuggedFrame, position: int, forward: bool) -> int | None:
        return self.event if (self.event > position if forward else self.event < position) else None


@dataclass(frozen=True)
class OfKind(Place):
    kind: str

    def __str__(self) -> str:
        return f"each {self.kind}"

    def next(self, frame: DebuggedFrame, position: int, forward: bool) -> int | None:
        way = range(position + 1, len(frame) + 1) if forward else range(position - 1, 0, -1)
        return next((event for event in way if frame.kind(event) == self.kind and frame.is_on(event)), None)


@dataclass(frozen=True)
class AtPixel(Place):
    x: int
    y: int
    condition: Condition | None = None

    def __str__(self) -> str:
        return f"{self.place} if {self.condition}" if self.condition else self.place

    @property
    def place(self) -> str:
        return f"pixel {self.x} {self.y}"

    def changes(self, frame: DebuggedFrame) -> list[Change]:
        """What events did to the pixel."""
        return frame.changes(self.x, self.y)

    def next(self, frame: DebuggedFrame, position: int, forward: bool) -> int | None:
        """By the pixel's history: forward by that of the whole frame, which moves to its end."""
        events = [
            change.event
            for change in frame.changes(self.x, self.y, whole=forward)
            if self.condition is None or self.condition.holds(change)
        ]
        return nearest(events, position, forward)


@dataclass(frozen=True)
class InBox(Place):
    kind: str
    box: Box

    def __str__(self) -> str:
        return f"each {self.kind} in {' '.join(map(str, self.box))}"

    def next(self, frame: DebuggedFrame, position: int, forward: bool) -> int | None:
        """By the histories of the box's pixels."""
        return nearest(
            [event for event in frame.changed_in(self.box, whole=forward) if frame.kind(event) == self.kind],
            position,
            forward,
        )


class Breakpoints:
    def __init__(self) -> None:
        self.numbered: dict[int, Place] = {}
        self.given = 0
        self.once: set[int] = set()  # numbers of those that are gone after a stop
        self.disabled: set[int] = set()  # and of those that don't stop

    def told(self, number: int) -> str:
        how = [text for numbers, text in ((self.once, "once"), (self.disabled, "disabled")) if number in numbers]
        said = f" ({', '.join(how)})" if how else ""
        return f"breakpoint {number}: {self.numbered[number]}{said}"

    def delete(self, numbers: Iterable[int]) -> None:
        """Takes them away; no other gets their numbers."""
        for number in numbers:
            del self.numbered[number]

    def add(self, what: Place, once: bool = False) -> int:
        """The number of a breakpoint, which is new unless there is one like it."""
        known = next((number for number, other in self.numbered.items() if other == what), None)
        if known is None:
            self.given += 1
            known = self.given
            self.numbered[known] = what
            if once:
                self.once.add(known)
        return known

    def next(self, frame: DebuggedFrame, forward: bool) -> tuple[int | None, list[tuple[int, Place]]]:
        """Where the nearest breakpoint is, and which stop there, by their numbers."""
        position = frame.position
        found = [
            (event, number, what)
            for number, what in self.numbered.items()
            if number not in self.disabled and (event := what.next(frame, position, forward)) is not None
        ]
        if not found:
            return None, []
        nearest = (min if forward else max)(event for event, _, _ in found)
        return nearest, [(number, what) for event, number, what in found if event == nearest]
