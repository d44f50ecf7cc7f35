"""The table of the kinds of change: each gives changes of one event of a frame."""
from collections.abc import Callable, Iterable, Iterator, Sequence
from dataclasses import dataclass, field
from typing import Any

from captures import Event

from .clusters import Cluster
from .evidence import IsNear, Sample, Suspect
from .fragments import Colour
from .frame import CaptureFrame
from .points import Points
from .trying import Change, Tried, Trials, View

Made = Iterator[tuple[Any, ...]]  # what a change says, the events after it, and the numbers of others that it touches
Make = Callable[["Case", int], Made]

KINDS: list["Kind"] = []  # in the order in which they are tried


@dataclass(frozen=True)
class Kind:
    """`of` are the kinds of events that it changes; one that `searches` tries changes itself, and is asked where no
    other mends all; one that is `for_drivers` is tried where the picture is a driver's."""

    name: str
    of: tuple[str, ...]
    make: Make
    searches: bool
    for_drivers: bool = False


def kind(name: str, *of: str, **how: bool) -> Callable[[Make], Make]:
    """Puts a generator of changes of an event into the table."""

    def add(make: Make) -> Make:
        KINDS.append(Kind(name, of, make, how.get("searches", False), how.get("for_drivers", False)))
        return make

    return add


@dataclass
class Case:
    """What a kind may look at: the frame, the wrong pixels that were asked, the clusters, the suspects by event, the
    trials, and the points."""

    frame: CaptureFrame
    samples: list[Sample]
    clusters: list[Cluster]
    suspects: dict[int, Suspect]
    is_near: IsNear
    looked_at: list[int]
    trials: Trials
    view: View = field(init=False)
    points: Points = field(init=False)
    mask: bytes = b""  # of the whole target: what differs
    near: dict[int, list[int]] = field(default_factory=dict)  # by event: its vertices near what differs
    alone: dict[int, Tried] = field(default_factory=dict)  # by event: what differs without it
    everywhere: set[str] = field(default_factory=set)  # what was tried in all events of a kind

    def weighed(self, events: Sequence[Event]) -> tuple[int, int]:
        """How many of the points that are wrong are so after some events, and how many of those that are right."""
        self.trials.count += 1
        return self.points.left(events)

    def worth(self, events: Sequence[Event]) -> tuple[int, int]:
        """How far the points are from what is wanted, and how many differ."""
        self.trials.count += 1
        return self.points.worth(events)

    def wanted(self, x: int, y: int) -> Colour:
        """What is wanted of a pixel of the view."""
        left, top, right, _ = self.view.window or (0, 0, self.frame.width, 0)
        at = 4 * ((y - top) * (right - left) + x - left)
        return tuple(self.view.comparison.wanted[at : at + 4])

    def touched(self) -> list[int]:
        """The events that touch one of the samples."""
        return sorted({entry.event for sample in self.samples for entry in sample.entries})


def changes_of(case: Case, number: int, kinds: Iterable[Kind]) -> Iterator[Change]:
    """All changes of an event, of some kinds."""
    for one in kinds:
        if case.frame.kind(number) in one.of:
            for says, events, *also in one.make(case, number):
                yield Change(number, one.name, says, events, tuple(also))


def simple() -> list[Kind]:
    return [one for one in KINDS if not one.searches and not one.for_drivers]


def searching() -> list[Kind]:
    return [one for one in KINDS if one.searches]


def for_drivers() -> list[Kind]:
    return [one for one in KINDS if one.for_drivers]


def replaced(events: list[Event], number: int, event: Event) -> list[Event]:
    return events[: number - 1] + [event] + events[number:]


def inserted(events: list[Event], before: int, event: Event) -> list[Event]:
    """With an event more, before the one of a number."""
    return events[: before - 1] + [event] + events[before - 1 :]
