"""reduce: from a capture that a driver draws otherwise than framedbg, the smallest found that it still draws
otherwise."""
import argparse
import contextlib
import sys
import time
from collections.abc import Callable, Container, Iterable, Iterator
from typing import TypeVar

from captures import Event, compact
from writing.counting import counted as counted_as

from . import plants, reading, smaller
from .comparing import Pick, pixel_of
from .driver import player_of
from .exact import Exact, program_of
from .faults import ALIKE, DIFFERS
from .judging import Judge
from .kinds import Kind
from .player import Player
from .smaller import Capture

Item = TypeVar("Item")  # an event, or a triangle

KINDS: dict[str, tuple[Kind, ...]] = {
    "coverage": (Kind.COVERAGE, Kind.SCISSOR, Kind.CULL),
    "colour": (Kind.BY_MORE,),
    "depth": (Kind.DEPTH_TEST, Kind.DEPTH_BY_MORE),
    "depth-test": (Kind.DEPTH_TEST,),
    "rounding": (Kind.BY_1, Kind.BY_2),
    "depth-rounding": (Kind.DEPTH_BY_1,),
}
KINDS["any"] = KINDS["coverage"] + KINDS["colour"] + KINDS["depth"]
MOST_EVENTS = 40  # that are made plainer one by one


class Over(Exception):
    """The time is over."""


class Reducer:
    """Makes `best` smaller, one thing after another, as long as the driver differs by a kind."""

    def __init__(
        self, player: Player, program: str, kinds: Container[Kind], change: plants.Change, seconds: float
    ) -> None:
        self.player, self.program, self.kinds, self.change = player, program, kinds, change
        self.deadline, self.tried = time.monotonic() + seconds, 0
        self.best: Capture = {}

    def differs(self, capture: Capture) -> Pick | None:
        """The event and the Difference at which it first differs so, from a fresh target and with nothing mended; or
        None."""
        self.player.resize(capture["width"], capture["height"])
        with Exact(self.program, capture) as exact:
            for one in Judge(exact, self.player, capture, self.change, is_alone=False):
                for pixel in one.found:
                    if pixel.kind in self.kinds:
                        return one.number, pixel
        return None

    def keeps(self, capture: Capture) -> bool:
        """Whether a capture still differs; then it is the best."""
        if time.monotonic() > self.deadline:
            raise Over
        self.tried += 1
        if not self.differs(capture):
            return False
        self.best = capture
        return True

    def run(self, capture: Capture) -> bool:
        """Whether it differs at all; then `best` is the smallest that was found."""
        first = self.differs(capture)
        if not first:
            return False
        self.best = capture
        with contextlib.suppress(Over):
            self.keeps(capture | {"events": capture["events"][: first[0]]})
            before = None
            while before != self.best:
                before = self.best
                self.turn()
        return True

    def turn(self) -> None:
        self.fewer(self.best["events"], lambda events: self.best | {"events": events})
        for at in range(min(len(self.best["events"]), MOST_EVENTS)):
            self.event(at)
        first = self.differs(self.best)
        if first:
            self.first_of(smaller.cut_out(self.best, first[1].x, first[1].y))
        self.first_of(smaller.without_depth(self.best))
        for at, event in enumerate(self.best["events"]):
            for number in range(len(event["vertices"]) if event["kind"] == "draw" else 0):
                for name in "xyz" if len(event["vertices"]) <= smaller.MOST_CORNERS else ():
                    self.first_of(smaller.rounder(self.best, at, number, name))

    def first_of(self, captures: Iterable[Capture]) -> bool:
        """Keeps the first of some that still differs."""
        return any(self.keeps(capture) for capture in captures)

    def fewer(self, items: list[Item], made: Callable[[list[Item]], Capture]) -> None:
        """Leaves out pieces of a list, half of it at first and one at last, as long as made(items) still differs."""
        size = max(1, len(items) // 2)
        while items:
            at = 0
            while at < len(items):
                left = items[:at] + items[at + size :]
                if self.keeps(made(left)):
                    items = left
                else:
                    at += size
            if size == 1:
                return
            size //= 2

    def event(self, at: int) -> None:
        """Fewer triangles, and plainer parts of an event."""
        event = self.best["events"][at]
        if event["kind"] == "draw":
            triangles = smaller.triangles_of(event)
            if "indices" not in event or self.keeps(
                smaller.with_event(self.best, at, smaller.of_triangles(event, triangles))
            ):
                self.fewer(triangles, lambda some: smaller.with_event(self.best, at, smaller.of_triangles(event, some)))
        while self.first_of(smaller.plainer_event(self.best, at)):
            pass


def run(given: argparse.Namespace) -> int:
    capture, program = reading.read_capture(given.capture), program_of(given.program)
    player, began = player_of(given, capture["width"], capture["height"]), time.monotonic()
    reducer = Reducer(player, program, KINDS[given.kind], plants.change_of(given.plant), given.seconds)
    if not reducer.run({name: capture[name] for name in ("format", "version", "width", "height", "events")}):
        print(f"framedbg-driver: the driver's picture doesn't differ by {given.kind}", file=sys.stderr)
        return ALIKE
    small = reducer.best
    print(text_of(small), flush=True)
    print("\n".join(closing(capture, small, reducer, time.monotonic() - began)), file=sys.stderr)
    return DIFFERS


def closing(capture: Capture, small: Capture, reducer: Reducer, seconds: float) -> Iterator[str]:
    triangles = sum(len(smaller.triangles_of(event)) for event in small["events"] if event["kind"] == "draw")
    events, tried = counted_as(len(capture["events"]), "event"), counted_as(reducer.tried, "capture")
    yield (
        f"{events} became {len(small['events'])}, with {counted_as(triangles, 'triangle')} "
        f"on {small['width']} x {small['height']} pixels; {tried} tried in {seconds:.1f} s"
    )
    pick = reducer.differs(small)
    if pick:
        yield pixel_of(pick)


def text_of(capture: Capture) -> str:
    """A capture with a line for each event, and for each corner."""
    head = {name: part for name, part in capture.items() if name != "events"}
    return compact(head)[:-1] + ',"events":[\n  ' + ",\n  ".join(map(event_text, capture["events"])) + "\n]}"


def event_text(event: Event) -> str:
    if event["kind"] != "draw" or not event["vertices"]:
        return compact(event)
    head = compact({name: part for name, part in event.items() if name != "vertices"})[:-1]
    return head + ',"vertices":[\n    ' + ",\n    ".join(map(compact, event["vertices"])) + "]}"
