"""compare: a capture drawn by framedbg and by the driver, event by event."""
import argparse
import collections
import json
import pathlib
import time
from collections.abc import Iterable, Iterator, Sequence
from typing import Any

from explaining.printable import printable
from framedbg_client import Entry
from writing.counting import counted as counted_as

from . import junit, plants, reading
from .blame import Answer, blamed
from .driver import line_of, player_of
from .exact import Exact, program_of
from .faults import ALIKE, DIFFERS
from .features import coarse
from .judging import Judge, Judgement
from .kinds import Counts, Difference, counted, is_beyond, is_fault
from .player import Player

Pick = tuple[int, Difference]  # an event, and a pixel of it that differs
MOST_ENTRIES = 8  # of a history that are told


class Told:
    """What has come of the events so far: sums, and the first pixels that differ."""

    def __init__(self, given: argparse.Namespace, capture: dict[str, Any]) -> None:
        self.given, self.capture = given, capture
        self.sums: Counts = collections.Counter()
        self.changed = 0
        self.events: list[dict[str, Any]] = []
        self.cases: list[junit.Case] = []
        self.first: Pick | None = None
        self.worst: Pick | None = None
        self.shown: Judgement | None = None  # the first of which a colour differs

    def note(self, one: Judgement, seconds: float) -> None:
        self.sums += one.counts
        self.changed += one.changed
        self.events.append(
            {"event": one.number, "kind": one.event["kind"], "changed": one.changed, "differ": named(one.counts)}
        )
        beyond = [pixel for pixel in one.found if is_beyond(pixel.kind, self.given.tolerance)]
        if one.found and not self.first:
            self.first = one.number, one.found[0]
        if beyond and not self.worst:
            self.worst = one.number, beyond[0]
        if not self.shown and any(not pixel.is_depth for pixel in beyond):
            self.shown = one
        failure = any(is_fault(kind, self.given.tolerance) for kind in one.counts)
        self.cases.append(junit.Case(title(one), seconds, line(one) if failure else ""))

    @property
    def pick(self) -> Pick | None:
        return self.worst or self.first

    @property
    def is_alike(self) -> bool:
        return not any(is_fault(kind, self.given.tolerance) for kind in +self.sums)


def run(given: argparse.Namespace) -> int:
    capture, program = coarse(reading.read_capture(given.capture), given.bits), program_of(given.program)
    player = player_of(given, capture["width"], capture["height"])
    began, told, driver = time.monotonic(), Told(given, capture), player.named()
    if not given.json:
        print(f"driver  {line_of(driver)}")
        print(
            f"frame   {printable(pathlib.Path(given.capture).name)}: {capture['width']} x {capture['height']}, "
            f"{counted_as(len(capture['events']), 'event')}",
            flush=True,
        )
    with Exact(program, capture) as exact:
        judged(exact, player, told)
        entries = history(exact, told.pick)
    seconds = time.monotonic() - began
    answer = blamed(program, capture, told.shown, given.tolerance) if given.blame and told.shown else None
    if given.json:
        print(json.dumps(value_of(told, driver, entries, answer, seconds), indent=1))
    else:
        for text in closing(told, entries, answer, seconds):
            print(text)
    if given.junit:
        reading.write(
            given.junit, junit.text_of(f"{pathlib.Path(given.capture).name} by {driver['renderer']}", told.cases)
        )
    return ALIKE if told.is_alike else DIFFERS


def judged(exact: Exact, player: Player, told: Told) -> None:
    given, at = told.given, time.monotonic()
    for one in Judge(exact, player, told.capture, plants.change_of(given.plant), not given.going_on):
        now = time.monotonic()
        told.note(one, now - at)
        at = now
        if not given.json and (one.found or given.all):
            print(line(one), flush=True)


def history(exact: Exact, pick: Pick | None) -> list[Entry]:
    """What the event with a pixel that differs did to it."""
    return exact.entries(pick[0], pick[1].x, pick[1].y) if pick else []


# ---- What is told
def title(one: Judgement) -> str:
    event = one.event
    if event["kind"] != "draw":
        return f"event {one.number}: {event['kind']}"
    return f"event {one.number}: draw {len(event.get('indices', event['vertices'])) // 3} {event['interp']}"


def line(one: Judgement) -> str:
    return f"{title(one)}, {counted_as(one.changed, 'pixel')} changed: {listed(one.counts) or 'alike'}"


def listed(counts: Counts) -> str:
    return ", ".join(f"{count:,} {kind}" for kind, count in counted(counts).items())


def named(counts: Counts) -> dict[str, int]:
    return {kind.value: count for kind, count in counted(counts).items()}


def words_of(four: Iterable[int]) -> str:
    return " ".join(map(str, four))


def pixel_of(pick: Pick) -> str:
    number, one = pick
    left_open = ", on an edge, which OpenGL leaves open" if one.is_left_open else ""
    return (
        f"event {number}, pixel {one.x} {one.y}, {one.kind}{left_open}: framedbg {words_of(one.exact)}, the "
        f"driver {words_of(one.driver)}"
    )


def entry_of(entry: Entry) -> str:
    """An entry of a history, as framedbg writes it."""
    triangle = "-" if entry.triangle is None else entry.triangle
    return " ".join(
        [
            f"{entry.event} {triangle} {entry.verdict}",
            *map(words_of, (entry.source, entry.before, entry.after, entry.depths or ())),
        ]
    ).rstrip()


def closing(told: Told, entries: Sequence[Entry], answer: Answer | None, seconds: float) -> Iterator[str]:
    if told.pick:
        yield f"first   {'beyond rounding: ' if told.worst else ''}{pixel_of(told.pick)}"
        yield from (f"history {entry_of(entry)}" for entry in entries[:MOST_ENTRIES])
    if answer:
        yield f"blame   {answer.text}"
    events, pixels = counted_as(len(told.events), "event"), counted_as(told.changed, "pixel")
    yield f"in all  {events} judged, {pixels} changed: {listed(told.sums) or 'all alike'}; {seconds:.1f} s"


def value_of(
    told: Told, driver: dict[str, Any], entries: Sequence[Entry], answer: Answer | None, seconds: float
) -> dict[str, Any]:
    first = None
    if told.pick:
        number, one = told.pick
        first = {
            "event": number,
            "pixel": [one.x, one.y],
            "kind": one.kind.value,
            "framedbg": list(one.exact),
            "driver": list(one.driver),
            "left_open_by_opengl": one.is_left_open,
            "history": list(map(entry_of, entries)),
        }
    value = {
        "driver": driver,
        "seconds": round(seconds, 2),
        "changed": told.changed,
        "sums": named(told.sums),
        "events": told.events,
        "first": first,
    }
    return value | ({"blame": answer.value} if answer else {})
