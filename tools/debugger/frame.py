"""The frame under the debugger: its events, what is off, and what is known of its pixels."""
import os
import re
import sys
from collections.abc import Callable, Iterable
from functools import cached_property
from itertools import groupby
from operator import attrgetter
from typing import Any, NamedTuple

from framedbg_client import Client, Colour, Entry, Garbled, History, Reply
from rules.states import Setters

from .groups import Groups, events_of, sources_of

WRITERS = ("draw", "clear", "depth_clear")
KEPT = 64  # histories
Box = tuple[int, int, int, int]  # left, top, right, bottom, the last two exclusive
EVENT = re.compile(r"\d+ (?:on|off) ")


class Change(NamedTuple):
    """What an event made of a pixel."""

    event: int
    before: Colour
    after: Colour
    depth: int | None = None  # after it, in a capture of version 2


class DebuggedFrame:
    """The frame of a run, which `client` asks."""

    def __init__(self, client: Client) -> None:
        self.client = client
        reply = client.ask("events")
        self.events = [
            EVENT.sub("", line, 1) for line in reply.lines
        ]  # "draw 2 flat" of "11 on draw 2 flat"; a million of them are no values yet
        if not reply.text.startswith("events "):
            raise Garbled(f"no reply of framedbg to events: {reply.text[:80]!r}")
        self.kinds = [sys.intern(event.split(" ", 1)[0]) for event in self.events]
        self.setters = Setters(self.kinds)
        self.histories: dict[tuple[int, int, int], Reply] = {}
        self.boxes: dict[Box, tuple[int, list[int]]] = {}
        self.switches = client.switches

    def __len__(self) -> int:
        return len(self.events)

    @property
    def path(self) -> str:
        """The capture's file."""
        return os.fsdecode(self.client.words[1])

    @property
    def position(self) -> int:
        return self.client.position

    def kind(self, event: int) -> str:
        return self.kinds[event - 1]

    def is_on(self, event: int) -> bool:
        return event not in self.client.off

    def line(self, event: int) -> str:
        """The event as framedbg lists it."""
        return f"{event} {'on' if self.is_on(event) else 'off'} {self.events[event - 1]}"

    def nearest(self, is_wanted: Callable[[int], bool], forward: bool) -> int | None:
        """The nearest event after or before the position that is on and wanted, or None."""
        way = range(self.position + 1, len(self) + 1) if forward else range(self.position - 1, 0, -1)
        return next((event for event in way if is_wanted(event) and self.is_on(event)), None)

    def setter(self, part: str, position: int) -> int | None:
        """The event that set a part of the state before the event after a position, or None."""
        return self.setters.before(position + 1, part, self.is_on)

    @cached_property
    def groups(self) -> Groups:
        return Groups(self.kinds, sources_of(self.path))

    @cached_property
    def sources(self) -> dict[int, Any]:
        """What the capture's file tells of where each event comes from in a program, by number."""
        return {
            number: event["source"]
            for number, event in enumerate(events_of(self.path), 1)
            if isinstance(event, dict) and "source" in event
        }

    # ---- Pixels, by their histories: never by steps
    def place(self, whole: bool) -> int:
        """Where histories are asked for: here, or at the end of the frame. What is known of them is so until an
        event is switched."""
        if self.switches != self.client.switches:
            self.histories, self.boxes, self.switches = {}, {}, self.client.switches
        return len(self) if whole else self.position

    def history(self, x: int, y: int, whole: bool = False) -> Reply:
        """The reply to `history` here, or at the end of the frame."""
        wanted = self.place(whole)
        if (x, y, wanted) not in self.histories:
            if self.position != wanted:
                wanted = self.client.goto(wanted)
            if len(self.histories) == KEPT:
                self.histories.clear()
            self.histories[x, y, wanted] = self.client.reply(f"history {x} {y}", History)
        return self.histories[x, y, wanted]

    def written(self, x: int, y: int, whole: bool = False) -> list[int]:
        """The events that wrote a pixel, as far as the position, or in the whole frame."""
        return [
            event
            for event, entries in by_event(self.history(x, y, whole).value.entries)
            if any(entry.is_drawn for entry in entries)
        ]

    def changes(self, x: int, y: int, whole: bool = False) -> list[Change]:
        """The events that changed a pixel, and what they made of it."""
        return changes_of(self.history(x, y, whole).value.entries)

    def changed_in(self, box: Box, whole: bool = False) -> list[int]:
        """The events that changed a pixel of a box, in their order, at least as far as the position or the frame's
        end."""
        wanted = self.place(whole)
        if self.boxes.get(box, (-1, []))[0] < wanted:
            if self.position != wanted:
                wanted = self.client.goto(wanted)
            left, top, right, bottom = box
            histories = self.client.histories([(x, y) for y in range(top, bottom) for x in range(left, right)])
            self.boxes[box] = wanted, sorted({change.event for entries in histories for change in changes_of(entries)})
        return self.boxes[box][1]


def changes_of(history: Iterable[Entry]) -> list[Change]:
    """What events changed, by the entries of a pixel's history."""
    found = []
    for event, entries in by_event(history):
        first, last = entries[0], entries[-1]
        depths = [first.depths.before, last.depths.after] if first.depths and last.depths else [0, 0]
        if (first.before, depths[0]) != (last.after, depths[1]):
            found.append(Change(event, first.before, last.after, last.depths.after if last.depths else None))
    return found


def by_event(history: Iterable[Entry]) -> list[tuple[int, list[Entry]]]:
    return [(event, list(entries)) for event, entries in groupby(history, attrgetter("event"))]
