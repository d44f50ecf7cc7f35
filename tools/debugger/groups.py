"""The groups of a frame, each of which a marker begins.

A group goes on to the event before the next marker. Where a capture comes from a frame that RenderDoc took, its file
says of a marker with which call of the program its group ends; such groups may lie in one another.
"""
import json
import os
from collections.abc import Iterable, Mapping
from typing import Any, NamedTuple

from captures import MOST_BYTES, Event


class Source(NamedTuple):
    """The call of a program that an event comes from, and the last one of a marker's group; each may be unknown."""

    call: int | None = None
    until: int | None = None


class Groups:
    def __init__(self, kinds: Iterable[str], sources: Mapping[int, Source]) -> None:
        """The kinds of the events, and the Source of those that have one, by number."""
        self.ends: dict[int, int] = {}  # of each marker the last event of its group
        heads: tuple[int, ...] = ()
        self.heads = [heads]  # of each position the markers whose groups have the event before it, the outermost first
        known: dict[int, int | None] = {}
        for event, kind in enumerate(kinds, 1):
            call, until = sources.get(event, Source())
            heads = tuple(head for head in heads if goes_on(known[head], kind, call))
            if kind == "marker":
                known[event] = until
                heads += (event,)
            for head in heads:
                self.ends[head] = event
            self.heads.append(heads)

    def end(self, position: int) -> int | None:
        """Where the innermost group ends that goes on after a position, or None."""
        return next((self.ends[head] for head in reversed(self.heads[position]) if self.ends[head] > position), None)

    def start(self, position: int) -> int | None:
        """The marker of the innermost group that a position is in, or None."""
        return self.heads[position][-1] if self.heads[position] else None


def goes_on(until: int | None, kind: str, call: int | None) -> bool:
    """Whether an event still belongs to a group."""
    return kind != "marker" if until is None else call is None or call <= until


def sources_of(path: str | os.PathLike[str]) -> dict[int, Source]:
    """The Source of each event of a capture's file that has one, as renderdoc_to_capture writes them. Without
    `until` in the file there is nothing to know."""
    return {
        number: source_of(event["source"])
        for number, event in enumerate(events_of(path, b'"until"'), 1)
        if "source" in event
    }


def events_of(path: str | os.PathLike[str], wanted: bytes = b'"source"') -> list[Event]:
    """The events as they stand in a capture's file; none where a text isn't in it, or where it isn't there any more,
    or another one is."""
    try:
        with open(path, "rb") as file:
            data = file.read(MOST_BYTES)
        events = json.loads(data)["events"] if wanted in data else []
        return events if all(isinstance(event, dict) for event in events) else []
    except (OSError, ValueError, TypeError, KeyError, RecursionError):
        return []


def source_of(given: Any) -> Source:
    call, until = (given.get("event"), given.get("until")) if isinstance(given, dict) else (None, None)
    return Source(call, until if isinstance(until, int) else None) if isinstance(call, int) else Source()
