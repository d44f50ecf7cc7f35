"""A change of a capture: an event with another value, or elsewhere. `set 8 mask 15` and `move 14 after 9` are such."""
from collections.abc import Container, Sequence
from typing import Any

from captures import Event, marker

from .contents import MEMBERS

Change = dict[str, Any]  # {"set": number, "members": {..}}, or {"move": number, "to": its number then}

FIXED = {"kind", "vertices", "indices", "picture", "source"}  # members of an event that aren't changed so
TRUTHS = {"on": True, "true": True, "off": False, "false": False}
WAYS = ("after", "before")
MOVE = "move EVENT after EVENT, or move EVENT before EVENT"


class Wrong(Exception):
    """It is no change of this capture; the text says why."""


def members_of(kind: str) -> list[str]:
    """The names of what may be set of an event."""
    return [name for name in MEMBERS[kind] if name not in FIXED]


def read_change(line: str, kinds: Sequence[str]) -> Change:
    """What a line asks for. `kinds` are those of the events."""
    word, *rest = line.split()
    if word == "move":
        if len(rest) != 3 or rest[1] not in WAYS:
            raise Wrong(MOVE)
        number, other, after = numbered(rest[0], line, kinds), numbered(rest[2], line, kinds), rest[1] == "after"
        return {"move": number, "to": other + after - (other > number) - (other == number and after)}
    number = numbered(rest[0] if rest else "", line, kinds)
    kind, name, values = kinds[number - 1], rest[1] if len(rest) > 1 else None, [read(text) for text in rest[2:]]
    if name not in members_of(kind) or not values:
        raise Wrong(f"set EVENT NAME VALUE: event {number} is a {kind}, and has {', '.join(members_of(kind))}")
    value = " ".join(rest[2:]) if kind == "marker" else values if len(values) > 1 else values[0]
    return {"set": number, "members": {name: value}}


def numbered(text: str, line: str, kinds: Sequence[str]) -> int:
    if not (text.isascii() and text.isdigit() and len(text) < 10 and 1 <= int(text) <= len(kinds)):
        raise Wrong(f"{line}: events are numbered from 1 to {len(kinds)}")
    return int(text)


def read(text: str) -> int | bool | str:
    """A value as it is typed."""
    is_number = text.removeprefix("-").isdigit() and text.isascii() and len(text) < 20
    return TRUTHS[text] if text in TRUTHS else int(text) if is_number else text


def changed(events: list[Any], wanted: Change) -> list[Any]:
    """The events after a change, whatever it came from: Wrong where it is none of these."""
    if "move" in wanted:
        number, to = (within(wanted[name], events) for name in ("move", "to"))
        others = events[: number - 1] + events[number:]
        return others[: to - 1] + [events[number - 1]] + others[to - 1 :]
    number, members = within(wanted["set"], events), wanted["members"]
    event = events[number - 1]
    for name in members:
        if name in FIXED or name not in event:
            raise Wrong(f"event {number} has no {name} to be set")
    return events[: number - 1] + [{**event, **members}] + events[number:]


def within(number: Any, events: Sequence[Any]) -> int:
    if type(number) is not int or not 1 <= number <= len(events):
        raise Wrong(f"events are numbered from 1 to {len(events)}")
    return number


def without(events: list[Event], off: Container[int]) -> list[Event]:
    """The events, of which those that are off are none: a marker stands there, so that no number becomes another."""
    return [marker("off") if number in off else event for number, event in enumerate(events, 1)]
