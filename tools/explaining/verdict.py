"""Whether framedbg accepts a capture, and why not, in words."""
from typing import Any

import origins
from captures import MOST_BYTES
from writing.counting import counted

from . import json_text, rules

MOST_NUMBER, MOST_NAME = 1 << 64, 60  # of a call that is shown: its number is below, its name has so many characters
MOST_ORIGIN = 160  # characters of what else is told of where an event comes from


def explained(data: bytes) -> tuple[bool, str, str]:
    """Whether a capture of these bytes is accepted, framedbg's own word for it, and the explanation."""
    if len(data) > MOST_BYTES:
        return False, "1 too long", f"it has more than {MOST_BYTES} bytes"
    text = data.decode("utf-8", "replace")
    try:
        text = json_text.decoded(data)
        capture = json_text.read(text)
        rules.check(capture)
    except json_text.Malformed as fault:
        return False, "2 not json", f"{place(text, fault.at)}: {fault}"
    except rules.Wrong as fault:
        number = f" {fault.event}" if fault.event else ""
        return (
            False,
            f"{fault.fault} {rules.FAULTS[fault.fault]}{number}",
            f"{place(text, json_text.locate(text, fault.path))}: {named(capture, fault)}{fault}",
        )
    size = f"{capture['width']} by {capture['height']} pixels"
    return True, "accepted", f"version {capture['version']}, {size}, {counted(len(capture['events']), 'event')}"


def place(text: str, at: int) -> str:
    return "line {}, column {}".format(*json_text.line_and_column(text, at))


def call(event: Any) -> str:
    """The call that an event comes from, where it says one, and what else it tells of that: of call 363
    glDrawElements() (reads texture 35 lit)"""
    source = event.get("source") if isinstance(event, dict) else None
    number, name = (source.get(word) for word in ("event", "name")) if isinstance(source, dict) else (None, None)
    words = [str(number)] if type(number) is int and 0 <= number < MOST_NUMBER else []
    words += [name[:MOST_NAME]] if isinstance(name, str) and name else []
    more = [line for line in origins.lines(source) if not line.startswith("call ")]
    return (f" of call {' '.join(words)}" if words else "") + (f" ({'; '.join(more)[:MOST_ORIGIN]})" if more else "")


def named(capture: Any, fault: rules.Wrong) -> str:
    """The way to the member in words: event 5 (draw) of call 363 glDrawElements(), vertex 3, color 0"""
    words = []
    path: list[Any] = list(fault.path)
    if path[:1] == ["events"] and len(path) > 1:
        event = capture["events"][path[1]]
        kind = event.get("kind") if isinstance(event, dict) else None
        words.append(
            f"event {path[1] + 1}" + (f" ({kind})" if isinstance(kind, str) and fault.fault == 8 else "") + call(event)
        )
        path = path[2:]
    while path:
        name = path.pop(0)
        number = path.pop(0) if path and isinstance(path[0], int) else None
        words.append(
            name if number is None else f"{ {'vertices': 'vertex', 'indices': 'index'}.get(name, name) } {number}"
        )
    return ", ".join(words) + ": " if words else ""
