"""A capture's text, an event a line. What framedbg would refuse for its length isn't written."""
from typing import Any

from captures import MOST_BYTES, MOST_EVENTS, compact, joined

from .model import Fault

MOST_HEAD = 100  # bytes before and after the events


def text_of(made: dict[str, Any], triangles: int) -> str:
    """The capture's text, unless framedbg would refuse it for its length."""
    lines: list[str] = []
    length = 0
    for event in made["events"]:
        lines.append(compact(event))
        length += len(lines[-1].encode()) + 2
        if length > MOST_BYTES - MOST_HEAD or len(lines) > MOST_EVENTS:
            raise Fault(
                f"a capture has at most {MOST_BYTES} bytes and {MOST_EVENTS} events, and its {triangles} "
                f"triangles take more: make them fewer"
            )
    return joined(made, lines)
