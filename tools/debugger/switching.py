"""Several events switched at once. One alone is framedbg's own line."""
from typing import TYPE_CHECKING

from .faults import Slip
from .moving import go
from .words import WORDS, number

if TYPE_CHECKING:
    from .session import Session


def switch(session: "Session", arguments: list[str], on: bool) -> None:
    client, numbers = session.frame.client, sorted({number(text, "I") for text in arguments})
    for event in numbers:
        if not 1 <= event <= len(session.frame):
            raise Slip(f"there is no event {event}")
        if (event not in client.off) == on:
            raise Slip(f"event {event} is {'on' if on else 'off'} already")
    for event in numbers:
        client.switch(event, on)
    session.tell("note", f"at {client.position}")


@WORDS.add(
    "off",
    "off I [J ..]",
    "switches events off, and draws anew from there",
    "With one event it is framedbg's own line.",
    takes=("on", "on"),
)
def switch_off(session: "Session", arguments: list[str]) -> None:
    switch(session, arguments, False)


@WORDS.add(
    "on", "on I [J ..]", "switches events on again", "With one event it is framedbg's own line.", takes=("off", "off")
)
def switch_on(session: "Session", arguments: list[str]) -> None:
    switch(session, arguments, True)


@WORDS.add(
    "undo",
    "undo",
    "takes the last word back that moved, switched or changed",
    "Said again it takes the one before it back, up to 1000 of them. A script is one.",
)
def undo(session: "Session", arguments: list[str]) -> None:
    if arguments:
        raise Slip("nothing is wanted behind the word")
    if not session.past:
        raise Slip("there is nothing to take back")
    position, off, changes = session.past.pop()
    client, is_changed = session.frame.client, changes != session.what_if.changes
    for event in sorted(client.off ^ off):
        client.switch(event, event not in off)
    if is_changed:
        session.what_if.become(changes)
    go(session, position)
