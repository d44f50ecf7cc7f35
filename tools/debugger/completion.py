"""What may stand at the end of a line that is being typed."""
import glob
import os
from collections.abc import Callable, Iterable, Sequence

from captures import CULLS, FACTORS, FUNCTIONS, INTERPOLATIONS, KINDS, OPERATIONS

from .bookmarks import LAST
from .changing import WAYS, members_of
from .session import Session
from .words import OWN, WORDS

Find = Callable[[Session, str], list[str]]  # what may stand where a word has begun so

MOST = 200  # candidates: of more the list is no help
OWN_TAKES = {
    "goto": ("position",),
    "on": ("off", "off"),
    "off": ("on", "on"),
    "pixel": ("number", "number"),
    "history": ("number", "number"),
}


def candidates(session: Session, line: str, begun: str) -> list[str]:
    """The words that may stand for the one that is begun, behind what stands before it in the line."""
    before = line.split()
    if not before:
        return [f"{name} " for name in WORDS.names() if name.startswith(begun)]
    name, at = before[0], len(before) - 1
    if name == "there":
        return candidates(session, line.split(None, 1)[1] if at else "", begun)
    takes = OWN_TAKES.get(name) if name in OWN else WORDS.named[name].takes if name in WORDS.named else ()
    if not takes:
        return []
    if takes[0] in ("on", "off"):
        at = 0  # as many as one likes
    taken = takes[at] if at < len(takes) else None
    if taken in ("member", "value"):
        return [name for name in of_event(session, before[1:]) if name.startswith(begun)]
    return FOUND.get(taken, lambda *_: [])(session, begun)


def of_event(session: Session, before: list[str]) -> Sequence[str]:
    """What of an event may be set, or the values that are words."""
    if not (before[0].isascii() and before[0].isdigit() and 1 <= int(before[0]) <= len(session.frame)):
        return []
    members = members_of(session.frame.kind(int(before[0])))
    return members if len(before) == 1 else VALUES.get(before[1], ()) if before[1] in members else []


def events(
    session: Session, begun: str, is_wanted: Callable[[int], bool] = lambda event: True, first: int = 1
) -> list[str]:
    """Numbers that begin so."""
    found = []
    for event in range(first, len(session.frame) + 1):
        if str(event).startswith(begun) and is_wanted(event):
            found.append(str(event))
            if len(found) == MOST:
                break
    return found


def named(names: Callable[[Session], Iterable[str]] | Sequence[str]) -> Find:
    return lambda session, begun: [
        name for name in (names(session) if callable(names) else names) if name.startswith(begun)
    ]


def files(_: Session, begun: str) -> list[str]:
    return [
        path + "/" if os.path.isdir(path) else path
        for path in sorted(glob.glob(glob.escape(os.path.expanduser(begun)) + "*"))
    ]


PART = (*FACTORS, *OPERATIONS)
VALUES: dict[str, Sequence[str]] = {
    "enable": ("on", "off"),
    "write": ("on", "off"),
    "front_ccw": ("on", "off"),
    "scissor": ("on", "off"),
    "cull": CULLS,
    "func": FUNCTIONS,
    "interp": INTERPOLATIONS,
    "rgb": PART,
    "alpha": PART,
}
FOUND: dict[str | None, Find] = {
    "event": events,
    "position": lambda session, begun: events(session, begun, first=0)
    + named(lambda session: [LAST, *sorted(session.bookmarks)])(session, begun),
    "on": lambda session, begun: events(session, begun, session.frame.is_on),
    "off": lambda session, begun: events(session, begun, lambda event: not session.frame.is_on(event)),
    "breakpoint": lambda session, begun: named([*KINDS, "pixel"])(session, begun)
    if not begun[:1].isdigit()
    else events(session, begun),
    "info": named(["off", "b"]),
    "way": named(WAYS),
    "mark": named(lambda session: sorted(session.bookmarks)),
    "given": named(lambda session: map(str, session.breakpoints.numbered)),
    "word": named(lambda _: WORDS.names()),
    "file": files,
}
