"""Words about the program that a frame was taken of, as the capture's file tells of it, and ways to the frame's
other targets."""
import pathlib
from typing import TYPE_CHECKING, Any

import origins
import targets
from framedbg_client import Client

from .breakpoints import Breakpoints
from .faults import Slip
from .frame import DebuggedFrame
from .moving import here
from .what_if import WhatIf
from .words import WORDS, number, place

if TYPE_CHECKING:
    from .session import Session

MOST_TARGET = (1 << 64) - 1  # RenderDoc's numbers have up to 20 digits


@WORDS.add(
    "call",
    "call [K]",
    "the program's call that the event here, or event K, comes from",
    "With the calls that set a part of the state, and of a draw its shaders and the textures that it reads. It "
    "stands in the capture's file, where a converter wrote it.",
    takes=("event",),
)
def call(session: "Session", arguments: list[str]) -> None:
    if len(arguments) > 1:
        raise Slip("call [K] is wanted")
    frame = session.frame
    event = number(arguments[0], "K") if arguments else frame.position
    if not 1 <= event <= len(frame):
        raise Slip(f"there is no event {event}")
    session.tell(
        "note", *(origins.lines(frame.sources.get(event)) or [f"nothing is told of where event {event} comes from"])
    )


@WORDS.add(
    "into",
    "into [TARGET] [X Y]",
    "to the target that the draw here reads, as it was made: another capture of the same frame",
    "TARGET is its number or its name. With X Y it tells which pixel there the pixel X Y here shows, where a "
    "draw lays the whole of it over this target. Where a converter wrote the captures of all targets into one "
    "folder, with frame.json. Breakpoints, marks and what is off are each capture's own; out goes back.",
    takes=("number",),
)
def into(session: "Session", arguments: list[str]) -> None:
    frame = session.frame
    nothing: tuple[dict[str, Any], int | None] = {"reads": []}, None
    known, own = targets.beside(frame.path) or nothing
    reads = [one for one in known["reads"] if one["target"] == own and one["position"] == frame.position]
    pixel = arguments[-2:] if len(arguments) > 1 and all(text.isdigit() for text in arguments[-2:]) else []
    if len(arguments) > len(pixel):
        wanted = called(" ".join(arguments[: len(arguments) - len(pixel)]), known)
        reads = [one for one in reads if one["reads"] in wanted]
    found = {one["reads"]: one for one in reads}
    if not found:
        raise Slip(f"event {frame.position} reads no target that frame.json knows")
    if len(found) > 1:
        several = " and ".join(known_as(target, known) for target in found)
        raise Slip(f"the draw here reads {several}: into TARGET names one")
    (read,) = found.values()
    there = targets.texel(known, read, *place(pixel, "X Y")) if pixel else None
    if pixel and not there:
        raise Slip(f"which pixel {' '.join(pixel)} shows isn't told")
    (name,) = (one["capture"] for one in known["targets"] if one["target"] == read["reads"])
    enter(session, pathlib.Path(frame.path).with_name(name), read["at"])
    if there:
        session.tell("note", f"pixel {' '.join(pixel)} shows {there[0]} {there[1]} of it")


def called(text: str, known: dict[str, Any]) -> set[int]:
    """The targets that a word stands for: those of that name, or the one of that number."""
    named = {one["target"] for one in known.get("targets", ()) if one.get("name") == text}
    if not (named or text.isdigit()):
        raise Slip(f"no target of the frame is called {text}")
    return named or {number(text, "TARGET", MOST_TARGET)}


def known_as(target: int, known: dict[str, Any]) -> str:
    """A target's number, and its name where it has one."""
    names = [origins.name(one.get("name")) for one in known["targets"] if one["target"] == target]
    return " ".join([str(target), *filter(None, names)])


def enter(session: "Session", path: pathlib.Path, position: int) -> None:
    """Another capture, in the place of the one at hand, which stays as it is."""
    program, _, *more = session.frame.client.words
    try:
        client = Client(path, program, *more)
    except OSError as fault:
        raise Slip(f"{fault.filename}: {fault.strerror}") from None
    session.outer.append(
        (session.frame, session.breakpoints, session.bookmarks, session.found, session.past, session.what_if)
    )
    session.opened.append(client)
    session.frame, session.breakpoints, session.bookmarks, session.found, session.past = (
        DebuggedFrame(client),
        Breakpoints(),
        {},
        None,
        [],
    )
    session.what_if = WhatIf(session)
    session.tell("note", path.name)
    try:
        here(session, client.goto(min(position, len(session.frame))) < position)
    except KeyboardInterrupt:
        leave(session)
        raise


def leave(session: "Session") -> None:
    """The capture at hand, for the one before it."""
    session.what_if.close()
    (
        session.frame,
        session.breakpoints,
        session.bookmarks,
        session.found,
        session.past,
        session.what_if,
    ) = session.outer.pop()
    client = session.opened.pop()
    client.connection.end(at_once=client.is_asking)


@WORDS.add("out", "out", "back to the draw from which into went")
def out(session: "Session", arguments: list[str]) -> None:
    if arguments:
        raise Slip("nothing is wanted behind the word")
    if not session.outer:
        raise Slip("into went nowhere from here")
    leave(session)
    session.tell("note", pathlib.Path(session.frame.path).name)
    here(session, False)
