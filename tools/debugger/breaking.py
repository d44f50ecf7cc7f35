"""Words that set and take away breakpoints."""
from typing import TYPE_CHECKING

from captures import KINDS
from framedbg_client import Pixel

from .breakpoints import AtEvent, AtPixel, InBox, OfKind, Place
from .conditions import condition_of
from .faults import Slip
from .frame import WRITERS
from .words import WORDS, number, place

if TYPE_CHECKING:
    from .session import Session

MOST_PIXELS = 1 << 16  # of a box: framedbg is asked for the history of each of them
BOX = (
    "Behind draw, clear or depth_clear may stand in L T R B, as in b draw in 10 10 20 20: it stops where such "
    "an event changes a pixel of that box, right and bottom exclusive."
)
CONDITION = (
    "Behind X Y may stand if CHANNEL SIGN VALUE, as in b pixel 5 5 if red > 200: it stops where that holds "
    "after the change."
)


def at_pixel(session: "Session", arguments: list[str], usage: str) -> AtPixel:
    at = arguments.index("if") if "if" in arguments else len(arguments)
    x, y = place(arguments[:at], usage)
    condition = condition_of(arguments[at + 1 :]) if at < len(arguments) else None
    session.frame.client.reply(f"pixel {x} {y}", Pixel)  # refused where there is no such pixel
    return AtPixel(x, y, condition)


def in_box(session: "Session", kind: str, arguments: list[str]) -> InBox:
    """Where an event of a kind changes a pixel of a box."""
    if kind not in WRITERS or len(arguments) != 4:
        raise Slip(f"KIND in L T R B is wanted, and KIND is one of {', '.join(WRITERS)}")
    left, top, right, bottom = (number(text, name) for text, name in zip(arguments, "LTRB"))
    if not 0 < (right - left) * (bottom - top) <= MOST_PIXELS or right < left:
        raise Slip(f"a box has from 1 to {MOST_PIXELS} pixels: L is less than R, and T less than B")
    session.frame.client.reply(f"pixel {right - 1} {bottom - 1}", Pixel)  # refused where there is no such pixel
    return InBox(kind, (left, top, right, bottom))


def set_breakpoint(session: "Session", what: Place, once: bool = False) -> None:
    session.tell("note", session.breakpoints.told(session.breakpoints.add(what, once)))


def place_of(session: "Session", arguments: list[str], word: str) -> Place:
    """Where a breakpoint is to stand that is set by a word."""
    if arguments[:1] == ["pixel"]:
        return at_pixel(session, arguments[1:], f"{word} pixel X Y")
    if arguments[1:2] == ["in"]:
        return in_box(session, arguments[0], arguments[2:])
    if len(arguments) != 1:
        raise Slip(f"{word} K, {word} KIND or {word} pixel X Y is wanted")
    if arguments[0] in KINDS:
        return OfKind(arguments[0])
    if not arguments[0][:1].isdigit():
        raise Slip(f"a kind is one of {', '.join(KINDS)}, and not {arguments[0]}")
    what = AtEvent(number(arguments[0], "K", len(session.frame)))
    if what.event == 0:
        raise Slip("events are numbered from 1")
    return what


@WORDS.add(
    "b",
    "b K | KIND | pixel X Y",
    "a breakpoint at event K, at events of a kind that are on, or where the pixel changes",
    f"c and rc stop on it: the event has just been gone through, and rs goes before it. A pixel's are found by "
    f"its history, forward and back. {CONDITION} {BOX}",
    also=("break",),
    takes=("breakpoint", "number", "number"),
)
def break_at(session: "Session", arguments: list[str]) -> None:
    set_breakpoint(session, place_of(session, arguments, "b"))


@WORDS.add(
    "tbreak",
    "tbreak K | KIND | ..",
    "a breakpoint as b sets it, which is gone after its first stop",
    also=("tb",),
    takes=("breakpoint", "number", "number"),
)
def break_once(session: "Session", arguments: list[str]) -> None:
    set_breakpoint(session, place_of(session, arguments, "tbreak"), once=True)


@WORDS.add("watch", "watch X Y", "a breakpoint where the pixel changes, as b pixel X Y", takes=("number", "number"))
def watch(session: "Session", arguments: list[str]) -> None:
    set_breakpoint(session, at_pixel(session, arguments, "watch X Y"))


def given(session: "Session", arguments: list[str], usage: str) -> list[int]:
    """The breakpoint that a number names, or all of them."""
    known = session.breakpoints.numbered
    if len(arguments) > 1:
        raise Slip(f"{usage} is wanted")
    if not arguments:
        return list(known)
    named = number(arguments[0], "N")
    if named not in known:
        raise Slip(f"there is no breakpoint {named}")
    return [named]


@WORDS.add("delete", "delete [N]", "takes breakpoint N away, or all of them", takes=("given",))
def delete(session: "Session", arguments: list[str]) -> None:
    session.breakpoints.delete(given(session, arguments, "delete [N]"))


@WORDS.add("disable", "disable [N]", "lets breakpoint N, or all of them, stop nowhere until enable", takes=("given",))
def disable(session: "Session", arguments: list[str]) -> None:
    session.breakpoints.disabled.update(given(session, arguments, "disable [N]"))


@WORDS.add("enable", "enable [N]", "lets breakpoint N, or all of them, stop again", takes=("given",))
def enable(session: "Session", arguments: list[str]) -> None:
    session.breakpoints.disabled.difference_update(given(session, arguments, "enable [N]"))
