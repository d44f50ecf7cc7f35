"""Words that ask, and change nothing."""
from typing import TYPE_CHECKING

from framedbg_client import Pixel

from .faults import Slip
from .words import OWN, WORDS, number, place

if TYPE_CHECKING:
    from .session import Session

ROUND = 5  # events that are listed before the position, and after it


@WORDS.add(
    "who",
    "who X Y",
    "what each event and triangle did to the pixel, up to here",
    "'history' is framedbg's own, with its own reply.",
    takes=("number", "number"),
)
def who(session: "Session", arguments: list[str]) -> None:
    session.tell("history", session.frame.history(*place(arguments, "who X Y")))


@WORDS.add(
    "p",
    "p X Y",
    "the pixel's colour, and its depth where the capture has depth",
    "'pixel' is framedbg's own, with its own reply.",
    also=("print",),
    takes=("number", "number"),
)
def pixel(session: "Session", arguments: list[str]) -> None:
    x, y = place(arguments, "p X Y")
    session.tell("pixel", session.frame.client.reply(f"pixel {x} {y}", Pixel))


@WORDS.add(
    "l", "l [K [J]]", "the events round here, or round K, or from K to J", also=("list",), takes=("event", "event")
)
def list_events(session: "Session", arguments: list[str]) -> None:
    frame, bounds = session.frame, [number(text, "K") for text in arguments]
    if len(bounds) > 2:
        raise Slip("l [K [J]] is wanted")
    middle = bounds[0] if bounds else frame.position
    first, last = bounds if len(bounds) == 2 else (middle - ROUND, middle + ROUND)
    for event in range(max(1, first), min(len(frame), last) + 1):
        session.tell("event", frame, event)


@WORDS.add(
    "i",
    "i [off | b]",
    "the pipeline state, and which event set each part; 'i off' what is off, 'i b' the breakpoints",
    "It is the state that the next event meets, and that a draw was drawn with where you stand on it. 'state' "
    "is framedbg's own, with its own reply.",
    also=("info",),
    takes=("info",),
)
def info(session: "Session", arguments: list[str]) -> None:
    asked = {(): tell_state, ("off",): tell_off, ("b",): tell_breakpoints, ("breakpoints",): tell_breakpoints}.get(
        tuple(arguments)
    )
    if asked is None:
        raise Slip("i, i off or i b is wanted")
    asked(session)


def tell_state(session: "Session") -> None:
    session.tell("state", session.frame, session.frame.client.state())


def tell_off(session: "Session") -> None:
    off = sorted(session.frame.client.off)
    for event in off:
        session.tell("event", session.frame, event)
    if not off:
        session.tell("note", "all events are on")


def tell_breakpoints(session: "Session") -> None:
    breakpoints = session.breakpoints
    session.tell("note", *map(breakpoints.told, breakpoints.numbered) if breakpoints.numbered else ["no breakpoints"])


@WORDS.add("help", "help [WORD]", "the words, or more of one", also=("h",), takes=("word",))
def tell_help(session: "Session", arguments: list[str]) -> None:
    if arguments:
        if arguments[0] in OWN and arguments[0] not in WORDS.named:
            return session.tell(
                "note", f"{arguments[0]}: a line of framedbg's own, with its own reply", f"  {OWN[arguments[0]]}"
            )
        word = WORDS.find(arguments[0])
        also = f" (also {', '.join(word.also)})" if word.also else ""
        return session.tell(
            "note", f"{word.usage}{also}", f"  {word.short}", *([f"  {word.long}"] if word.long else [])
        )
    session.tell("note", *(f"{word.usage:<25} {word.short}" for word in WORDS.listed))
    session.tell(
        "note",
        "and each line of framedbg itself: step, back, goto K, on I, off I, pixel X Y, history X Y, state, "
        "events, show, quit",
    )
