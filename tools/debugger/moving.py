"""Words that go through the frame."""
from typing import TYPE_CHECKING

from .bookmarks import LAST
from .breakpoints import AtPixel, Place
from .faults import Slip
from .frame import WRITERS
from .words import WORDS, number, place

if TYPE_CHECKING:
    from .session import Session


def here(session: "Session", stopped: bool = False) -> None:
    session.tell("here", session.frame, stopped)


def go(session: "Session", position: int) -> None:
    """Goes there, and tells where that is."""
    here(session, session.frame.client.goto(position) < position)


def times(arguments: list[str]) -> int:
    if len(arguments) > 1:
        raise Slip("at most one number is wanted: how many events")
    return number(arguments[0], "N") if arguments else 1


@WORDS.add(
    "s",
    "s [N]",
    "through the next event, or the next N",
    "At the end nothing changes. 'step' is framedbg's own, with its own reply.",
    takes=("count",),
    repeats=True,
)
def forward(session: "Session", arguments: list[str]) -> None:
    by, frame = times(arguments), session.frame
    if by == 1 or frame.position == len(frame):
        before = frame.position
        return here(session, frame.client.step() == before)
    go(session, min(frame.position + by, len(frame)))


@WORDS.add(
    "rs",
    "rs [N]",
    "back over the last event, or the last N",
    "As 'reverse-step' of gdb and rr. 'back' is framedbg's own, with its own reply.",
    also=("reverse-step",),
    takes=("count",),
    repeats=True,
)
def backward(session: "Session", arguments: list[str]) -> None:
    by, frame = times(arguments), session.frame
    if by == 1 or frame.position == 0:
        frame.client.back()
        return here(session)
    go(session, max(0, frame.position - by))


def to_writer(session: "Session", arguments: list[str], forward: bool) -> None:
    if arguments:
        raise Slip("nothing is wanted behind the word")
    frame = session.frame
    event = frame.nearest(lambda event: frame.kind(event) in WRITERS, forward)
    if event is None:
        raise Slip(f"no draw or clear {'after' if forward else 'before'} {frame.position}")
    go(session, event)


@WORDS.add("n", "n", "to the next draw or clear that is on", also=("next",), repeats=True)
def to_next_writer(session: "Session", arguments: list[str]) -> None:
    to_writer(session, arguments, True)


@WORDS.add("rn", "rn", "to the draw or clear before", also=("reverse-next",), repeats=True)
def to_writer_before(session: "Session", arguments: list[str]) -> None:
    to_writer(session, arguments, False)


@WORDS.add(
    "g",
    "g K | end | NAME",
    "to position K: the first K events have been gone through; or to a mark",
    "'goto' is framedbg's own, with its own reply.",
    takes=("position",),
)
def go_to(session: "Session", arguments: list[str]) -> None:
    if len(arguments) != 1:
        raise Slip("g K is wanted")
    named = {LAST: len(session.frame), **session.bookmarks}
    text = arguments[0]
    if text not in named and not text[:1].isdigit():
        raise Slip(f"K is a whole number, end or a mark, and not {text}; marks lists them")
    go(session, named[text] if text in named else number(text, "K"))


# ---- Groups
GROUP = (
    "A group goes on to the next marker. Where a capture comes from a frame that RenderDoc took, it ends where "
    "that frame's group does, and may have groups inside."
)


@WORDS.add(
    "finish",
    "finish",
    "to the last event of the marker's group",
    f"Of several the innermost that goes on. {GROUP}",
    also=("fin",),
)
def finish(session: "Session", arguments: list[str]) -> None:
    if arguments:
        raise Slip("nothing is wanted behind the word")
    end = session.frame.groups.end(session.frame.position)
    if end is None:
        raise Slip(f"no marker's group goes on after {session.frame.position}")
    go(session, end)


@WORDS.add(
    "reverse-finish",
    "reverse-finish",
    "back to where the marker's group begins, before its marker",
    f"Said again it goes out of the group round that one. {GROUP}",
    also=("rfin",),
)
def finish_backward(session: "Session", arguments: list[str]) -> None:
    if arguments:
        raise Slip("nothing is wanted behind the word")
    marker = session.frame.groups.start(session.frame.position)
    if marker is None:
        raise Slip(f"no marker's group has event {session.frame.position}")
    go(session, marker - 1)


# ---- Breakpoints
def run_on(session: "Session", arguments: list[str], forward: bool) -> None:
    """To the nearest breakpoint, or where the frame ends. A move that memory stops before a breakpoint stays where
    it came to."""
    if arguments:
        raise Slip("nothing is wanted behind the word")
    frame = session.frame
    home, edge = frame.position, len(frame) if forward else 0
    if home == edge:
        frame.client.step() if forward else frame.client.back()  # which is refused
    position, stops = session.breakpoints.next(frame, forward)
    if position is None:
        reached = frame.client.goto(edge)
        session.tell("note", f"no breakpoint {'after' if forward else 'before'} {home}")
        return here(session, reached != edge)
    reached = frame.client.goto(position)
    if reached == position:
        tell_stops(session, stops, position)
    here(session, reached != position)


def tell_stops(session: "Session", stops: list[tuple[int, Place]], position: int) -> None:
    for given, what in stops:
        session.tell("note", session.breakpoints.told(given))
        if isinstance(what, AtPixel):
            for change in what.changes(session.frame):
                if change.event == position:
                    session.tell("change", what.place, change)
    session.breakpoints.delete(session.breakpoints.once.intersection(given for given, _ in stops))


@WORDS.add("c", "c", "on to the next breakpoint, or to the end", also=("continue",), repeats=True)
def continue_forward(session: "Session", arguments: list[str]) -> None:
    run_on(session, arguments, True)


@WORDS.add("rc", "rc", "back to the breakpoint before, or to the start", also=("reverse-continue",), repeats=True)
def continue_backward(session: "Session", arguments: list[str]) -> None:
    run_on(session, arguments, False)


# ---- Where a pixel was written
def to_write(session: "Session", x: int, y: int, event: int) -> None:
    session.found = (x, y, event)
    go(session, event)
    session.tell("entries", session.frame.history(x, y), event)


@WORDS.add(
    "last",
    "last X Y",
    "to the event that wrote the pixel last, up to here",
    "Said again, it goes on to the write before.",
    takes=("number", "number"),
    repeats=True,
)
def to_last_write(session: "Session", arguments: list[str]) -> None:
    x, y = place(arguments, "last X Y")
    position = session.frame.position
    again = session.found == (x, y, position)
    events = [event for event in session.frame.written(x, y) if event < position + (not again)]
    if not events:
        raise Slip(f"nothing wrote that pixel {'before' if again else 'up to'} {position}")
    to_write(session, x, y, events[-1])


@WORDS.add(
    "first", "first X Y", "to the event of the whole frame that wrote the pixel first", takes=("number", "number")
)
def to_first_write(session: "Session", arguments: list[str]) -> None:
    x, y = place(arguments, "first X Y")
    frame = session.frame
    home = frame.position
    events = frame.written(x, y) or frame.written(x, y, whole=True)
    if not events:
        frame.client.goto(home)
        raise Slip("nothing writes that pixel")
    to_write(session, x, y, events[0])
