"""What if an event were another one, or stood elsewhere: the capture changed so, in a run beside the one that is
shown."""
import json
import os
import pathlib
import tempfile
from collections.abc import Iterable
from typing import TYPE_CHECKING

from captures import MOST_BYTES, text
from explaining.verdict import explained
from framedbg_client import Client, Ended
from writing.files import keep as keep_file

from .aligning import aligned
from .changing import Change, Wrong, changed, read_change, without
from .contents import Contents
from .differing import tell_change, tell_pictures
from .faults import Slip
from .frame import DebuggedFrame
from .telling import printable
from .words import WORDS

if TYPE_CHECKING:
    from .session import Session

REFUSED = 2  # framedbg's status for a capture
OF_THE_SESSION = (
    "set",
    "move",
    "keep",
    "drop",
    "there",
    "undo",
    "run",
    "source",
    "q",
    "quit",
)  # words that ask nothing of a frame
SET = (
    "Numbers are those of the frame that is shown, which stays as it is. "
    "Events that are off are none in the changed one."
)


class Beside:
    """A run of the changed capture. `numbers` are those that its events have in the frame that is shown."""

    frame: DebuggedFrame  # as soon as framedbg has accepted the capture

    def __init__(self, frame: DebuggedFrame, capture: bytes, numbers: list[int]) -> None:
        program, _, workers, errors = frame.client.words
        self.numbers, self.room = numbers, tempfile.TemporaryDirectory(prefix="fdb-")
        self.path = pathlib.Path(self.room.name) / pathlib.Path(frame.path).name
        self.path.write_bytes(capture)
        self.client = Client(self.path, program, workers, errors)

    def close(self) -> None:
        self.client.connection.end(at_once=True)
        self.room.cleanup()


class WhatIf:
    """What was changed, one thing after the other, as {"set": ..} and {"move": ..} of changing.py in the numbers
    of the capture at that time."""

    def __init__(self, session: "Session") -> None:
        self.session = session
        self.changes: tuple[Change, ...] = ()
        self.beside: Beside | None = None

    def close(self) -> None:
        if self.beside:
            self.beside.close()
        self.beside = None

    def capture(self, changes: Iterable[Change]) -> tuple[bytes, list[int]]:
        """The capture with some changes, and the numbers of its events in the frame that is shown."""
        frame = self.session.frame
        with open(frame.path, "rb") as file:
            capture = json.loads(file.read(MOST_BYTES))
        events, numbers = without(capture["events"], frame.client.off), list(range(1, len(frame) + 1))
        for change in changes:
            events, numbers = changed(events, change), changed(numbers, change) if "move" in change else numbers
        return text(capture | {"events": events}).encode(), numbers

    def read(self, line: str) -> Change:
        """A change that is typed, after those that are made: its numbers are the shown frame's, and these may
        stand elsewhere already."""
        frame = self.session.frame
        numbers = self.beside.numbers if self.beside else list(range(1, len(frame) + 1))
        change, at = read_change(line, frame.kinds), lambda number: numbers.index(number) + 1
        if "set" in change:
            return change | {"set": at(change["set"])}
        _, number, way, other = line.split()
        moved, rest = at(int(number)), [one for one in numbers if one != int(number)]
        return {"move": moved, "to": rest.index(int(other)) + 1 + (way == "after") if number != other else moved}

    def become(self, changes: tuple[Change, ...]) -> None:
        """Has these changes, and tells what they come to; none of it where that fails."""
        beside = None
        try:
            if changes:
                data, numbers = self.capture(changes)
                beside = Beside(self.session.frame, data, numbers)
                told = self.compared(beside, changes, data)
        except BaseException as fault:
            if beside:
                beside.close()
            if isinstance(fault, (OSError, ValueError, KeyError, Wrong)):
                raise Slip(f"the capture can't be changed: {getattr(fault, 'strerror', None) or fault}") from None
            raise
        self.close()
        self.beside, self.changes = beside, changes
        self.session.tell("note", *(told if changes else ["nothing is changed"]))

    def compared(self, beside: Beside, changes: Iterable[Change], data: bytes) -> list[str]:
        """What differs, event by event and in the pictures, of the shown frame and of that beside, which
        framedbg may refuse."""
        frame = self.session.frame
        home = frame.position
        try:
            other = beside.frame = DebuggedFrame(beside.client)
            touched = touched_by(changes, len(frame))
            steps = steps_to(beside.numbers)
            same = {(i, j) for i, j in steps if i and j and i not in touched}
            return [*tell_changes([frame, other], beside, touched, steps), *tell_pictures([frame, other], steps, same)]
        except Ended as ended:
            if frame.client.connection.ending:
                raise
            raise Slip(
                f"framedbg refuses it: {explained(data)[2]}" if ended.status == REFUSED else f"beside: {ended}"
            ) from None
        finally:
            if not frame.client.connection.ending and not frame.client.is_asking:
                frame.client.goto(home)


def touched_by(changes: Iterable[Change], count: int) -> set[int]:
    """The events that were set, by their numbers in the frame that is shown."""
    numbers, touched = list(range(1, count + 1)), set()
    for change in changes:
        if "set" in change:
            touched.add(numbers[change["set"] - 1])
        else:
            numbers = changed(numbers, change)
    return touched


def steps_to(numbers: list[int]) -> list[tuple[int, int]]:
    """The steps through the shown frame and the changed one, as `aligned` has them: an event that moved goes at
    one place, and comes at another."""
    shown = list(range(1, len(numbers) + 1))
    return aligned(shown, numbers, ([f"from {number}" for number in shown], [f"to {number}" for number in numbers]))


def tell_changes(
    frames: list[DebuggedFrame], beside: Beside, touched: set[int], steps: Iterable[tuple[int, int]]
) -> list[str]:
    contents = [Contents(frame.path) for frame in frames] if touched else []
    places, told = {number: at for at, number in enumerate(beside.numbers, 1)}, []
    told += [
        f"changed {number} to {places[number]}: {tell_change(frames, contents, number, places[number])}"
        for number in sorted(touched)
    ]
    return told + [f"moved {i} to {places[i]}: {frames[0].events[i - 1]}" for i, j in steps if not j]


def change(session: "Session", line: str) -> None:
    what_if = session.what_if
    try:
        wanted = what_if.read(line)
    except Wrong as wrong:
        raise Slip(str(wrong)) from None
    what_if.become((*what_if.changes, wanted))


def beside_of(session: "Session") -> Beside:
    if not session.what_if.beside:
        raise Slip("nothing is changed: set and move do that")
    return session.what_if.beside


@WORDS.add(
    "set",
    "set I NAME VALUE ..",
    "what if event I had another value: a changed capture, drawn beside, and what differs",
    "As in set 8 mask 15 or set 8 rgb ONE ZERO ADD, in the names and values of a capture. "
    f"Said again it changes more. {SET}",
    takes=("event", "member", *["value"] * 4),
)
def set_member(session: "Session", arguments: list[str]) -> None:
    change(session, " ".join(["set", *arguments]))


@WORDS.add(
    "move",
    "move I after J",
    "what if event I stood behind event J; or before it, by move I before J",
    f"Said again it changes more. {SET}",
    takes=("event", "way", "event"),
)
def move(session: "Session", arguments: list[str]) -> None:
    change(session, " ".join(["move", *arguments]))


@WORDS.add(
    "there",
    "there LINE",
    "a line for the frame that set and move changed, as there look or there p X Y",
    "It stands at its own position, and has all events on.",
    takes=("line",),
)
def there(session: "Session", arguments: list[str]) -> None:
    if not arguments or arguments[0] in OF_THE_SESSION:
        raise Slip("there LINE is wanted, and the line asks or moves")
    frame, past, found = session.frame, list(session.past), session.found
    session.frame = beside_of(session).frame
    try:
        session.execute(" ".join(arguments))
    finally:
        session.frame, session.past, session.found = frame, past, found


@WORDS.add(
    "keep",
    "keep FILE.json",
    "saves the changed capture",
    "A file that is there is replaced, but for the capture that is shown.",
    takes=("file",),
)
def keep(session: "Session", arguments: list[str]) -> None:
    beside_of(session)
    path = pathlib.Path(os.path.expanduser(" ".join(arguments)))
    if path.suffix.lower() != ".json":
        raise Slip("keep FILE.json is wanted")
    try:
        if path.exists() and path.samefile(session.frame.path):
            raise Slip(f"{path}: that is the capture that is shown")
        keep_file(path, session.what_if.capture(session.what_if.changes)[0])
    except (OSError, ValueError) as fault:
        raise Slip(f"{path}: {getattr(fault, 'strerror', None) or fault}") from None
    session.tell("note", f"saved {printable(str(path))}")


@WORDS.add("drop", "drop", "leaves the changed capture, and the frame is what it was")
def drop(session: "Session", arguments: list[str]) -> None:
    if arguments:
        raise Slip("nothing is wanted behind the word")
    beside_of(session)
    session.what_if.become(())
