"""A debugger over a frame: it takes lines and tells what comes of them."""
import contextlib
from collections.abc import Iterable, Iterator
from typing import Any

from framedbg_client import Client, Refusal

from .breakpoints import Breakpoints
from .changing import Change
from .faults import Leave
from .frame import DebuggedFrame
from .screen import Screen
from .telling import PLAIN, Plain, printable
from .what_if import WhatIf
from .words import OWN, WORDS

Position = tuple[int, frozenset[int], tuple[Change, ...]]  # where it stands, what is off, what was changed
Outer = tuple[DebuggedFrame, Breakpoints, dict[str, int], Any, list[Position], WhatIf]

MOST_PAST = 1000  # words that can be undone


class Session:
    def __init__(self, frame: DebuggedFrame, teller: Plain, screen: Screen, goes_on: bool = False) -> None:
        """`goes_on`: also after a Ctrl-C."""
        self.frame, self.teller, self.screen, self.goes_on = frame, teller, screen, goes_on
        self.breakpoints = Breakpoints()
        self.told: list[str] = []  # by the word before, plainly: what `expect` looks at
        self.bookmarks: dict[str, int] = {}  # positions by name
        self.found: tuple[int, int, int] | None = None  # where `last` or `first` came to: x, y, position
        self.past: list[Position] = []  # how it was before the words before, which `undo` goes back to
        self.what_if = WhatIf(self)
        self.outer: list[Outer] = []  # what `into` left behind
        self.opened: list[Client] = []  # the clients of what it went to
        self.scripts: list[str] = []  # those that are being run, the innermost last

    def tell(self, what: str, *about: Any) -> None:
        """What a teller says about something, by the name of its call."""
        self.told += getattr(PLAIN, what)(*about)
        for line in getattr(self.teller, what)(*about):
            self.screen.write(printable(line) if self.screen.is_terminal and not self.teller.paints else line)

    def execute(self, line: str) -> None:
        """Does what a line says. A Slip says that it can't be done; whatever else comes out is its caller's."""
        words = [word for word in line.split(" ") if word]
        if not words or words[0].startswith("#"):
            return
        name, arguments = words[0], words[1:]
        if name != "expect":
            self.told = []
        own = name in OWN and not self.is_more(name, arguments)
        word = None if own else WORDS.find("g" if name == "goto" else name)
        known, before, frame = len(self.past), self.as_it_is(), self.frame
        with self.left_as_it_was():
            try:
                self.pass_on(line) if word is None else word.run(self, arguments)
            except Refusal as refusal:
                self.tell("refusal", refusal.reply)
        if name != "undo" and self.frame is frame:
            self.remember(known, before)

    def is_more(self, name: str, arguments: list[str]) -> bool:
        """Whether a line asks for more than framedbg's own line of that name can."""
        return (
            len(arguments) > 1
            if name in ("on", "off")
            else name == "goto" and len(arguments) == 1 and arguments[0] in self.bookmarks
        )

    def as_it_is(self) -> Position:
        return self.frame.client.position, self.frame.client.off, self.what_if.changes

    def remember(self, known: int, before: Position) -> None:
        """What a word changed, for `undo`; of a script all its lines are one."""
        if self.as_it_is() != before:
            self.past[known:] = [before]
            del self.past[:-MOST_PAST]

    def pass_on(self, line: str) -> None:
        """A line of framedbg's own, and its reply as it is."""
        reply = self.frame.client.ask(line)
        lines = (reply.text, *reply.lines)
        self.told += lines
        for line in lines:
            self.screen.write(printable(line) if self.screen.is_terminal else line)
        if reply.text == "bye":
            raise Leave

    @contextlib.contextmanager
    def left_as_it_was(self) -> Iterator[None]:
        """Where a word is interrupted while framedbg works, its run is ended, and another one stands where it stood,
        with the same events off."""
        client = self.frame.client
        position, off = client.position, set(client.off)
        try:
            yield
        except KeyboardInterrupt as interrupt:
            is_other = client.is_asking or (client.position, client.off) != (position, off)
            if self.goes_on and is_other and not hasattr(interrupt, "restored"):
                setattr(interrupt, "restored", True)  # by the innermost word, where a script runs others
                self.restore(position, off)
            raise

    def restore(self, position: int, off: Iterable[int]) -> None:
        """Another run at a position, or at the start of the frame where that is interrupted too."""
        self.screen.clear_line()  # framedbg tells there how far a long move has come
        self.screen.write(f"  interrupted: a new run is brought to {position}")
        try:
            self.frame.client.restart(position, off)
        except KeyboardInterrupt:
            self.frame.client.restart(0, off)
            self.screen.clear_line()
            self.screen.write("  interrupted again: the new run is at 0")
