"""The words that are known: how they are written, what they do, and which is the nearest to a slip."""
import difflib
from collections.abc import Callable
from dataclasses import dataclass, field
from typing import TYPE_CHECKING, Any, TypeAlias

from .faults import Slip

if TYPE_CHECKING:
    from .session import Session

Run: TypeAlias = "Callable[[Session, list[str]], None]"  # does what a word says with what stands behind it

OWN = {  # framedbg's lines, with their own replies
    "step": "step: goes through the next event",
    "back": "back: takes the last event back",
    "goto": "goto K: goes to position K; goto NAME to a mark",
    "on": "on I: switches event I on",
    "off": "off I: switches event I off",
    "pixel": "pixel X Y: the pixel's colour, and its depth where the capture has depth",
    "history": "history X Y: what each event and triangle did to the pixel",
    "state": "state: the pipeline state before the next event",
    "events": "events: the events, and which of them are on",
    "show": "show: the image's size; look shows it here, and save FILE keeps it",
    "quit": "quit: ends the run",
}
LARGEST = (1 << 32) - 1


@dataclass(frozen=True)
class Word:
    name: str
    usage: str
    short: str  # a line of the list
    long: str  # more, for `help WORD`
    also: tuple[str, ...] = ()
    takes: tuple[str, ...] = ()  # what is completed behind it: event, on, off, kind, word, file, info, position
    repeats: bool = False  # by an empty line
    run: Run = field(kw_only=True, compare=False)


class Words:
    def __init__(self) -> None:
        self.listed: list[Word] = []
        self.named: dict[str, Word] = {}

    def add(self, name: str, usage: str, short: str, long: str = "", **how: Any) -> Callable[[Run], Run]:
        """A decorator of the function that does what the word says."""

        def added(run: Run) -> Run:
            word = Word(name, usage, short, long, run=run, **how)
            self.listed.append(word)
            self.named.update((called, word) for called in (name, *word.also))
            return run

        return added

    def names(self) -> list[str]:
        return sorted({*self.named, *OWN})

    def find(self, name: str) -> Word:
        """The word of a name, or of the beginning of one alone; a slip is told the nearest."""
        if name in self.named:
            return self.named[name]
        begun = {self.named[full].name for full in self.named if len(name) > 1 and full.startswith(name)}
        if len(begun) == 1 and not any(own.startswith(name) for own in OWN):
            return self.named[begun.pop()]
        near = difflib.get_close_matches(name, self.names(), 1, 0.6)
        raise Slip(f"no such word: {name}{f'; did you mean {near[0]}?' if near else '; help lists them'}")


def number(text: str, what: str, most: int = LARGEST) -> int:
    if not (text.isascii() and text.isdigit() and len(text) <= max(len(str(most)), 10) and int(text) <= most):
        raise Slip(f"{what} is a whole number{f' up to {most}' if most < LARGEST else ''}, and not {text}")
    return int(text)


def place(arguments: list[str], usage: str) -> tuple[int, int]:
    """The pixel that two words name."""
    if len(arguments) != 2:
        raise Slip(f"{usage} is wanted")
    return number(arguments[0], "X"), number(arguments[1], "Y")


WORDS = Words()
