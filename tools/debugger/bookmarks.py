"""Words that name positions."""
import re
from typing import TYPE_CHECKING

from .faults import Slip
from .words import WORDS

if TYPE_CHECKING:
    from .session import Session

NAME = re.compile(r"[A-Za-z_][\w-]{,63}", re.A)
LAST = "end"  # which `g` knows without a mark


@WORDS.add(
    "mark",
    "mark NAME",
    "names the position, for goto NAME and g NAME",
    "A name has letters, digits, - and _, and begins with no digit. One that is given again is moved.",
    takes=("mark",),
)
def mark(session: "Session", arguments: list[str]) -> None:
    if len(arguments) != 1 or not NAME.fullmatch(arguments[0]) or arguments[0] == LAST:
        raise Slip(
            "mark NAME is wanted, a name of at most 64 letters, digits, - and _, which begins with a letter and "
            "isn't end"
        )
    session.bookmarks[arguments[0]] = session.frame.position
    session.tell("note", told(session, arguments[0]))


@WORDS.add("marks", "marks", "the names of positions")
def list_marks(session: "Session", arguments: list[str]) -> None:
    if arguments:
        raise Slip("nothing is wanted behind the word")
    session.tell("note", *([told(session, name) for name in sorted(session.bookmarks)] or ["no marks"]))


def told(session: "Session", name: str) -> str:
    return f"mark {name} at {session.bookmarks[name]}"
