"""Words about the run itself."""
from typing import TYPE_CHECKING

from .faults import Leave, Slip
from .moving import here
from .words import WORDS

if TYPE_CHECKING:
    from .session import Session


@WORDS.add(
    "run",
    "run",
    "a new run of the same capture, at the same position and with the same events off",
    "For a run that has ended, by want of memory or otherwise.",
)
def run(session: "Session", arguments: list[str]) -> None:
    if arguments:
        raise Slip("nothing is wanted behind the word")
    position = session.frame.position
    here(session, session.frame.client.restart(position) < position)


@WORDS.add("q", "q", "ends it, as Ctrl-D does")
def leave(session: "Session", arguments: list[str]) -> None:
    raise Leave
