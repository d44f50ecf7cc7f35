"""Scripts of lines, and what they may expect."""
import os
from collections.abc import Iterable
from typing import TYPE_CHECKING

from framedbg_client import Ended, Garbled

from .faults import Failed, Slip, status_of
from .words import WORDS

if TYPE_CHECKING:
    from .session import Session

DEEPEST = 16  # scripts that run scripts
MOST = 64 << 20  # bytes of a script


def read(path: str) -> list[str]:
    try:
        with open(os.path.expanduser(path), "rb") as file:
            data = file.read(MOST + 1)
    except (OSError, ValueError) as fault:
        raise Slip(f"{path}: {getattr(fault, 'strerror', None) or fault}") from None
    if len(data) > MOST:
        raise Slip(f"{path}: longer than {MOST} bytes")
    return data.decode("utf-8", "surrogateescape").split("\n")


def run(session: "Session", lines: Iterable[str], name: str) -> None:
    """The lines one after the other. A line that can't be done ends the script, and is told by its number."""
    for number, line in enumerate(lines, 1):
        try:
            session.execute(line.removesuffix("\r"))
        except Failed as failed:
            failed.where = failed.where or f"{name}:{number}"
            raise
        except Ended as ended:
            raise Failed(str(ended), f"{name}:{number}", status_of(ended)) from None
        except (Slip, Garbled) as fault:
            raise Failed(str(fault), f"{name}:{number}") from None


@WORDS.add(
    "source",
    "source FILE",
    "runs the lines of a file",
    "Empty lines and lines that begin with # are left out. A line that can't be done ends it.",
    takes=("file",),
)
def source(session: "Session", arguments: list[str]) -> None:
    if not arguments:
        raise Slip("source FILE is wanted")
    if len(session.scripts) == DEEPEST:
        raise Slip(f"scripts run each other more than {DEEPEST} deep")
    path = " ".join(arguments)
    session.scripts.append(path)
    try:
        run(session, read(path), path)
    finally:
        session.scripts.pop()


@WORDS.add(
    "expect",
    "expect [not] TEXT",
    "for scripts: the word before must have told TEXT, or must not have",
    "TEXT is words that stand one after the other in a line. Where that isn't so a script ends, and fdb --batch "
    "with status 1.",
)
def expect(session: "Session", arguments: list[str]) -> None:
    wanted, words = arguments[:1] != ["not"], arguments[arguments[:1] == ["not"] :]
    if not words:
        raise Slip("expect TEXT is wanted")
    is_told = any(stands_in(words, line.split()) for line in session.told)
    if is_told != wanted:
        told = "; ".join(session.told[:3]) or "nothing"
        raise Failed(
            f"expected {'' if wanted else 'not '}{' '.join(words)}, and was told "
            f"{told}{' ..' if len(session.told) > 3 else ''}"
        )


def stands_in(words: list[str], line: list[str]) -> bool:
    return any(line[at : at + len(words)] == words for at in range(len(line) - len(words) + 1))
