"""A run of fdb, from its words to its status."""
import argparse
import os
import pathlib
import subprocess
import sys
from collections.abc import Iterable, Iterator

from framedbg_client import Client, Ended, Garbled, Refusal
from writing.counting import counted

from . import (
    moving,
    bookmarks,
    breaking,
    asking,
    calling,
    switching,
    comparing,
    picturing,
    what_if,
    scripts,
    ending,
)  # noqa: F401  each has words, which are listed in this order
from .faults import Failed, Leave, Slip, status_of
from .frame import DebuggedFrame
from .moving import here
from .prompt import Prompt
from .screen import Screen
from .session import Session
from .telling import PLAIN, Laid, printable

FAULT, INTERRUPTED = 1, 130


def run(given: argparse.Namespace) -> int:
    """The status of a run. What went wrong is told on standard error."""
    sys.stdin.reconfigure(errors="surrogateescape")  # type: ignore[attr-defined]  # an io.TextIOWrapper has it
    sys.stdout.reconfigure(errors="backslashreplace")  # type: ignore[attr-defined]
    try:
        client = Client(given.capture, given.program, given.workers, None if sys.stderr.isatty() else subprocess.PIPE)
    except OSError as fault:
        return told(f"{fault.filename}: {fault.strerror}" if fault.filename else fault, 3)
    try:
        return debugged(client, given)
    except KeyboardInterrupt:
        return told("interrupted", INTERRUPTED)
    except Ended as ended:
        return told(ended.said or ("" if sys.stderr.isatty() else ended), status_of(ended), plain=True)
    except (Slip, Failed, Garbled, Refusal) as fault:
        return told(fault, getattr(fault, "status", FAULT))
    except MemoryError:
        return told("memory", 5)
    finally:
        client.connection.end(at_once=client.is_asking)


def end_all(session: Session) -> None:
    """The runs of other captures, which `into` began, and those beside, of changed ones."""
    for client in session.opened:
        client.connection.end(at_once=client.is_asking)
    for beside in [session.what_if, *(outer[-1] for outer in session.outer)]:
        beside.close()


def told(why: object, status: int, plain: bool = False) -> int:
    text = "\n".join(map(printable, str(why).split("\n")))
    if text:
        print(text if plain else f"fdb: {text}", file=sys.stderr)
    return status


def debugged(client: Client, given: argparse.Namespace) -> int:
    screen = Screen(sys.stdout)
    is_asked = not given.batch and screen.is_terminal and sys.stdin.isatty()
    screen.paints = screen.paints and is_asked
    session = Session(DebuggedFrame(client), Laid(screen.paints) if is_asked else PLAIN, screen, is_asked)
    try:
        return talked(session, given, is_asked)
    finally:
        end_all(session)


def talked(session: Session, given: argparse.Namespace, is_asked: bool) -> int:
    """The scripts, and then what is typed."""
    try:
        start(session, given, is_asked)
        for path in [*start_files(given, is_asked), *given.scripts]:
            scripts.run(session, scripts.read(path), path)
        if not is_asked and not given.scripts:
            scripts.run(session, read_on(sys.stdin), "standard input")
    except Leave:
        return 0
    except (Failed, Slip) as fault:
        if not is_asked:
            raise
        session.tell("note", printable(str(fault)))
    except KeyboardInterrupt:
        if not is_asked:
            raise
        session.screen.write("")
    if is_asked:
        Prompt(session).run()
    return 0


def start_files(given: argparse.Namespace, is_asked: bool) -> list[str]:
    """The file whose lines come first: the one that is named, or at a prompt that of the home folder. None of the
    folder where one stands: it may have come with somebody else's capture."""
    home = os.path.expanduser("~/.fdbrc")
    return [given.start] if given.start else [home] if is_asked and os.path.isfile(home) else []


def start(session: Session, given: argparse.Namespace, is_asked: bool) -> None:
    """Goes where the session is to begin: the last position, at which the whole frame is drawn."""
    frame = session.frame
    wanted = len(frame) if given.at is None else given.at
    if is_asked:
        session.screen.write(
            f"{printable(pathlib.Path(given.capture).name)}: {counted(len(frame), 'event')}. help lists the "
            f"words, q ends."
        )
    try:
        with session.left_as_it_was():
            reached = frame.client.goto(wanted) if wanted else 0
    except KeyboardInterrupt:
        if not is_asked:
            raise
        reached = wanted = 0
    if is_asked or reached != wanted:
        here(session, reached != wanted)


def read_on(stream: Iterable[str]) -> Iterator[str]:
    """Its lines as they come, so that a program at the other end of a pipe is answered line by line."""
    return (line.rstrip("\n") for line in stream)
