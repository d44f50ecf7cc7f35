"""A run of framedbg-blame, from its words to its status."""
import argparse
import json
import os
import signal
import subprocess
import sys
import time
from collections.abc import Sequence

from explaining.printable import printable
from framedbg_client import Ended, Garbled, Refusal, find_program
from framedbg_client.program import as_word
from writing import files

from . import alone, report, telling_json
from .comparing import Comparison
from .faults import MEMORY, NOBODY, READING, WORDS, Fault
from .frame import CaptureFrame, read_capture
from .pictures import read_picture
from .progress import Progress
from .searching import Outcome, searched
from .trying import Trials

ALIKE, NAMED = 0, 1


def run(given: argparse.Namespace) -> int:
    """The status of a run. What went wrong is told on standard error. Who ends it by a signal is told so too, and
    nothing is left behind."""
    sys.stdout.reconfigure(errors="backslashreplace")  # type: ignore[attr-defined]  # an io.TextIOWrapper has it
    signal.signal(signal.SIGTERM, signal.default_int_handler)
    try:
        return blamed(given)
    except Fault as fault:
        return told(fault, fault.status)
    except Ended as ended:
        return told(
            ended.said or str(ended),
            ended.status if 2 <= ended.status <= 5 and ended.status != NOBODY else READING,
            is_plain=bool(ended.said),
        )
    except (Garbled, Refusal) as fault:
        return told(fault, READING)
    except OSError as fault:
        return told(f"{fault.filename}: {fault.strerror}" if fault.filename else fault.strerror, READING)
    except MemoryError:
        return told("memory", MEMORY)


def told(why: object, status: int, is_plain: bool = False) -> int:
    text = printable(str(why))
    print(text if is_plain else f"framedbg-blame: {text}", file=sys.stderr)
    return status


def blamed(given: argparse.Namespace) -> int:
    if given.driver and os.path.isdir(given.picture):
        return blamed_alone(given)
    return tell(given, *found(given.capture, given.picture, given))


def blamed_alone(given: argparse.Namespace) -> int:
    """The first event that differs by itself; what else does is told too."""
    program = program_of(given)
    frame = checked_frame(program, given.capture)
    some, total = list(alone.judged(program, frame, given.capture, given)), len(frame.events)
    if not given.json:
        for line in alone.lines(some, total):
            print(line)
    elif not some:
        print(json.dumps({"alone": []}))
    if not some:
        return ALIKE
    made, path, folder = alone.cut(frame, some[0].number)
    with folder:
        outcome = searched_in(program, (made, path), some[0].wanted, given)
    return tell(given, made, outcome, some)


def tell(given: argparse.Namespace, frame: CaptureFrame, outcome: Outcome, some: Sequence[alone.Alone] = ()) -> int:
    """Tells an Outcome, keeps what is to be kept, and gives the status."""
    if given.json:
        print(telling_json.text_of(outcome, some))
    else:
        for line in report.lines(frame, outcome, given.driver):
            print(line)
    if given.write and outcome.changes:
        keep(given.write, frame.text(outcome.changes[0].change.events))
    return status_of(outcome)


def status_of(outcome: Outcome) -> int:
    return ALIKE if not outcome.wrong else NAMED if outcome.suspects else NOBODY


def found(
    capture: str, picture: str, given: argparse.Namespace, is_quiet: bool = False
) -> tuple[CaptureFrame, Outcome]:
    """The frame and the Outcome over a capture and a picture."""
    program = program_of(given)
    frame = checked_frame(program, capture)
    wanted = read_picture(picture, (frame.width, frame.height))
    tolerance = given.tolerance if wanted.has_alpha else (*given.tolerance[:3], 255)
    return frame, searched_in(program, (frame, capture), Comparison(wanted.samples, tolerance), given, is_quiet)


def program_of(given: argparse.Namespace) -> str:
    program = given.program or find_program()
    if not program:
        raise Fault("framedbg isn't built or installed here", READING)
    return program


def searched_in(
    program: str,
    frame_and_path: tuple[CaptureFrame, str],
    comparison: Comparison,
    given: argparse.Namespace,
    is_quiet: bool = False,
) -> Outcome:
    """The Outcome over a frame and the file that it stands in, within the time."""
    progress = Progress(is_quiet=is_quiet)
    try:
        with Trials(
            program, given.processes, time.monotonic() + given.seconds, progress, getattr(given, "most", None)
        ) as trials:
            frame, path = frame_and_path
            return searched(frame, comparison, trials, path, getattr(given, "driver", False))
    except FileNotFoundError as fault:
        raise Fault(f"{fault.filename}: {fault.strerror}", READING) from None
    finally:
        progress.end()


def checked_frame(program: str, capture: str) -> CaptureFrame:
    """The frame of a capture that framedbg accepts; why it is refused is framedbg's to say."""
    try:
        with as_word(capture) as (word, descriptors):
            ran = subprocess.run(
                [program, "events", "--", word],
                stdin=subprocess.DEVNULL,
                stdout=subprocess.DEVNULL,
                stderr=subprocess.PIPE,
                check=False,
                pass_fds=descriptors,
            )
    except OSError as fault:
        raise Fault(f"{fault.filename or program}: {fault.strerror}", READING) from None
    if ran.returncode:
        said = ran.stderr.decode("utf-8", "replace").strip().removeprefix("framedbg: ")
        raise Fault(f"{capture}: {said}", ran.returncode if ran.returncode in (WORDS, READING, MEMORY) else READING)
    return CaptureFrame(read_capture(capture))


def keep(path: str, text: str) -> None:
    try:
        files.keep(path, f"{text}\n".encode())
    except OSError as fault:
        raise Fault(f"{path}: {fault.strerror}", READING) from None
