"""framedbg-blame: which event made a picture differ from the one that it should be, and which change mends it.

    framedbg-blame frame.json wanted.png              a report, to be read from the top
    framedbg-blame frame.json wanted.png --json       the same for a script
    framedbg-blame frame.json driver.png --driver     the other way round: what did the driver that drew this picture ignore or mix up?
    framedbg-blame frame.json pictures --driver       the same of a folder with its picture after each event, each event alone

The picture is a PAM, PPM or PNG of the target's size. Changed captures are temporary files; --write alone keeps one.
Statuses: 0 no pixel differs, 1 some differ, and an event is named, 2 a fault of the words, the capture or the picture, 3 a read or write fault,
4 some differ, and nobody is named, 5 memory, 130 interrupted.
"""
import argparse
import os
import sys
from collections.abc import Sequence
from typing import NoReturn

from .faults import WORDS


class Words(argparse.ArgumentParser):
    def error(self, message: str) -> NoReturn:
        self.print_usage(sys.stderr)
        self.exit(WORDS, f"framedbg-blame: {message}\n")


def tolerance(text: str) -> tuple[int, ...]:
    """A number for each of red, green, blue and alpha."""
    parts = text.split(",")
    if len(parts) not in (1, 4) or not all(part.isascii() and part.isdigit() and int(part) <= 255 for part in parts):
        raise argparse.ArgumentTypeError("a number from 0 to 255 is wanted, or four of them as R,G,B,A")
    return tuple(int(part) for part in (parts * 4)[:4])


def seconds(text: str) -> float:
    try:
        value = float(text)
    except ValueError:
        value = 0
    if not 0 < value <= 1e6:
        raise argparse.ArgumentTypeError("a number of seconds above 0 is wanted")
    return value


def processes(text: str) -> int:
    if not (text.isascii() and text.isdigit() and 1 <= int(text) <= 256):
        raise argparse.ArgumentTypeError("a number from 1 to 256 is wanted")
    return int(text)


def words(given: Sequence[str] | None = None) -> argparse.Namespace:
    parser = Words(prog="framedbg-blame", description=__doc__, formatter_class=argparse.RawDescriptionHelpFormatter)
    parser.add_argument("capture", metavar="CAPTURE", help="the capture, a JSON file")
    parser.add_argument(
        "picture",
        metavar="PICTURE",
        help="the picture that it should be: PAM, PPM or PNG; with --driver also a folder of them",
    )
    parser.add_argument(
        "--json", action="store_true", help="differ, suspects, changes and findings as JSON, the best first"
    )
    parser.add_argument(
        "--driver",
        action="store_true",
        help="the picture is what a driver drew: says what it ignored or mixed up, in one event or in all of a kind",
    )
    add_search(parser)
    parser.add_argument("--write", metavar="FILE", help="keeps the capture after the best change")
    parser.add_argument(
        "--program", help="framedbg [the one that was built or installed here, else the one on the path]"
    )
    return parser.parse_args(given)


def add_search(parser: argparse.ArgumentParser) -> None:
    parser.add_argument(
        "--tolerance",
        type=tolerance,
        default=(0, 0, 0, 0),
        metavar="R,G,B,A",
        help="how far a channel may be off, in all or in each [0]",
    )
    parser.add_argument(
        "--seconds",
        type=seconds,
        default=60.0,
        metavar="S",
        help="the time for a search; then the best so far is told [60]",
    )
    parser.add_argument(
        "--processes",
        type=processes,
        default=os.cpu_count() or 1,
        metavar="N",
        help="runs of framedbg at a time [one a core]",
    )
