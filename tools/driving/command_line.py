"""framedbg-driver: draws captures by this machine's graphics driver, and says where it first differs from what is right, and how.

    framedbg-driver draw frame.json > drawn.pam        the driver's picture
    framedbg-driver compare frame.json                 event by event; the first pixel that differs, with its history
    framedbg-driver try                                scenes of one feature each: a table
    framedbg-driver reduce frame.json > small.json     the smallest capture found that still differs
    framedbg-driver rules frame.json > frame.rules     what is right, for play_d3d11.exe

No window and no display is wanted. Statuses: 0 all are alike, 1 some differ, 2 a fault of the words or the capture, 3 no driver,
4 a read or write fault, 130 interrupted.
"""
import argparse
import pathlib
import sys
from collections.abc import Callable, Sequence
from typing import NoReturn

from . import plants
from .faults import WORDS
from .reducing import KINDS

BITS = range(1, 9)
MOST_VIEWPORT = 1 << 20


class Words(argparse.ArgumentParser):
    def error(self, message: str) -> NoReturn:
        self.print_usage(sys.stderr)
        self.exit(WORDS, f"framedbg-driver: {message}\n")


def number(least: int, most: int) -> Callable[[str], int]:
    """A reader of whole numbers."""

    def read(text: str) -> int:
        if not (text.isascii() and text.isdigit() and len(text) < 10 and least <= int(text) <= most):
            raise argparse.ArgumentTypeError(f"a number from {least} to {most} is wanted")
        return int(text)

    return read


def viewport(text: str) -> int | str:
    if text == "target":
        return text
    if not (
        text.isascii()
        and text.isdigit()
        and len(text) < 9
        and int(text).bit_count() == 1
        and int(text) <= MOST_VIEWPORT
    ):
        raise argparse.ArgumentTypeError("a power of two is wanted, or target")
    return int(text)


def seconds(text: str) -> float:
    try:
        value = float(text)
    except ValueError:
        value = 0
    if not 0 < value <= 1e6:
        raise argparse.ArgumentTypeError("a number of seconds above 0 is wanted")
    return value


def ways() -> Words:
    """The options of all commands: how the driver is asked to draw."""
    parser = Words(add_help=False)
    group = parser.add_argument_group("the driver")
    group.add_argument(
        "--api",
        choices=("gl", "es", "vulkan"),
        default="gl",
        help="OpenGL 3.3, OpenGL ES 3.0, or Vulkan by Mesa's zink [gl]",
    )
    group.add_argument(
        "--device",
        type=number(0, 999),
        metavar="N",
        help="EGL's device of this number, counted from 0 [the one without a window]",
    )
    group.add_argument("--list", action="store_true", help="names EGL's devices, and does nothing else")
    add_drawing(group)
    return parser


def add_drawing(group: argparse._ArgumentGroup) -> None:
    group.add_argument(
        "--viewport",
        type=viewport,
        default=4096,
        metavar="N",
        help="how wide and high the viewport is, a power of two; or target [4096]",
    )
    group.add_argument(
        "--raw", action="store_true", help="the driver gets positions as they are, not snapped to 1/256 pixel"
    )
    group.add_argument(
        "--linear", choices=("smooth", "noperspective"), default="smooth", help="how colours are interpolated [smooth]"
    )
    group.add_argument(
        "--convention",
        choices=("first", "turned"),
        default="first",
        help=(
            "a flat triangle's colour: the driver's first corner, or corners turned so that the first is the "
            "last [first]"
        ),
    )
    group.add_argument(
        "--plant",
        choices=sorted(plants.PLANTS),
        metavar="FAULT",
        help="draws as a driver with this fault would: for tests",
    )


def judging() -> Words:
    """The options of commands that hold the driver against framedbg."""
    parser = Words(add_help=False)
    parser.add_argument(
        "--program", help="framedbg [the one that was built or installed here, else the one on the path]"
    )
    return parser


def telling() -> Words:
    """The options of commands that tell of many events or features."""
    parser = Words(add_help=False)
    parser.add_argument(
        "--tolerance",
        type=number(0, 255),
        default=0,
        metavar="N",
        help="roundings, and with 2 colours that are off by 2, don't differ [0]",
    )
    parser.add_argument("--json", action="store_true", help="the same for a script")
    parser.add_argument("--junit", metavar="FILE", help="writes a report for machines that run tests, too")
    return parser


def words(given: Sequence[str] | None = None) -> argparse.Namespace:
    """The words of a command line."""
    parser = Words(prog="framedbg-driver", description=__doc__, formatter_class=argparse.RawDescriptionHelpFormatter)
    parser.add_argument("--list", action="store_true", help="names EGL's devices, and does nothing else")
    commands = parser.add_subparsers(dest="command", metavar="COMMAND", parser_class=Words)
    driver, exact, report = ways(), judging(), telling()
    add_draw(
        commands.add_parser("draw", parents=[driver], help="draws a capture by the driver: writes the image as PAM")
    )
    add_compare(
        commands.add_parser(
            "compare", parents=[driver, exact, report], help="holds the driver against framedbg, event by event"
        )
    )
    add_try(
        commands.add_parser("try", parents=[driver, exact, report], help="tries the driver on scenes, one feature each")
    )
    add_reduce(
        commands.add_parser(
            "reduce", parents=[driver, exact], help="makes a capture smaller, as long as the driver differs"
        )
    )
    add_capture(
        commands.add_parser("rules", parents=[exact], help="writes what is right at each position, for play_d3d11.exe")
    )
    asked = parser.parse_args(given)
    if not asked.list and not asked.command:
        parser.error("a command is wanted: draw, compare, try, reduce or rules")
    if not asked.list and asked.command != "try" and asked.capture is None:
        parser.error("a capture is wanted")
    return asked


def add_capture(parser: argparse.ArgumentParser) -> None:
    parser.add_argument("capture", metavar="CAPTURE", nargs="?", help="the capture, a JSON file")


def add_draw(parser: argparse.ArgumentParser) -> None:
    add_capture(parser)
    parser.add_argument(
        "--at", type=number(0, 1_000_000), metavar="K", help="the position whose image is written [the last one]"
    )
    parser.add_argument(
        "--each",
        action="store_true",
        help="a line for each position in place of an image: sums (CRC) of colours and depths",
    )
    parser.add_argument(
        "--pictures",
        type=pathlib.Path,
        metavar="FOLDER",
        help="keeps the image after each event, as 7.pam: framedbg-blame judges each of them alone",
    )


def add_compare(parser: argparse.ArgumentParser) -> None:
    add_capture(parser)
    parser.add_argument(
        "--bits",
        type=number(1, 8),
        default=8,
        metavar="N",
        help="corners are moved to so many bits of a pixel's fraction first, for both [8]",
    )
    parser.add_argument(
        "--going-on",
        action="store_true",
        help="what differs stays, as in a real frame, and isn't mended after each event",
    )
    parser.add_argument("--all", action="store_true", help="a line for events that are alike, too")
    parser.add_argument(
        "--blame",
        action="store_true",
        help="says what the driver ignored or mixed up in the first event that differs beyond rounding",
    )


def add_try(parser: argparse.ArgumentParser) -> None:
    parser.add_argument("--scenes", type=number(1, 10_000), default=10, metavar="N", help="scenes of each feature [10]")
    parser.add_argument(
        "--seed", type=number(0, 999_999_999), default=1, metavar="N", help="the number of the first scene [1]"
    )
    parser.add_argument(
        "--only",
        action="append",
        default=[],
        metavar="TEXT",
        help="features alone whose name begins so; may be said again",
    )
    parser.add_argument(
        "--bits",
        type=number(1, 8),
        metavar="N",
        help="corners lie on so many bits of a pixel's fraction [8, or 4 where only that is exact]",
    )
    parser.add_argument("--features", action="store_true", help="names the features, and does nothing else")
    parser.add_argument(
        "--scene", metavar="NAME", help="writes one scene as a capture, as in --scene 'linear 7', and does nothing else"
    )
    parser.add_argument(
        "--write",
        type=pathlib.Path,
        metavar="FOLDER",
        help="keeps the first scene of each feature that differs beyond rounding",
    )


def add_reduce(parser: argparse.ArgumentParser) -> None:
    add_capture(parser)
    parser.add_argument(
        "--kind", choices=sorted(KINDS), default="any", help="the difference that has to stay [any but rounding]"
    )
    parser.add_argument(
        "--seconds",
        type=seconds,
        default=60.0,
        metavar="S",
        help="the time for it; then the smallest so far is written [60]",
    )
