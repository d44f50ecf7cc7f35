"""fdb: framedbg at a prompt, in the words of gdb and rr.

    fdb frame.json                        a prompt, at the end of the frame; help lists the words
    fdb frame.json -x bug.fdb --batch     runs a script, and tells by its status whether what it expects is so
    fdb --diff good.json bad.json         which events came, went, changed and moved, and where the pictures first differ

All that it tells are replies of one framedbg run, and of one beside where a change of the capture is tried, but where a group ends of a frame
that RenderDoc took: that stands in the file. Statuses: 0 done, 1 a fault of the words, or of a line of a script, or an 'expect' that
doesn't hold, 2 the capture is refused, 3 a read or write fault, 4 too much input, 5 memory, 130 interrupted. With --diff 1 says that the captures differ, and what is above it
is trouble, as of diff(1).
"""
import argparse
import sys
from collections.abc import Sequence
from typing import NoReturn


class Words(argparse.ArgumentParser):
    trouble = 1  # the status of a fault of the words

    def error(self, message: str) -> NoReturn:
        self.print_usage(sys.stderr)
        self.exit(self.trouble, f"fdb: {message}\n")


def workers(text: str) -> int:
    if not (text.isascii() and text.isdigit() and 1 <= int(text) <= 64):
        raise argparse.ArgumentTypeError("a number from 1 to 64 is wanted")
    return int(text)


def position(text: str) -> int:
    if not (text.isascii() and text.isdigit() and len(text) <= 10):
        raise argparse.ArgumentTypeError("a whole number is wanted")
    return int(text)


def words(given: Sequence[str] | None = None) -> argparse.Namespace:
    parser = Words(prog="fdb", description=__doc__, formatter_class=argparse.RawDescriptionHelpFormatter)
    parser.add_argument("capture", metavar="CAPTURE", nargs="?", help="the capture, a JSON file")
    parser.add_argument(
        "--diff",
        nargs=2,
        metavar=("A", "B"),
        help="compares two captures, and ends; with --workers and --program alone",
    )
    add_scripts(parser)
    parser.add_argument("--at", type=position, metavar="K", help="the position at the start [the last]")
    parser.add_argument(
        "--workers", type=workers, metavar="N", help="the number of threads that draw, from 1 to 64 [4]"
    )
    parser.add_argument(
        "--program", help="framedbg [the one that was built or installed here, else the one on the path]"
    )
    parser.trouble = 2 if any(word.startswith("--d") for word in (sys.argv[1:] if given is None else given)) else 1
    parsed = parser.parse_args(given)
    if parsed.diff and (parsed.capture or parsed.scripts or parsed.start or parsed.at is not None):
        parser.error("--diff takes two captures, --workers and --program alone")
    if not parsed.diff and not parsed.capture:
        parser.error("the following arguments are required: CAPTURE")
    return parsed


def add_scripts(parser: argparse.ArgumentParser) -> None:
    parser.add_argument(
        "-x",
        dest="scripts",
        metavar="FILE",
        action="append",
        default=[],
        help="runs the lines of a file first; may be given several times",
    )
    parser.add_argument(
        "--start",
        metavar="FILE",
        help="runs the lines of a file before all else [at a prompt ~/.fdbrc, where that is there]",
    )
    parser.add_argument(
        "--batch",
        action="store_true",
        help="no prompt: plain text, one fact a line; without -x the lines come from standard input",
    )
