"""framedbg-night: compares each capture of a folder with its picture, and blames what differs.

    framedbg-night FOLDER             on this machine, a job a core
    framedbg-night FOLDER --slurm     as a job array of Slurm; the folder has to be seen by all machines
    framedbg-night FOLDER --driver    holds the graphics driver against framedbg on each capture, and on scenes; no pictures are wanted

The picture of frame.json is frame.png, frame.pam or frame.ppm beside it. In FOLDER/night stand the result of each capture, night.xml (JUnit)
and night.html. What is done isn't done again: the same command goes on where it was broken off, and does what failed or was killed once more.
Statuses: 0 all are alike, 1 some differ, 2 a fault of the words, 3 a read or write fault, 4 some failed or have no picture, or there are none,
130 interrupted.
"""
import argparse
import os
import pathlib
import shlex
import sys
from collections.abc import Sequence
from typing import NoReturn

from blaming.command_line import processes, seconds, tolerance
from blaming.faults import WORDS


class Words(argparse.ArgumentParser):
    def error(self, message: str) -> NoReturn:
        self.print_usage(sys.stderr)
        self.exit(WORDS, f"framedbg-night: {message}\n")


def driver(text: str) -> list[str]:
    """Variables and options of framedbg-driver."""
    try:
        return shlex.split(text)
    except ValueError as fault:
        raise argparse.ArgumentTypeError(str(fault)) from None


def words(given: Sequence[str] | None = None) -> argparse.Namespace:
    parser = Words(prog="framedbg-night", description=__doc__, formatter_class=argparse.RawDescriptionHelpFormatter)
    parser.add_argument("folder", metavar="FOLDER", type=pathlib.Path, help="the folder of captures and pictures")
    parser.add_argument(
        "--results", metavar="FOLDER", type=pathlib.Path, help="where results and reports are kept [FOLDER/night]"
    )
    add_comparing(parser)
    add_jobs(parser)
    parser.add_argument(
        "--driver",
        nargs="?",
        const=[],
        type=driver,
        action="append",
        metavar="WORDS",
        help=(
            "compares each capture with the graphics driver in place of a picture, by framedbg-driver, which "
            "gets these words, as in "
            "--driver='GALLIUM_DRIVER=softpipe --api es'; may be said again, for another driver"
        ),
    )
    parser.add_argument(
        "--allow-missing", action="store_true", help="captures without a picture, or none at all, are no fault"
    )
    parser.add_argument("--again", action="store_true", help="does also what is done")
    parser.add_argument(
        "--program", help="framedbg [the one that was built or installed here, else the one on the path]"
    )
    add_task(parser)
    return parser.parse_args(given)


def add_comparing(parser: argparse.ArgumentParser) -> None:
    parser.add_argument(
        "--tolerance",
        type=tolerance,
        default=(0, 0, 0, 0),
        metavar="R,G,B,A",
        help="how far a channel may be off, in all or in each [0]",
    )
    parser.add_argument(
        "--seconds", type=seconds, default=60.0, metavar="S", help="the time for the search of one capture [60]"
    )


def add_jobs(parser: argparse.ArgumentParser) -> None:
    parser.add_argument(
        "--processes",
        type=processes,
        default=os.cpu_count() or 1,
        metavar="N",
        help="jobs at a time on this machine [one a core]",
    )
    parser.add_argument("--slurm", action="store_true", help="runs the jobs as an array of Slurm")
    parser.add_argument(
        "--sbatch",
        type=shlex.split,
        default=[],
        metavar="WORDS",
        help="further words for sbatch, as in --sbatch='--partition=night --time=60'",
    )


def add_task(parser: argparse.ArgumentParser) -> None:
    """What the command of a job of an array has beside."""
    parser.add_argument("--names", type=pathlib.Path, help=argparse.SUPPRESS)
    parser.add_argument("--task", type=int, help=argparse.SUPPRESS)
    parser.add_argument("--job", help=argparse.SUPPRESS)
