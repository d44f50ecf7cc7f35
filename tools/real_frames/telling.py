"""What both converters take as words, write, and tell on standard error."""
import argparse
import os
import signal
import stat
import subprocess
import sys
import tempfile
from collections.abc import Callable, Sequence
from typing import TYPE_CHECKING, Any

from captures import MOST_BYTES, compact, joined
from framedbg_client import find_program
from writing.counting import counted

from .fault import Fault
from .losses import Losses
from .names import MOST_LINE, printable

if TYPE_CHECKING:
    from .replay import ReplayedFrame
    from .writer import Writer

ALL = (0, 1 << 62)


def span(words: str) -> tuple[int, int]:
    """A..B, A.. or ..B as two numbers."""
    first, dots, last = words.partition("..")
    both = int(first or ALL[0]), int(last or ALL[1])
    if not dots or both[0] < 0 or both[0] > both[1]:
        raise ValueError(words)
    return both


def add_words(parser: argparse.ArgumentParser) -> None:
    """The words on colours and on what is told."""
    parser.add_argument(
        "--colours",
        choices=["measured", "distinct"],
        default="measured",
        help="from the frame's pictures, or one for each draw [measured]",
    )
    parser.add_argument(
        "--detail",
        type=float,
        metavar="BYTES",
        help="cut triangles while their colours are off by more (root of the mean square)",
    )
    parser.add_argument(
        "--smallest", type=int, default=16, metavar="PIXELS", help="cut none that shows at no more pixels [16]"
    )
    parser.add_argument("--quiet", action="store_true", help="say no draw while it is read and written")


def saying(quiet: bool) -> Callable[[str], None]:
    """Writes progress to standard error, over itself where that is a terminal."""
    end = "\r\x1b[K" if sys.stderr.isatty() else "\n"
    return (lambda line: None) if quiet else lambda line: print(line[:100], end=end, file=sys.stderr, flush=True)


def target_of(frame: "ReplayedFrame") -> int:
    """The target that is shown. One of a pixel isn't what is looked for: a Fault names the one with most draws."""
    shown = frame.shown_target()
    if frame.size(shown) == (1, 1):
        counts = frame.draws_of_targets()
        most = max(counts, key=lambda target: counts[target][2], default=shown)
        raise Fault(
            f"the target that is shown, {shown}, has one pixel: --list tells the others, and --target {most} "
            f"has the most draws"
        )
    return shown


def written(capture: dict[str, Any]) -> str:
    """A capture as text, which framedbg has read; a Fault where it is larger than one may be, or refused."""
    lines = [compact(event) for event in capture["events"]]
    made = joined(capture, lines)
    size = len(made.encode())
    if size > MOST_BYTES:
        raise Fault(f"the capture has {size} bytes, and {MOST_BYTES} are the most: {what_fits(capture, lines)}")
    have_it_read(made)
    return made


def what_fits(capture: dict[str, Any], lines: Sequence[str]) -> str:
    """The draws up to which a frame fits, for a Fault."""
    room, ends = MOST_BYTES + 2 - len(joined(capture, []).encode()), {}
    draws = list(
        dict.fromkeys(event["source"]["event"] for event in capture["events"] if "primitives" in event["source"])
    )
    for event, line in zip(capture["events"], lines):
        room -= len(line.encode()) + 2  # a comma and the end of the line, which the last has not
        ends[event["source"]["event"]] = room
    fitting = [draw for draw in draws if ends[draw] >= 0]
    if not fitting:
        return "its first draw doesn't fit"
    return f"{len(fitting)} of its {len(draws)} draws fit, up to {fitting[-1]}, and --draws ..{fitting[-1]} takes these"


def put_out(made: str) -> None:
    """Writes to standard output. Where that is a file a Ctrl-C doesn't end it, so that the file is whole, or has
    nothing."""
    kept = signal.getsignal(signal.SIGINT)
    if stat.S_ISREG(os.fstat(sys.stdout.fileno()).st_mode):
        signal.signal(signal.SIGINT, signal.SIG_IGN)
    try:
        sys.stdout.write(made)
        sys.stdout.flush()
    finally:
        signal.signal(signal.SIGINT, kept)


def have_it_read(made: str) -> None:
    """Has framedbg read a capture. What it refuses is a Fault of the converter, and not written."""
    program = find_program()
    if not program:
        print("there is no framedbg here, so none has read this capture", file=sys.stderr)
        return
    with tempfile.NamedTemporaryFile("w", suffix=".json", encoding="utf-8") as file:
        file.write(made)
        file.flush()
        try:
            done = subprocess.run(
                [program, "events", file.name],
                stdin=subprocess.DEVNULL,
                stdout=subprocess.DEVNULL,
                stderr=subprocess.PIPE,
            )
        except OSError as fault:
            raise Fault(f"{program}: {fault.strerror}") from None
    if done.returncode:
        said = (
            printable(done.stderr.decode(errors="replace").strip(), MOST_LINE)
            or f"{program} ended with status {done.returncode}"
        )
        raise Fault(f"framedbg doesn't take what was made of the frame, so nothing is written: {said}")


def tell(quiet: bool, writer: "Writer", losses: Losses, seconds: tuple[float, float]) -> None:
    """How near each draw's colours are, what was lost, and how long it took."""
    if not quiet:
        for event, name, pixels, fault in writer.painter.faults:
            print(f"  colours of {event} {name}: off by {fault:.1f} of 255 over {counted(pixels)}", file=sys.stderr)
    for line in losses.lines():
        print(line, file=sys.stderr)
    if not quiet:
        print(f"read in {seconds[0]:.1f} s, written in {seconds[1]:.1f} s", file=sys.stderr)
