"""Events judged alone: a folder has what a driver drew after each event. An event is looked at where the picture before
it was right, so that nothing is told again by the events behind it."""
import argparse
import pathlib
import re
import tempfile
from collections.abc import Iterator, Sequence
from dataclasses import dataclass

from framedbg_client import Client
from writing.counting import counted

from .comparing import Comparison, pixels_of
from .faults import READING, Fault
from .frame import CaptureFrame
from .pictures import read_picture

MOST_TOLD = 8  # events that differ
NAMED = re.compile(r"0*(\d{1,7})\.(?:pam|ppm|png)")


@dataclass(frozen=True)
class Alone:
    """An event that differs: its number, how many pixels, and what is wanted of all of them."""

    number: int
    count: int
    wanted: Comparison


def pictures_in(folder: pathlib.Path, most: int) -> dict[int, pathlib.Path]:
    """The files by the number of the event behind which each was drawn."""
    try:
        names = sorted(path.name for path in folder.iterdir())
    except OSError as fault:
        raise Fault(f"{folder}: {fault.strerror}", READING) from None
    found = {int(number[1]): name for name in names if (number := NAMED.fullmatch(name))}
    if not found:
        raise Fault(f"{folder}: no picture is named by its event, as 7.png is")
    if not 1 <= min(found) <= max(found) <= most:
        named = f"pictures are named {min(found)} to {max(found)}"
        raise Fault(f"{folder}: the capture has events 1 to {most}, and {named}")
    return {number: folder / found[number] for number in sorted(found)}


def judged(program: str, frame: CaptureFrame, capture: str, given: argparse.Namespace) -> Iterator[Alone]:
    """An Alone for each event of the folder at which pixels differ."""
    size = frame.width, frame.height
    right = drawn = bytes(4 * frame.width * frame.height)
    with Client(capture, program) as client:
        for number, path in pictures_in(pathlib.Path(given.picture), len(frame.events)).items():
            picture = read_picture(path, size)
            of_alpha = lambda tolerance, is_there=picture.has_alpha: tolerance if is_there else 255
            client.goto(number)
            exact = client.image().samples
            wrong_before = Comparison(right, (0, 0, 0, of_alpha(0))).differing(drawn)
            tolerance = (*given.tolerance[:3], of_alpha(given.tolerance[3]))
            wanted = Comparison(put_right(picture.samples, exact, wrong_before), tolerance)
            count = wanted.differing(exact).count(1)
            if count:
                yield Alone(number, count, wanted)
            right, drawn = exact, picture.samples


def put_right(samples: bytes, exact: bytes, mask: bytes) -> bytes:
    """Samples with those of another image where a mask has a pixel."""
    made = bytearray(samples)
    for pixel in pixels_of(mask):
        made[4 * pixel : 4 * pixel + 4] = exact[4 * pixel : 4 * pixel + 4]
    return bytes(made)


def cut(frame: CaptureFrame, number: int) -> tuple[CaptureFrame, str, tempfile.TemporaryDirectory[str]]:
    """The frame that ends with an event, and the folder with its capture, which is gone with the block."""
    folder = tempfile.TemporaryDirectory(prefix="framedbg-blame-")
    made = frame.with_events(frame.events[:number])
    path = pathlib.Path(folder.name) / "cut.json"
    path.write_text(made.text(made.events), encoding="utf-8")
    return made, str(path), folder


def lines(some: Sequence[Alone], total: int) -> Iterator[str]:
    """What is told of all of them."""
    if not some:
        yield f"no pixel differs after any of {counted(total, 'event')}, where it was right before"
        return
    named = [f"{one.number} ({counted(one.count)})" for one in some[:MOST_TOLD]] + [".."] * (len(some) > MOST_TOLD)
    yield f"alone   {len(some)} of {counted(total, 'event')} differ{'s' if total == 1 else ''}: {', '.join(named)}"
    yield f"        of event {some[0].number}:"
