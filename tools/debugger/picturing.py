"""Words that show the image, or keep it in a file."""
import os
import pathlib
from typing import TYPE_CHECKING

from framedbg_client import Image
from writing.files import keep

from . import drawing
from .faults import Slip
from .screen import CELL, Screen
from .telling import printable
from .words import WORDS, number

if TYPE_CHECKING:
    from .session import Session

ZOOM, LARGEST_ZOOM = 4, 64
BELOW = 2  # rows that stay free below a picture


@WORDS.add(
    "look",
    "look [X Y [ZOOM]]",
    "the image here, in the terminal; round a pixel, each of its pixels ZOOM times",
    "By the protocol of kitty or of sixel where the terminal has one, else in half blocks; without colours in "
    "letters. FDB_LOOK=kitty, sixel, half or letters names one.",
    takes=("number", "number", "number"),
)
def look(session: "Session", arguments: list[str]) -> None:
    if len(arguments) not in (0, 2, 3):
        raise Slip("look [X Y [ZOOM]] is wanted")
    numbers = [number(text, what) for text, what in zip(arguments, ("X", "Y", "ZOOM"))]
    image = session.frame.client.value("show", Image)
    if numbers and not (numbers[0] < image.width and numbers[1] < image.height):
        raise Slip(f"the target has {image.width} by {image.height} pixels")
    kind = session.screen.picture_kind()
    view = view_of(image, numbers, *room(session.screen, kind))
    session.screen.write(drawing.DRAWN[kind](drawing.grid(image, view)))
    if numbers or view.every > 1:
        right, bottom = view.x(view.columns - 1), view.y(view.rows - 1)
        shown = f"each pixel {view.zoom} times" if view.every == 1 else f"one pixel of {view.every} in each direction"
        session.tell("note", f"columns {view.left} to {right}, rows {view.top} to {bottom}, {shown}")


def room(screen: Screen, kind: str) -> tuple[int, int]:
    """How many pixels a picture may have."""
    columns, rows = screen.size()
    rows = max(1, rows - BELOW)
    across, down = (1, 2) if kind in ("half", "letters") else CELL
    return columns * across, rows * down


def view_of(image: Image, numbers: list[int], wide: int, high: int) -> drawing.View:
    if not numbers:
        return drawing.whole(image, wide, high)
    zoom = numbers[2] if len(numbers) == 3 else ZOOM
    if not 1 <= zoom <= LARGEST_ZOOM:
        raise Slip(f"ZOOM is a number from 1 to {LARGEST_ZOOM}")
    return drawing.part(image, numbers[:2], zoom, wide, high)


@WORDS.add(
    "save",
    "save FILE.png",
    "keeps the image in a file: its colours as PNG, or all four channels as FILE.pam",
    "A file that is there is replaced; a device, a pipe or a link is written through.",
    takes=("file",),
)
def save(session: "Session", arguments: list[str]) -> None:
    path = pathlib.Path(os.path.expanduser(" ".join(arguments)))
    kind = path.suffix.lower()
    if kind not in (".png", ".pam"):
        raise Slip("save FILE.png or save FILE.pam is wanted")
    image = session.frame.client.value("show", Image)
    try:
        keep(path, image.png() if kind == ".png" else image.pam())
    except (OSError, ValueError) as fault:
        raise Slip(f"{path}: {getattr(fault, 'strerror', None) or fault}") from None
    session.tell("note", f"saved {printable(str(path))}")
