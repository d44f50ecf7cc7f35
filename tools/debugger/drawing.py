"""A picture in the terminal: by the protocols of kitty and of sixel, in half blocks, or in letters."""
import base64
import re
import zlib
from collections.abc import Sequence
from dataclasses import dataclass

from framedbg_client import Image

Colour = tuple[int, ...]  # red, green and blue
Rows = list[list[Colour]]

PIECE = 4096  # characters of a piece of kitty's protocol
LETTERS = " .:-=+*#%@"  # from dark to light
SIXELS = bytes((63 + bits) % 256 for bits in range(256))  # the letter of six pixels
RUN = re.compile(r"(.)\1{3,}")
LEVELS = (6, 7, 6)  # of red, green and blue, where a picture has more colours than sixel's 256


@dataclass(frozen=True)
class View:
    """The part of an image that is shown: from left and top on, each pixel `zoom` times, or every `every`-th once."""

    left: int
    top: int
    columns: int  # of what is shown
    rows: int
    zoom: int
    every: int

    def x(self, column: int) -> int:
        return self.left + column // self.zoom * self.every

    def y(self, row: int) -> int:
        return self.top + row // self.zoom * self.every


def whole(image: Image, wide: int, high: int) -> View:
    """All of an image within so many columns and rows."""
    every = max(1, -(-image.width // wide), -(-image.height // high))
    zoom = max(1, min(wide // image.width, high // image.height)) if every == 1 else 1
    return View(0, 0, zoom * -(-image.width // every), zoom * -(-image.height // every), zoom, every)


def part(image: Image, centre: Sequence[int], zoom: int, wide: int, high: int) -> View:
    """What is round a pixel, within so many columns and rows."""
    zoom = max(1, min(zoom, wide, high))
    columns, rows = min(image.width, wide // zoom), min(image.height, high // zoom)
    left, top = (
        max(0, min(at - length // 2, most - length))
        for at, length, most in zip(centre, (columns, rows), (image.width, image.height))
    )
    return View(left, top, zoom * columns, zoom * rows, zoom, 1)


def grid(image: Image, view: View) -> Rows:
    """The colours that are shown, row by row."""
    places = [4 * view.x(column) for column in range(view.columns)]
    rows: Rows = []
    known: dict[int, list[Colour]] = {}
    for row in range(view.rows):
        y = view.y(row)
        if y not in known:
            line = image.samples[4 * y * image.width : 4 * (y + 1) * image.width]
            known = {y: [tuple(line[place : place + 3]) for place in places]}
        rows.append(known[y])
    return rows


def half(rows: Rows) -> str:
    """Two pixels a character: the upper one in its colour, the lower one in its ground."""
    told = []
    lowers: list[list[Colour] | None] = [*rows[1::2], None]  # the last row of an odd number has none below it
    for upper, lower in zip(rows[::2], lowers):
        line: list[str] = []
        last = None
        for column, (r, g, b) in enumerate(upper):
            ground = f"48;2;{';'.join(map(str, lower[column]))}" if lower else "49"
            style = f"\x1b[38;2;{r};{g};{b};{ground}m"
            line.append(("" if style == last else style) + "▀")
            last = style
        told.append("".join(line) + "\x1b[0m")
    return "\n".join(told)


def letters(rows: Rows) -> str:
    """Light and dark alone, for a terminal without colours and for files."""
    light = lambda r, g, b: LETTERS[(299 * r + 587 * g + 114 * b) * (len(LETTERS) - 1) // 255000]
    return "\n".join("".join(light(*colour) for colour in row).rstrip() for row in rows[::2])


def kitty(rows: Rows) -> str:
    raw = b"".join(bytes(colour) for row in rows for colour in row)
    data = base64.b64encode(zlib.compress(raw)).decode()
    pieces = [data[at : at + PIECE] for at in range(0, len(data), PIECE)]
    head = f"a=T,f=24,o=z,s={len(rows[0])},v={len(rows)},"
    return "".join(
        f"\x1b_G{head if at == 0 else ''}m={int(at < len(pieces) - 1)};{piece}\x1b\\" for at, piece in enumerate(pieces)
    )


def sixel(rows: Rows) -> str:
    """Six rows at a time, each colour in a pass of its own. A colour is told in hundredths."""
    colours = {colour for row in rows for colour in row}
    if len(colours) > 256:
        red, green, blue = (
            [round(value * (levels - 1) / 255) * 255 // (levels - 1) for value in range(256)] for levels in LEVELS
        )
        rows = [[(red[r], green[g], blue[b]) for r, g, b in row] for row in rows]
        colours = {colour for row in rows for colour in row}
    number = {colour: index for index, colour in enumerate(sorted(colours))}
    head = "".join(
        f"#{index};2;{';'.join(str(round(value * 100 / 255)) for value in colour)}" for colour, index in number.items()
    )
    bands = "-".join(band(rows[top : top + 6], number) for top in range(0, len(rows), 6))
    return f"\x1bPq\"1;1;{len(rows[0])};{len(rows)}{head}{bands}\x1b\\"


def band(rows: Rows, number: dict[Colour, int]) -> str:
    bits: dict[Colour, bytearray] = {}
    for bit, row in enumerate(rows):
        for column, colour in enumerate(row):
            line = bits.setdefault(colour, bytearray(len(row)))
            line[column] |= 1 << bit
    return "$".join(f"#{number[colour]}{packed(line)}" for colour, line in bits.items())


def packed(line: bytearray) -> str:
    """Sixels, with runs of one shortened, and without the empty ones at the end."""
    letters = line.translate(SIXELS).decode().rstrip("?")
    return RUN.sub(lambda run: f"!{len(run[0])}{run[1]}", letters)


DRAWN = {"half": half, "letters": letters, "kitty": kitty, "sixel": sixel}
