"""An image as framedbg writes it, read from its pipe: the part that is asked for, or the whole, with pixels left out
where it is too large."""
import fcntl
import math
from collections.abc import Sequence
from typing import IO

from framedbg_client.image import fields_of

MOST_PIXELS = 1 << 22  # of an image that are kept: those of 2048 by 2048
PIECE = 1 << 20  # bytes that are read at once
HEADER_LINES = 7
Pixels = bytes | bytearray
Part = dict[str, int]  # of a target, that is kept


def widen(pipe: IO[bytes]) -> None:
    """Lets the pipe hold more, where the system can: then an image goes through it with fewer turns."""
    try:
        fcntl.fcntl(pipe, fcntl.F_SETPIPE_SZ, PIECE)
    except (AttributeError, OSError):
        pass


def read_image(
    stream: IO[bytes], size: int, window: Sequence[int] | None = None
) -> tuple[dict[str, int], Pixels] | None:
    """What is kept of a PAM of `size` bytes, and its pixels: (a description, a bytes-like object); None where the
    stream ends before. The window is (left, top, right, bottom) in pixels of the target, and perhaps every how many
    of them one is kept at most.
    """
    header = [stream.readline() for _ in range(HEADER_LINES)]
    if not header[-1].endswith(b"\n"):
        return None
    fields = fields_of(b"".join(header))
    part = kept_part(int(fields[b"WIDTH"]), int(fields[b"HEIGHT"]), window)
    pixels = read_part(stream, part)
    return None if pixels is None else ({**part, "bytes": len(pixels)}, pixels)


def kept_part(width: int, height: int, window: Sequence[int] | None) -> Part:
    """The window cut to the target, and every how many pixels one is kept."""
    left, top, right, bottom, *wanted = window or (0, 0, width, height)
    left, top = min(left, width - 1), min(top, height - 1)
    right, bottom = min(max(right, left + 1), width), min(max(bottom, top + 1), height)
    every = max(1, *wanted, math.isqrt((right - left) * (bottom - top) // MOST_PIXELS))
    while kept(right - left, every) * kept(bottom - top, every) > MOST_PIXELS:
        every += 1
    return {
        "width": width,
        "height": height,
        "left": left,
        "top": top,
        "every": every,
        "most": MOST_PIXELS,
        "columns": kept(right - left, every),
        "rows": kept(bottom - top, every),
    }


def kept(length: int, every: int) -> int:
    return -(-length // every)


def read_part(stream: IO[bytes], part: Part) -> Pixels | None:
    """The kept pixels, row by row, and the rest of the image read and dropped; None where the stream ends before."""
    width, height, top, every = (part[name] for name in ("width", "height", "top", "every"))
    if every == 1 and part["columns"] == width and part["rows"] == height:
        pixels = stream.read(4 * width * height)
        return pixels if len(pixels) == 4 * width * height else None
    rows, y, last = bytearray(), 0, top + (part["rows"] - 1) * every
    while y < height:
        count = (
            min(height - y, every)
            if top <= y <= last
            else min((top if y < top else height) - y, max(1, PIECE // (4 * width)))
        )
        strip = stream.read(4 * width * count)
        if len(strip) < 4 * width * count:
            return None
        if top <= y <= last:  # a kept row, and those up to the next one
            pixels = memoryview(strip).cast("I")[part["left"] : part["left"] + (part["columns"] - 1) * every + 1]
            rows += pixels[::every].tobytes()
        y += count
    return rows
