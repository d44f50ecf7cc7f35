"""Pictures that a frame is compared with: PAM of three or four channels, PPM, and PNG of eight bits a channel."""
import os
import re
import struct
import zlib
from collections.abc import Callable, Iterator
from dataclasses import dataclass

from captures import MOST_SIDE
from framedbg_client.image import END, PNG, fields_of

from .faults import READING, Fault
from .unfiltering import unfiltered

Size = tuple[int, int]  # width and height
CHANNELS = {0: 1, 2: 3, 3: 1, 4: 2, 6: 4}  # of a PNG, by its colour type
BLANK = re.compile(rb"\s+|#[^\n]*\n")  # of a PPM's header, some of which lie between two numbers
NUMBER = re.compile(rb"\d{1,5}(?!\d)")


@dataclass(frozen=True)
class Picture:
    width: int
    height: int
    samples: bytes  # red, green, blue, alpha of each pixel, row by row from the top
    has_alpha: bool

    def pixel(self, number: int) -> tuple[int, ...]:
        return tuple(self.samples[4 * number : 4 * number + 4])


def read_picture(path: str | os.PathLike[str], size: Size | None = None) -> Picture:
    """The picture in a file. One of another size than is wanted is a Fault before its pixels are unpacked."""
    try:
        with open(path, "rb") as file:
            data = file.read()
    except OSError as fault:
        raise Fault(f"{path}: {fault.strerror}", READING) from None
    try:
        return picture_of(data, size)
    except Fault as fault:
        raise Fault(f"{path}: {fault}") from None
    except (zlib.error, struct.error):
        raise Fault(f"{path}: a PNG that is cut or broken") from None


def picture_of(data: bytes, size: Size | None = None) -> Picture:
    read = next((read for begun, read in READERS.items() if data.startswith(begun)), None)
    if read is None:
        raise Fault("no picture: PAM, PPM or PNG is wanted")
    return read(data, size)


def check_size(width: int, height: int, size: Size | None) -> None:
    if not (1 <= width <= MOST_SIDE and 1 <= height <= MOST_SIDE):
        raise Fault(f"a picture of {width} by {height}: each side is 1 to {MOST_SIDE}")
    if size and size != (width, height):
        raise Fault(f"the capture's target is {size[0]} by {size[1]}, the picture {width} by {height}")


def made(width: int, height: int, samples: bytes, channels: int) -> Picture:
    """A picture from samples of three or four channels."""
    if len(samples) < channels * width * height:
        raise Fault("a picture that is shorter than its header says")
    samples = samples[: channels * width * height]
    if channels == 4:
        return Picture(width, height, bytes(samples), True)
    four = bytearray(b"\xff") * (4 * width * height)
    for channel in range(3):
        four[channel::4] = samples[channel::3]
    return Picture(width, height, bytes(four), False)


def of_pam(data: bytes, size: Size | None) -> Picture:
    head, end, samples = data.partition(END)
    fields = fields_of(head)
    numbers = [fields.get(name, b"") for name in (b"WIDTH", b"HEIGHT", b"DEPTH", b"MAXVAL")]
    if not end or not all(number.isdigit() and len(number) <= 5 for number in numbers):
        raise Fault("a PAM without a whole header")
    width, height, channels, most = map(int, numbers)
    if channels not in (3, 4) or most != 255:
        raise Fault(f"a PAM of {channels} channels up to {most}: three or four channels up to 255 are wanted")
    check_size(width, height, size)
    return made(width, height, samples, channels)


def of_ppm(data: bytes, size: Size | None) -> Picture:
    width, end = number_of_ppm(data, len(b"P6"))
    height, end = number_of_ppm(data, end)
    most, end = number_of_ppm(data, end)
    if not data[end : end + 1].isspace():
        raise Fault("a PPM without a whole header")
    if most != 255:
        raise Fault(f"a PPM up to {most}: 255 is wanted")
    check_size(width, height, size)
    return made(width, height, data[end + 1 :], 3)


def number_of_ppm(data: bytes, at: int) -> tuple[int, int]:
    """The next number of a header, which stands behind blanks and comments, and where it ends."""
    start = at
    while blank := BLANK.match(data, at):
        at = blank.end()
    number = NUMBER.match(data, at)
    if at == start or not number:
        raise Fault("a PPM without a whole header")
    return int(number[0]), number.end()


def of_png(data: bytes, size: Size | None) -> Picture:
    chunks = list(pieces(data))
    if not chunks or chunks[0][0] != b"IHDR" or chunks[-1][0] != b"IEND":
        raise Fault("a PNG that is cut or broken")
    width, height, bits, kind, _, _, interlaced = struct.unpack(">IIBBBBB", chunks[0][1])
    if bits != 8 or kind not in CHANNELS or interlaced:
        raise Fault("a PNG of another kind: eight bits a channel, not interlaced, are wanted")
    check_size(width, height, size)
    channels = CHANNELS[kind]
    packed = b"".join(body for name, body in chunks if name == b"IDAT")
    whole = (channels * width + 1) * height
    rows = unfiltered(zlib.decompressobj().decompress(packed, whole), channels, width, height)
    if rows is None:
        raise Fault("a PNG that is cut or broken")
    return made(width, height, *spread(rows, kind, next((body for name, body in chunks if name == b"PLTE"), b"")))


def pieces(data: bytes) -> Iterator[tuple[bytes, bytes]]:
    """Name and body of each chunk; one whose sum is wrong is a fault."""
    at = len(PNG)
    while at < len(data):
        size, name = struct.unpack(">I4s", data[at : at + 8])
        body, summed = data[at + 8 : at + 8 + size], data[at + 8 + size : at + 12 + size]
        if struct.unpack(">I", summed)[0] != zlib.crc32(name + body):
            raise Fault("a PNG that is cut or broken")
        yield name, body
        at += 12 + size


def spread(rows: bytes, kind: int, palette: bytes) -> tuple[bytes, int]:
    """Samples of three or four channels, and how many they are."""
    if kind in (2, 6):
        return rows, CHANNELS[kind]
    if kind == 3:
        return by_palette(rows, palette), 3
    step = CHANNELS[kind]
    channels = 4 if kind == 4 else 3
    out = bytearray(len(rows) // step * channels)
    for channel in range(3):
        out[channel::channels] = rows[0::step]
    if kind == 4:
        out[3::4] = rows[1::2]
    return bytes(out), channels


def by_palette(indices: bytes, palette: bytes) -> bytes:
    count = len(palette) // 3
    if max(indices) >= count:
        raise Fault("a PNG that is cut or broken")
    samples = bytearray(3 * len(indices))
    for channel in range(3):
        samples[channel::3] = indices.translate(palette[channel::3][:count].ljust(256, b"\0"))
    return bytes(samples)


READERS: dict[bytes, Callable[[bytes, Size | None], Picture]] = {PNG: of_png, b"P7": of_pam, b"P6": of_ppm}
