"""An image as framedbg writes it (PAM), and the PNG of its colours."""
import struct
import zlib
from dataclasses import dataclass

END = b"ENDHDR\n"
MAGIC = b"P7"
PNG = b"\x89PNG\r\n\x1a\n"


class Fault(ValueError):
    """The bytes are no image of framedbg."""


@dataclass(frozen=True)
class Image:
    width: int
    height: int
    samples: bytes  # red, green, blue, alpha of each pixel, row by row from the top

    def pixel(self, x: int, y: int) -> tuple[int, ...]:
        start = 4 * (y * self.width + x)
        return tuple(self.samples[start : start + 4])

    def pam(self) -> bytes:
        head = f"WIDTH {self.width}\nHEIGHT {self.height}\nDEPTH 4\nMAXVAL 255\nTUPLTYPE RGB_ALPHA\n"
        return MAGIC + b"\n" + head.encode() + END + self.samples

    def colours(self) -> bytes:
        """Red, green, blue of each pixel: the alpha is a channel of the target, and no transparency of the picture."""
        colours = bytearray(3 * self.width * self.height)
        for channel in range(3):
            colours[channel::3] = self.samples[channel::4]
        return bytes(colours)

    def png(self, level: int = -1) -> bytes:
        """The colours as PNG; `level` is zlib's, how hard it tries to make them small."""
        colours, stride = self.colours(), 3 * self.width
        rows = b"".join(b"\0" + colours[start : start + stride] for start in range(0, len(colours), stride))
        size = struct.pack(">IIBBBBB", self.width, self.height, 8, 2, 0, 0, 0)
        return PNG + chunk(b"IHDR", size) + chunk(b"IDAT", zlib.compress(rows, level)) + chunk(b"IEND", b"")


def chunk(kind: bytes, data: bytes) -> bytes:
    return struct.pack(">I", len(data)) + kind + data + struct.pack(">I", zlib.crc32(kind + data))


def fields_of(head: bytes) -> dict[bytes, bytes]:
    """What a PAM's header says behind its first line, by its words."""
    words = (line.partition(b" ") for line in head.splitlines()[1:])
    return {word: rest for word, space, rest in words if space}


def read_pam(data: bytes | bytearray | memoryview) -> Image:
    """The image in the bytes of a PAM file of four channels."""
    head, end, samples = bytes(data).partition(END)
    fields = fields_of(head)
    wanted = {b"DEPTH": b"4", b"MAXVAL": b"255", b"TUPLTYPE": b"RGB_ALPHA"}
    sizes = [fields.get(name, b"") for name in (b"WIDTH", b"HEIGHT")]
    if (
        head.splitlines()[:1] != [MAGIC]
        or not end
        or any(fields.get(name) != value for name, value in wanted.items())
        or not all(size.isdigit() for size in sizes)
    ):
        raise Fault("no image of framedbg")
    width, height = map(int, sizes)
    if len(samples) != 4 * width * height:
        raise Fault("an image of another length than its header says")
    return Image(width, height, samples)
