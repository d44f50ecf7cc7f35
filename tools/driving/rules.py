"""rules: what is right at each position of a capture in one file, for play_d3d11.exe on a machine that has no framedbg.

A gzip file: a line `framedbg-rules 1 WIDTH HEIGHT POSITIONS DEPTHS`, and for each position the colours, and the
depths where DEPTHS is 1 (words of 16 bits, the low byte first), each byte XORed with that of the position before.
"""
import argparse
import array
import gzip
import sys

from blaming.frame import CaptureFrame

from . import reading
from .exact import Exact, program_of
from .faults import ALIKE
from .depths import Depths


def run(given: argparse.Namespace) -> int:
    capture, program = reading.read_capture(given.capture), program_of(given.program)
    with Exact(program, capture) as exact, gzip.GzipFile(
        filename="", fileobj=sys.stdout.buffer, mode="wb", mtime=0
    ) as file:
        positions, has_depths = len(capture["events"]) + 1, int(capture["version"] == 2)
        file.write(f"framedbg-rules 1 {capture['width']} {capture['height']} {positions} {has_depths}\n".encode())
        depths, before, deep_before = Depths(exact, CaptureFrame(capture)), b"", b""
        for position in range(positions):
            image, deep = exact.image(position), little_endian(depths.after(position) if position else depths.words)
            file.write(xored(image, before))
            file.write(xored(deep, deep_before) if has_depths else b"")
            before, deep_before = image, deep
    sys.stdout.buffer.flush()
    return ALIKE


def xored(data: bytes, before: bytes) -> bytes:
    return (int.from_bytes(data, "little") ^ int.from_bytes(before, "little")).to_bytes(len(data), "little")


def little_endian(words: "array.array[int]") -> bytes:
    if sys.byteorder == "little":
        return words.tobytes()
    swapped = array.array("H", words)
    swapped.byteswap()
    return swapped.tobytes()
