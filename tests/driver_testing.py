"""What the tests of framedbg-driver stand on: runs with a driver of Mesa, and frames that are worked out by
build/reference.py."""
import ctypes.util
import functools
import json
import os
import pathlib
import subprocess
import sys
import tempfile
import unittest
import zlib

from folders import TOOLS, TOP as ROOT

import captures
import reference
from captures import PIXEL
from framedbg_client.program import tried_program

EXAMPLES = ROOT / "examples"
FOUND = EXAMPLES / "drivers"  # captures of the faults that were found
PROGRAM = tried_program()
SECONDS = 900


@functools.lru_cache(maxsize=None)
def missing():
    """Why there is no driver here, or None."""
    if not ctypes.util.find_library("EGL"):
        return "libegl1 isn't installed"
    ran = launched("--list")
    return None if ran.returncode == 0 else f"there is no driver: {ran.stderr.strip()}"


def environment(driver, **more):
    """The variables of a run by a driver of Mesa."""
    kept = {name: value for name, value in os.environ.items() if name not in ("MESA_LOADER_DRIVER_OVERRIDE",)}
    own = {"LIBGL_ALWAYS_SOFTWARE": "1", "GALLIUM_DRIVER": driver, "XDG_RUNTIME_DIR": tempfile.gettempdir()}
    return {**kept, **own, **more}


def launched(*words, driver="llvmpipe", **more):
    """framedbg-driver, run with words; more are variables of its environment."""
    words = [sys.executable, TOOLS / "framedbg-driver", *map(str, words)]
    return subprocess.run(
        words,
        env=environment(driver, **more),
        stdin=subprocess.DEVNULL,
        capture_output=True,
        text=True,
        timeout=SECONDS,
        check=False,
    )


def value_of(ran):
    """What a run told as JSON."""
    if ran.stderr:
        raise AssertionError(ran.stderr)
    return json.loads(ran.stdout)


# ---- Frames
def vertex(x, y, color, z=0):
    return captures.vertex(int(x * PIXEL), int(y * PIXEL), color, z)


def triangle(*places, color=(255, 255, 255, 255), z=0, interp="flat"):
    """A draw of triangles, three places each in pixels, of one colour and one depth."""
    return captures.draw([vertex(x, y, color, z) for x, y in places], interp)


def square(left, top, right, bottom, **how):
    """Two triangles that run clockwise."""
    return triangle((left, top), (right, top), (left, bottom), (right, top), (right, bottom), (left, bottom), **how)


def frame(events, side=8, version=2):
    return captures.frame(side, side, events, version)


def sums(capture):
    """The sums of colours and depths at each position, by the reference."""
    drawn = reference.Frame(capture)
    for position in range(len(capture["events"]) + 1):
        pixels = [drawn.replay(position, x, y)[0] for y in range(drawn.height) for x in range(drawn.width)]
        colours, depths = (
            b"".join(bytes(colour) for colour, _ in pixels),
            b"".join(depth.to_bytes(2, sys.byteorder) for _, depth in pixels),
        )
        yield f"{zlib.crc32(colours):08x} {zlib.crc32(depths):08x}"


class Folder(unittest.TestCase):
    """Tests that want files."""

    def setUp(self):
        self.folder = pathlib.Path(self.enterContext(tempfile.TemporaryDirectory()))

    def written(self, capture, name="frame.json"):
        path = self.folder / name
        path.write_text(capture if isinstance(capture, str) else json.dumps(capture))
        return path


@unittest.skipIf(missing(), missing())
class Driven(Folder):
    """Tests that want a driver."""

    def compared(self, capture, *words, driver="llvmpipe"):
        """What compare tells of a capture or a file, as JSON."""
        path = capture if isinstance(capture, pathlib.Path) else self.written(capture)
        return value_of(launched("compare", path, "--json", "--program", PROGRAM, *words, driver=driver))

    def tried(self, *words, driver="llvmpipe"):
        """The rows of the table of features."""
        return value_of(launched("try", "--json", "--program", PROGRAM, *words, driver=driver))["features"]
