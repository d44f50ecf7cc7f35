"""What the tests of blame stand on: small frames that are worked out by hand, and their pictures by
build/reference.py."""
import contextlib
import functools
import io
import json
import os
import pathlib
import subprocess
import sys
import tempfile
import types
import unittest

from folders import TOOLS, TOP as ROOT

import captures
import reference
from blaming import command_line, report, running, telling_json
from captures import PIXEL, clear, raster  # noqa: F401  the tests have the last two from here
from framedbg_client.program import tried_program
from framedbg_client.replies import images_of

EXAMPLES = ROOT / "examples"
HUNTS = EXAMPLES / "hunts"
PROGRAM = tried_program()
SECONDS = float(
    os.environ.get("BLAME_SECONDS", "600")
)  # for a search: a wrong version, which may go on to its end, is given fewer
NAMES = ("lantern", "balloons", "island", "fish", "planet", "lighthouse", "vase", "doughnut", "chain")


def draw(*corners, interp="flat", indices=None):
    """A draw of (x, y, colour) or (x, y, colour, z)."""
    return captures.draw(
        [captures.vertex(int(x * PIXEL), int(y * PIXEL), color, *z or [0]) for x, y, color, *z in corners],
        interp,
        indices,
    )


def box(left, top, right, bottom, color, z=0, interp="flat"):
    """A rectangle of two triangles that run clockwise."""
    corners = [(left, top, color, z), (right, top, color, z), (right, bottom, color, z), (left, bottom, color, z)]
    return draw(*corners, interp=interp, indices=[0, 1, 2, 0, 2, 3])


def painted(made, rng, left, top, width, height):
    """The draw with a picture by chance, a third of it holes; what colours stand at its corners is passed over."""
    texels = width * height
    holes = [rng.random() < 0.3 for _ in range(texels)] if rng.random() < 0.7 else None
    return made | {
        "interp": "picture",
        "picture": captures.picture(left, top, width, height, rng.randbytes(4 * texels), holes),
    }


def blend(enable=True, rgb="SRC_ALPHA INV_SRC_ALPHA ADD", alpha="ONE INV_SRC_ALPHA ADD", mask=15):
    return captures.blend(enable, rgb.split(), alpha.split(), mask)


def depth(func="LESS", enable=True, write=True):
    return captures.depth(enable, write, func)


def capture(events, width=24, height=18, version=2):
    return captures.frame(width, height, events, version)


@functools.lru_cache(maxsize=None)
def pam_of(text):
    frame = reference.Frame(json.loads(text))
    frame.position = len(frame.events)
    return frame.pam()


def pam(made):
    """The picture of a capture by the reference."""
    return pam_of(json.dumps(made))


def hunt_picture(name):
    """The picture of a mended hunt, as build/make_hunts.py wrote it by the reference."""
    return images_of((HUNTS / f"{name}_mended_show.expected").read_bytes())[0]


class Folder(unittest.TestCase):
    """Tests that want files."""

    def setUp(self):
        temporary = tempfile.TemporaryDirectory()
        self.addCleanup(temporary.cleanup)
        self.folder = pathlib.Path(temporary.name)

    def written(self, name, what):
        path = self.folder / name
        path.write_bytes(what) if isinstance(what, bytes) else path.write_text(
            what if isinstance(what, str) else json.dumps(what)
        )
        return str(path)

    def found(self, wrong, right, **how):
        """The Outcome over a wrong frame, and a right one or a picture."""
        picture = self.written("wanted.pam", right if isinstance(right, bytes) else pam(right))
        given = types.SimpleNamespace(
            **{"program": PROGRAM, "tolerance": (0, 0, 0, 0), "processes": 2, "seconds": SECONDS} | how
        )
        self.frame, outcome = running.found(self.written("wrong.json", wrong), picture, given, is_quiet=True)
        return outcome

    def report(self, outcome, **how):
        return list(report.lines(self.frame, outcome, **how))


def told(*words):
    """What framedbg-blame told in this process: (status, lines, standard error)."""
    out, errors = io.TextIOWrapper(io.BytesIO(), "utf-8"), io.StringIO()
    with contextlib.redirect_stdout(out), contextlib.redirect_stderr(errors):
        try:
            status = running.run(
                command_line.words(
                    [*map(str, words), "--program", PROGRAM, "--processes", "2", "--seconds", str(SECONDS)]
                )
            )
        except SystemExit as ended:
            status = ended.code
    out.flush()
    return status, out.buffer.getvalue().decode().split("\n")[:-1], errors.getvalue()


def launched(*words, **how):
    """What framedbg-blame did as a program of its own: (status, standard output, standard error)."""
    ran = subprocess.run(
        [sys.executable, TOOLS / "framedbg-blame", *map(str, words)],
        capture_output=True,
        timeout=120,
        check=False,
        **how,
    )
    return ran.returncode, ran.stdout.decode(), ran.stderr.decode()


def value_of(outcome):
    return telling_json.value_of(outcome)
