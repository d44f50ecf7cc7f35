"""glretrace: pictures after calls of a trace, and the state at a call."""
import json
import pathlib
import re
import tempfile
from collections.abc import Callable, Iterable, Sequence
from typing import IO, Any

from real_frames.fault import Fault
from real_frames.reel import Kept, Reel

from . import numbers as gl
from .calls import said, started
from .draws import Done

Say = Callable[[str], None]

TRY = "; try LIBGL_ALWAYS_SOFTWARE=1, another --frame, or take_frame --zink"  # a driver may end what it replays
HEAD = re.compile(rb"P6\n(?:#([^\n]*)\n)?(\d+) (\d+)\n255\n")


class Snapshots:
    """The picture of the window after each of some calls."""

    def __init__(
        self, retracer: str, path: str | pathlib.Path, numbers: Iterable[int], say: Say = lambda line: None
    ) -> None:
        self.size: tuple[int, int] | None = None
        self.kept: dict[int, Kept] = {}
        wanted = sorted(set(numbers))
        with tempfile.NamedTemporaryFile("w", suffix=".txt") as list_of_calls:
            list_of_calls.write("".join(f"{number}\n" for number in wanted))
            list_of_calls.flush()
            with started([retracer, "-S", f"@{list_of_calls.name}", "-s", "-", path]) as process:
                try:
                    self.read(process.stdout, wanted, say)
                finally:
                    process.kill()
                if len(self.kept) < len(wanted):
                    raise Fault(f"{retracer} gave {len(self.kept)} of {len(wanted)} pictures: {said(process)}{TRY}")

    def read(self, stream: IO[bytes], wanted: list[int], say: Say) -> None:
        reel = Reel()
        for done, number in enumerate(wanted, 1):
            head = b"".join(stream.readline() for _ in range(4))
            found = HEAD.fullmatch(head)
            if not found:
                return
            size = int(found[2]), int(found[3])
            if self.size not in (None, size):
                raise Fault(f"the window's size changes within the frame, from {self.size} to {size}")
            self.size = size
            content = stream.read(3 * size[0] * size[1])
            if len(content) < 3 * size[0] * size[1]:
                return
            self.kept[number] = reel.put(content)
            say(f"picture {done} of {len(wanted)}: after call {number}")

    def picture(self, number: int) -> bytes:
        """The bytes of a picture: RGBA, rows from the top; its alpha isn't told, and taken as 255."""
        content = self.kept[number].picture()
        made = bytearray(b"\xff" * (len(content) // 3 * 4))
        for channel in range(3):
            made[channel::4] = content[channel::3]
        return bytes(made)


def state_at(retracer: str, path: str | pathlib.Path, number: int) -> dict[str, Any]:
    """{GL_NAME: value} of the state at a call; empty where glretrace can't tell it."""
    with started([retracer, "-D", str(number), path]) as process:
        told = process.stdout.read().decode(errors="replace")
        process.stderr.read()
    try:
        return json.JSONDecoder(strict=False).raw_decode(told[told.index("{") :])[0]["parameters"]
    except (ValueError, KeyError, TypeError):
        return {}


def otherwise(done: Done, told: dict[str, Any]) -> list[str]:
    """The names of what glretrace's state of a draw has otherwise than it was worked out; none where it tells
    nothing."""
    own = done.settings
    here = {
        "GL_VIEWPORT": own.viewport,
        "GL_SCISSOR_BOX": own.scissor,
        "GL_DEPTH_RANGE": own.depth_range,
        "GL_POLYGON_OFFSET_FACTOR": (own.offset[0],),
        "GL_POLYGON_OFFSET_UNITS": (own.offset[1],),
        "GL_PROJECTION_MATRIX": done.matrices[0],
        "GL_MODELVIEW_MATRIX": done.matrices[1],
        "GL_DEPTH_WRITEMASK": (own.depth_mask,),
        "GL_COLOR_WRITEMASK": own.mask,
        **{name: (own.is_on(number),) for name, number in gl.SWITCHES.items()},
    }
    return [name for name, values in here.items() if name in told and not is_alike(values, told[name])]


def is_alike(values: Sequence[float], told: Any) -> bool:
    told = told if isinstance(told, list) else [told]
    theirs = [float(value == "GL_TRUE") if isinstance(value, str) else float(value) for value in told]
    return len(theirs) == len(values) and all(abs(a - b) <= 1e-4 * max(1.0, abs(b)) for a, b in zip(values, theirs))
