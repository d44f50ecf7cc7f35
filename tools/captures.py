"""captures: makes captures of framedbg from Python; docs/CAPTURES.md says what to log of a renderer's calls.

    from captures import Capture
    capture = Capture(640, 480)
    capture.clear(0, 0, 0, 255)
    capture.blend(True, "SRC_ALPHA INV_SRC_ALPHA ADD", "ONE INV_SRC_ALPHA ADD")
    capture.draw([(100, 100, 0.5, (255, 0, 0, 255)), ...], indices=[0, 1, 2], source={"event": 7, "name": "the roof"})
    capture.write(file)

Positions are pixels of the target with y down, the centre of the first at 0.5, 0.5; depths are 0 to 1; colours are
bytes. `place` turns clip space into these. `draw_picture` takes what the pixel shader gave, pixel by pixel, and
makes the capture one of version 3. A Fault says what a capture can't hold.

The limits and spellings of captures stand here, and nowhere else in Python but in reference.py, which has its own to
be compared with.
"""
import base64
import binascii
import json
from collections.abc import Iterable, Sequence
from typing import Any, TextIO

Event = dict[str, Any]
Bytes = bytes | bytearray | memoryview
Box = tuple[int, int, int, int]  # left, top, width, height

PIXEL = 65536  # captures give positions in 1/65536 pixel
FARTHEST = 65535  # the largest depth
MOST_SIDE, MOST_EVENTS, MOST_CORNERS, MOST_BYTES, MOST_NAME = 16384, 1_000_000, 196_608, 67_108_864, 64
MOST_TRIANGLES = MOST_CORNERS // 3  # of one draw
MOST_POSITION = MOST_SIDE * PIXEL  # to both sides
LEAST_EDGE, MOST_EDGE = -(1 << 31), (1 << 31) - 1  # of a scissor's rectangle
KINDS = ("clear", "raster", "scissor", "blend", "factor", "draw", "marker", "depth", "depth_clear")
SINCE_TWO = ("depth", "depth_clear")  # kinds that version 1 doesn't have
STATES = ("raster", "scissor", "blend", "factor", "depth")  # kinds that set a part of the state
MOST_CORNER = MOST_SIDE - 1  # of a picture: the last pixel that its first texel may lie on
INTERPOLATIONS = ("flat", "linear")  # those of version 3 are these, and a picture
PICTURE = "picture"
CULLS = ("none", "front", "back")
FACTORS = (
    "ZERO",
    "ONE",
    "SRC_COLOR",
    "INV_SRC_COLOR",
    "SRC_ALPHA",
    "INV_SRC_ALPHA",
    "DEST_ALPHA",
    "INV_DEST_ALPHA",
    "DEST_COLOR",
    "INV_DEST_COLOR",
    "BLEND_FACTOR",
    "INV_BLEND_FACTOR",
)
ALPHA_FACTORS = tuple(name for name in FACTORS if not name.endswith("_COLOR"))  # a colour is none in the alpha part
REPLACE = ("ONE", "ZERO", "ADD")  # the source alone: a part of blending as it is at the start, and off
OPERATIONS = ("ADD", "SUBTRACT", "REV_SUBTRACT", "MIN", "MAX")
FUNCTIONS = ("NEVER", "LESS", "EQUAL", "LESS_EQUAL", "GREATER", "NOT_EQUAL", "GREATER_EQUAL", "ALWAYS")


class Fault(Exception):
    """A capture can't hold it; the text says what."""


def label(name: str) -> str:
    """A text that a marker takes: without control characters, cut between two characters to at most 64 bytes."""
    kept = "".join(c for c in name if c >= " " and c != "\x7f")
    return kept.encode(errors="replace")[:MOST_NAME].decode(errors="ignore")


def compact(value: Any) -> str:
    """JSON without spaces."""
    return json.dumps(value, separators=(",", ":"), ensure_ascii=False)


def text(capture: dict[str, Any]) -> str:
    """A capture as JSON, an event a line."""
    return joined(capture, map(compact, capture["events"]))


def joined(capture: dict[str, Any], lines: Iterable[str]) -> str:
    """The same where the events are texts already."""
    head = {name: value for name, value in capture.items() if name != "events"}
    return json.dumps(head, separators=(",", ":"))[:-1] + ',"events":[\n' + ",\n".join(lines) + "\n]}\n"


# ---- A frame and its events, as they stand in a file. Nothing is checked here: class Capture does that.


def head(width: int, height: int, version: int = 2) -> dict[str, Any]:
    return {"format": "framedbg", "version": version, "width": width, "height": height}


def frame(width: int, height: int, events: list[Event], version: int = 2) -> dict[str, Any]:
    return {**head(width, height, version), "events": events}


def marker(name: str) -> Event:
    return {"kind": "marker", "name": name}


def clear(*four: int) -> Event:
    return {"kind": "clear", "color": list(four)}


def depth_clear(word: int) -> Event:
    return {"kind": "depth_clear", "depth": word}


def raster(cull: str = "back", front_ccw: bool = False, scissor: bool = False) -> Event:
    return {"kind": "raster", "cull": cull, "front_ccw": bool(front_ccw), "scissor": bool(scissor)}


def scissor(left: int, top: int, right: int, bottom: int) -> Event:
    return {"kind": "scissor", "rect": [left, top, right, bottom]}


def blend(enable: bool = True, rgb: Iterable[str] = REPLACE, alpha: Iterable[str] = REPLACE, mask: int = 15) -> Event:
    return {"kind": "blend", "enable": bool(enable), "rgb": list(rgb), "alpha": list(alpha), "mask": mask}


def factor(*four: int) -> Event:
    return {"kind": "factor", "color": list(four)}


def depth(enable: bool = True, write: bool = True, func: str = "LESS") -> Event:
    return {"kind": "depth", "enable": bool(enable), "write": bool(write), "func": func}


def vertex(x: int, y: int, four: Iterable[int], z: int | None = None) -> dict[str, Any]:
    """A corner at a place in 1/65536 pixel, of version 2 where it has a depth."""
    return {"x": x, "y": y, **({} if z is None else {"z": z}), "color": list(four)}


def draw(vertices: list[dict[str, Any]], interp: str = "flat", indices: Iterable[int] | None = None) -> Event:
    return {
        "kind": "draw",
        "interp": interp,
        "vertices": vertices,
        **({} if indices is None else {"indices": list(indices)}),
    }


def corner(x: int, y: int, z: int) -> dict[str, Any]:
    """A corner of a draw with a picture, which needs no colour."""
    return {"x": x, "y": y, "z": z}


def picture(
    left: int, top: int, width: int, height: int, rgba: Bytes, holes: Sequence[Any] | None = None
) -> dict[str, Any]:
    """A box of the target, and what a draw puts out there: four bytes a pixel, rows from the top. holes: for each
    pixel whether nothing is put out."""
    return {
        "left": left,
        "top": top,
        "width": width,
        "height": height,
        "texels": spelled(rgba),
        **({} if holes is None else {"holes": spelled(bits(holes))}),
    }


def picture_draw(vertices: list[dict[str, Any]], box: dict[str, Any], indices: Iterable[int] | None = None) -> Event:
    """A draw whose colours are those of a picture: of version 3 alone."""
    return {**draw(vertices, PICTURE, indices), "picture": box}


def spelled(data: Bytes) -> str:
    """Bytes in base64, in the one spelling that a capture takes."""
    return base64.b64encode(data).decode()


def unspelled(text: str) -> bytes | None:
    """The bytes that such a text stands for, or None where it is no spelling of any."""
    try:
        data = base64.b64decode(text.encode("ascii"), validate=True)
    except (UnicodeEncodeError, binascii.Error):
        return None
    return data if spelled(data) == text else None


def bits(truths: Sequence[Any]) -> bytes:
    """Truths as bits, from the least bit of the first byte."""
    each, length = bytes(map(bool, truths)), -(-len(truths) // 8)
    return sum(int.from_bytes(each[place::8], "little") << place for place in range(8)).to_bytes(length, "little")


def place(
    clip: Sequence[float], viewport: Sequence[float], half_depth: bool = False, y_up: bool = True
) -> tuple[float, float, float]:
    """A vertex (x, y, z, w) of clip space on a viewport (left, top, width, height), as (x, y, depth); clip at w > 0
    first.

    half_depth: 0 <= z <= w is seen, as in Direct3D and Vulkan; else -w <= z <= w, as in OpenGL. y_up: OpenGL and
    Direct3D, not Vulkan.
    """
    x, y, z, w = clip
    if not w > 0:
        raise Fault(f"w is {w}: clip triangles at the near plane before they are placed")
    left, top, width, height = viewport
    x, y, z = x / w, y / w * (-1 if y_up else 1), z / w
    return left + (x * 0.5 + 0.5) * width, top + (y * 0.5 + 0.5) * height, z if half_depth else z * 0.5 + 0.5


def depth_word(depth: float) -> int:
    """0 to 1 as a whole number, the nearest."""
    return 0 if not depth > 0 else FARTHEST if depth >= 1 else int(depth * FARTHEST + 0.5)


class Capture:
    """One frame, event by event; each call takes a last word `source`, which framedbg passes over."""

    def __init__(self, width: int, height: int) -> None:
        if not (1 <= width <= MOST_SIDE and 1 <= height <= MOST_SIDE):
            raise Fault(f"a target of {width} by {height}: each side is 1 to {MOST_SIDE}")
        self.width, self.height = width, height
        self.events: list[Event] = []

    def add(self, kind: str, source: Any = None, **members: Any) -> None:
        self.put({"kind": kind, **members}, source)

    def put(self, event: Event, source: Any = None) -> None:
        if len(self.events) == MOST_EVENTS:
            raise Fault(f"more than {MOST_EVENTS} events")
        self.events.append({**event, **({"source": source} if source is not None else {})})

    def marker(self, name: str, source: Any = None) -> None:
        self.put(marker(label(name)), source)

    def clear(self, red: int, green: int, blue: int, alpha: int, source: Any = None) -> None:
        self.put(clear(*colour((red, green, blue, alpha))), source)

    def depth_clear(self, depth: float, source: Any = None) -> None:
        self.put(depth_clear(depth_word(depth)), source)

    def raster(self, cull: str, front_ccw: bool, scissor: bool, source: Any = None) -> None:
        known(cull, CULLS, "cull mode")
        self.put(raster(cull, front_ccw, scissor), source)

    def scissor(self, left: int, top: int, right: int, bottom: int, source: Any = None) -> None:
        self.put(scissor(*map(int, (left, top, right, bottom))), source)

    def blend(
        self, enable: bool, rgb: str = "ONE ZERO ADD", alpha: str = "ONE ZERO ADD", mask: int = 15, source: Any = None
    ) -> None:
        """Parts are texts as "SRC_ALPHA INV_SRC_ALPHA ADD"; mask has red 1, green 2, blue 4, alpha 8."""
        if not 0 <= mask <= 15:
            raise Fault(f"mask {mask}: it is 0 to 15")
        self.put(blend(enable, part(rgb, False), part(alpha, True), mask), source)

    def factor(self, red: int, green: int, blue: int, alpha: int, source: Any = None) -> None:
        self.put(factor(*colour((red, green, blue, alpha))), source)

    def depth(self, enable: bool, write: bool, function: str, source: Any = None) -> None:
        known(function, FUNCTIONS, "comparison")
        self.put(depth(enable, write, function), source)

    def draw(
        self, corners: Sequence[Any], linear: bool = True, indices: Sequence[int] | None = None, source: Any = None
    ) -> None:
        """Triangles from corners (x, y, depth, colour), or from corners and indices."""
        countable(corners, indices)
        vertices = [vertex(position(x), position(y), colour(four), depth_word(depth)) for x, y, depth, four in corners]
        self.put(draw(vertices, "linear" if linear else "flat", indices), source)

    def draw_picture(
        self,
        corners: Sequence[Any],
        box: Box,
        rgba: Bytes,
        holes: Sequence[Any] | None = None,
        indices: Sequence[int] | None = None,
        source: Any = None,
    ) -> None:
        """Triangles from corners (x, y, depth), whose colours are those of a picture over the box (left, top, width,
        height): four bytes a pixel of it, rows from the top. holes: for each pixel whether nothing is put out there,
        as beyond the box."""
        countable(corners, indices)
        fits(box, rgba, holes)
        vertices = [corner(position(x), position(y), depth_word(depth)) for x, y, depth in corners]
        self.put(picture_draw(vertices, picture(*box, rgba, holes), indices), source)

    def text(self) -> str:
        version = 3 if any(PICTURE in event for event in self.events) else 2
        made = text(frame(self.width, self.height, self.events, version))
        if len(made.encode()) > MOST_BYTES:
            raise Fault(f"a capture of more than {MOST_BYTES} bytes")
        return made

    def write(self, file: TextIO) -> None:
        file.write(self.text())


def countable(corners: Sequence[Any], indices: Sequence[int] | None) -> None:
    """There aren't too many, and each index names a corner."""
    if len(corners) > MOST_CORNERS or len(indices or ()) > MOST_CORNERS:
        raise Fault(
            f"a draw of {len(corners)} corners and {len(indices or ())} indices: {MOST_CORNERS} is the most of each"
        )
    bad = [index for index in indices or () if not 0 <= index < len(corners)]
    if bad:
        raise Fault(f"index {bad[0]} of {len(corners)} corners")


def fits(box: Box, rgba: Bytes, holes: Sequence[Any] | None) -> None:
    """A picture may lie there, and has as many bytes and holes as pixels."""
    left, top, width, height = box
    if not (
        0 <= left <= MOST_CORNER and 0 <= top <= MOST_CORNER and 1 <= width <= MOST_SIDE and 1 <= height <= MOST_SIDE
    ):
        raise Fault(
            f"a picture of {width} by {height} at {left}, {top}: each side is 1 to {MOST_SIDE}, left and top "
            f"are 0 to {MOST_CORNER}"
        )
    if len(rgba) != 4 * width * height:
        raise Fault(
            f"a picture of {width} by {height} with {len(rgba)} bytes: {4 * width * height} are wanted, four a pixel"
        )
    if holes is not None and len(holes) != width * height:
        raise Fault(
            f"a picture of {width} by {height} with {len(holes)} holes: {width * height} truths are wanted, one a pixel"
        )


def position(pixels: float) -> int:
    if not abs(pixels) <= MOST_SIDE:
        raise Fault(f"position {pixels}: {MOST_SIDE} pixels either way are the most, clip what is farther")
    return round(pixels * PIXEL)


def colour(four: Sequence[int]) -> list[int]:
    if len(four) != 4 or not all(isinstance(byte, int) and 0 <= byte <= 255 for byte in four):
        raise Fault(f"colour {four}: four whole numbers from 0 to 255")
    return list(four)


def known(word: str, words: Sequence[str], what: str) -> None:
    if word not in words:
        raise Fault(f"{word} is no {what}; there are {', '.join(sorted(words))}")


def part(words: str, is_alpha: bool) -> list[str]:
    """A blend part from its text. In the alpha part a factor's name ends in ALPHA or FACTOR."""
    three = words.split()
    if len(three) != 3:
        raise Fault(f"blend part {words!r}: source factor, destination factor, operation")
    for factor in three[:2]:
        known(factor, ALPHA_FACTORS if is_alpha else FACTORS, "factor of alpha" if is_alpha else "factor")
    known(three[2], OPERATIONS, "operation")
    return three
