"""Records of a frame as a capture of version 3: the colours of a draw are those that its shader gave, pixel by
pixel, as far as they can be had. What comes out of framedbg after each draw is the frame's own picture, byte for
byte: a pixel for which no source is found is replaced by a draw behind."""
import zlib
from collections.abc import Iterable, Mapping, Sequence
from typing import Any

import captures
from captures import FARTHEST, MOST_TRIANGLES, PIXEL

from . import states, wide
from .discards import LEFT_OUT
from .gather import READS_TEXTURES
from .layers import Layers
from .painter import STRAYS
from .pieces import Piece
from .records import Colour, DrawRecord, PictureRecord
from .shown import SOURCE, Shown, words_of
from .writer import Writer

HOLES = bytes(kind != SOURCE for kind in range(256))
OVER_ALL = (states.raster("none", False, False), states.plain(), states.depth(False, True, "LESS"))


class PicturedWriter(Writer):
    def capture(self) -> dict[str, Any]:
        return super().capture() | {"version": 3}

    def lay(self, record: PictureRecord) -> None:
        """Of the picture that was there what differs from what is here."""
        picture = zlib.decompress(record.picture)
        sources = differing(self.picture, picture, self.width)
        self.picture = picture
        if sources and not self.is_painted_over():
            self.replace(sources, self.begin_picture(record))

    def note(self) -> None:
        if READS_TEXTURES in self.losses.counts:
            self.losses.notes[READS_TEXTURES] = "what they gave is told pixel by pixel"
        for what in [what for what, note in self.losses.notes.items() if note == LEFT_OUT]:
            self.losses.notes[what] = "what fails it is a hole where the picture is as it was"

    def draw(self, record: DrawRecord) -> None:
        if record.depth_alone or not record.after or self.is_distinct:
            super().draw(record)
            return
        source = self.begin(record)
        kept, pieces = self.depth.kept(), self.passing(record)
        layers, after = Layers(pieces, self.width, self.height), record.after.picture()
        shown = Shown(record, layers, self.picture, after)
        if record.state.depth["enable"] and record.state.depth["write"]:
            self.leave(kept, shown.holes)
        record.left_out += len(shown.holes)
        self.put_shown(
            pieces,
            shown,
            {
                **source,
                **record.told,
                **({"left_out": record.left_out} if record.left_out else {}),
                "colours": dict(shown.counted),
            },
        )
        if shown.replaced:
            self.losses.add(
                "pixels whose blending gives no source", "replaced by what the frame has there", len(shown.replaced)
            )
            self.log.set(states.plain(), source)
            self.put(pieces, picture_of(shown.replaced, self.width), {**source, "baked": "after"})
        strays = differing(self.picture, after, self.width, layers.counts)
        if strays:
            self.losses.add(STRAYS, "replaced by what the frame has there", len(strays))
            self.replace(strays, {**source, "baked": "after"})
        self.picture = after

    def leave(self, kept: Sequence[Sequence[int]], holes: Iterable[int]) -> None:
        """What is discarded leaves the depth as it was."""
        for at in holes:
            y, x = divmod(at, self.width)
            self.depth.writable(y)[x] = kept[y][x]

    def put_shown(self, pieces: Sequence[Piece], shown: Shown, source: dict[str, Any]) -> None:
        """The triangles of a draw with the source of each pixel that has one, the others being holes. One source at
        all of them is a flat draw."""
        count, flat = shown.sources()
        left, top, right, bottom = shown.layers.box
        if count and flat and count == shown.layers.total:
            self.put(pieces, None, source, flat)
        elif count:
            holes = shown.kinds.translate(HOLES) if count < len(shown.kinds) else None
            self.put(
                pieces, captures.picture(left, top, right - left, bottom - top, shown.texels.tobytes(), holes), source
            )

    def put(self, pieces: Sequence[Piece], box: Any, source: dict[str, Any], flat: Colour | None = None) -> None:
        """The triangles of a draw with a picture, or in one colour."""
        for start in range(0, len(pieces), MOST_TRIANGLES):
            part = pieces[start : start + MOST_TRIANGLES]
            corners = [corner for piece in part for corner in piece.corners]
            numbers = {
                corner: number for number, corner in enumerate(dict.fromkeys(corners))
            }  # neighbours share corners
            order = [numbers[corner] for corner in corners]
            made = (
                captures.draw([captures.vertex(x, y, flat, z) for x, y, z in numbers], "flat", order)
                if flat
                else captures.picture_draw([captures.corner(*corner) for corner in numbers], box, order)
            )
            self.add(made, {**source, "primitives": [list(piece.number) for piece in part]})

    def replace(self, sources: Mapping[int, bytes | Colour], source: dict[str, Any]) -> None:
        """Some pixels become what they are given, whatever was there."""
        for event in OVER_ALL:
            self.log.set(event, source)
        box = picture_of(sources, self.width)
        (left, top), (right, bottom) = (box["left"], box["top"]), (
            box["left"] + box["width"],
            box["top"] + box["height"],
        )
        corners = [
            captures.corner(x * PIXEL, y * PIXEL, FARTHEST)
            for x, y in ((left, top), (right, top), (right, bottom), (left, bottom))
        ]
        self.add(captures.picture_draw(corners, box, [0, 1, 3, 1, 2, 3]), source)


def differing(before: bytes, after: bytes, width: int, counts: bytearray | None = None) -> dict[int, bytes]:
    """{place: colour} of the pixels that changed where no triangle passes."""
    if wide.numpy:
        return {at: after[4 * at : 4 * at + 4] for at in wide.differing(before, after, counts)}
    found: dict[int, bytes] = {}
    was, now = words_of(before), words_of(after)
    for start in range(0, len(now), width):
        row = now[start : start + width]
        if was[start : start + width] != row:
            found.update(
                (at, after[4 * at : 4 * at + 4])
                for at, one, other in zip(range(start, start + width), was[start : start + width], row)
                if one != other and not (counts and counts[at])
            )
    return found


def picture_of(sources: Mapping[int, bytes | Colour], width: int) -> dict[str, Any]:
    """The picture with a source for some pixels of the target, and holes at all others of its box."""
    rows, columns = {at // width for at in sources}, {at % width for at in sources}
    left, top, right, bottom = min(columns), min(rows), max(columns) + 1, max(rows) + 1
    across, down = right - left, bottom - top
    texels, holes = bytearray(4 * across * down), bytearray(b"\1") * (across * down)
    for at, colour in sources.items():
        place = (at // width - top) * across + at % width - left
        texels[4 * place : 4 * place + 4] = bytes(colour)
        holes[place] = 0
    return captures.picture(left, top, across, down, bytes(texels), holes if any(holes) else None)
