"""Records of a frame as events of framedbg, with a depth target beside them to know which triangle shows at which
pixel."""
import zlib
from collections import Counter
from collections.abc import Callable, Iterable, Sequence
from typing import Any

import captures
from captures import FARTHEST, MOST_CORNERS, MOST_TRIANGLES, PIXEL, Event, label

from . import grid, states
from .gather import READS_TEXTURES
from .losses import Losses
from .painted_over import paints_all
from .painter import Detail, Painter, distinct
from .pieces import Piece, place
from .raster import DepthTarget, Span
from .records import ClearRecord, Colour, DrawRecord, MarkerRecord, PictureRecord, Record
from .states import State
from .viewport import meet

NO_COLOUR = (0, 0, 0, 0)


class DepthScale:
    """Spreads the depths that a frame has over the 16 bits: rising and straight, so that no comparison changes but
    by rounding."""

    def __init__(self, records: Iterable[Record]) -> None:
        draws = [r for r in records if isinstance(r, DrawRecord) and r.state.depth["enable"]]
        depths = [z for record in draws for _, corners in record.shapes for _, _, z in corners]
        self.low = max(min(depths, default=0.0), 0.0)
        self.high = min(max(depths, default=1.0), 1.0)
        if self.high - self.low < 1e-7:
            self.low, self.high = 0.0, 1.0

    def __call__(self, depth: float) -> int:
        share = (depth - self.low) / (self.high - self.low)
        return FARTHEST if share > 1 else min(max(round(share * (FARTHEST - 1)), 0), FARTHEST - 1)


class Writer:
    def __init__(
        self,
        size: tuple[int, int],
        records: Sequence[Record],
        losses: Losses,
        detail: Detail = Detail(),
        colours: str = "measured",
    ) -> None:
        self.width, self.height = size
        self.records, self.losses, self.is_distinct = records, losses, colours == "distinct"
        self.scale = DepthScale(records)
        self.depth = DepthTarget(*size)
        deep = [r for r in records if isinstance(r, DrawRecord) and r.state.depth["enable"]]
        passes = Counter(place(corners) for record in deep for _, corners in record.shapes)
        self.painter = Painter(*size, losses, detail, passes)
        self.events: list[Event] = []
        self.log = states.StateLog(self.events)
        self.picture = bytes(self.width * self.height * 4)
        self.draws = self.place = self.done = 0
        self.say: Callable[[str], None] = lambda line: None

    def capture(self) -> dict[str, Any]:
        writers: dict[type[Record], Callable[..., None]] = {
            MarkerRecord: self.mark,
            ClearRecord: self.clear,
            PictureRecord: self.lay,
            DrawRecord: self.draw,
        }
        draws = [record for record in self.records if isinstance(record, DrawRecord)]
        for self.place, record in enumerate(self.records):
            if isinstance(record, DrawRecord):
                self.done += 1
                self.say(f"writing draw {self.done} of {len(draws)}: {record.event} {record.name}")
            writers[type(record)](record)
        self.note()
        return {
            **captures.head(self.width, self.height),
            "depth_scale": {"low": self.scale.low, "high": self.scale.high},
            "losses": self.losses.entries(),
            "events": self.events,
        }

    def note(self) -> None:
        if not self.is_distinct and READS_TEXTURES in self.losses.counts:
            self.losses.notes[READS_TEXTURES] = "colours are fitted to the frame's pictures"

    def mark(self, record: MarkerRecord) -> None:
        until = {} if record.until is None else {"until": record.until}
        self.add(captures.marker(label(record.name)), {"event": record.event, "name": record.name, **until})

    def add(self, event: Event, source: dict[str, Any]) -> None:
        self.events.append({**event, "source": source})

    # Clears, and what was there before.

    def clear(self, record: ClearRecord) -> None:
        source = {"event": record.event, "name": record.name}
        if record.rectangle is not None or record.mask != 15:
            self.clear_part(record, source)
            return
        if record.colour is not None:
            self.add(captures.clear(*record.colour), source)
            self.picture = bytes(record.colour) * (self.width * self.height)
        if record.depth is not None:
            depth = self.scale(record.depth)
            self.add(captures.depth_clear(depth), source)
            self.depth.fill(depth)

    def clear_part(self, record: ClearRecord, source: dict[str, Any]) -> None:
        self.losses.add("clears of a rectangle or of some channels", "drawn as two triangles")
        box = record.rectangle or [0, 0, self.width, self.height]
        self.log.set(states.raster("none", False, False), source)
        self.log.set(states.plain(record.mask if record.colour is not None else 0), source)
        self.log.set(states.depth(record.depth is not None, True, "ALWAYS"), source)
        depth = self.scale(record.depth) if record.depth is not None else 0
        self.rectangles([(box, [record.colour or NO_COLOUR] * 4)], depth, source)
        if record.depth is not None:
            self.depth.fill(depth, box)
        if record.colour is not None:
            self.picture = painted(self.picture, self.width, box, record)

    def lay(self, record: PictureRecord) -> None:
        """The picture that was there, in rectangles."""
        self.picture = zlib.decompress(record.picture)
        if self.is_painted_over():
            return
        source = self.begin_picture(record)
        for event in (states.raster("none", False, False), states.plain(), states.depth(False, True, "LESS")):
            self.log.set(event, source)
        self.rectangles(grid.cells(self.picture, self.width, self.height), FARTHEST, source)

    def begin_picture(self, record: PictureRecord) -> dict[str, Any]:
        """The marker of a picture; gives its source."""
        source = {"event": record.event, "name": record.name}
        self.add(captures.marker(label(record.label)), source)
        return source

    def is_painted_over(self) -> bool:
        """Whether the next draw leaves nothing to be seen of the picture at hand."""
        later = next(
            (record for record in self.records[self.place + 1 :] if not isinstance(record, MarkerRecord)), None
        )
        return isinstance(later, DrawRecord) and paints_all(later, self.width, self.height)

    def rectangles(
        self, boxes: Sequence[tuple[Sequence[int], Sequence[Colour]]], depth: int, source: dict[str, Any]
    ) -> None:
        """Draws of two triangles for each (box, colours of its four corners)."""
        most = MOST_CORNERS // 6
        for start in range(0, len(boxes), most):
            part = boxes[start : start + most]
            vertices = [
                captures.vertex(x * PIXEL, y * PIXEL, colour, depth)
                for (left, top, right, bottom), colours in part
                for (x, y), colour in zip(((left, top), (right, top), (right, bottom), (left, bottom)), colours)
            ]
            indices = [4 * i + k for i in range(len(part)) for k in (0, 1, 3, 1, 2, 3)]
            self.add(captures.draw(vertices, "linear", indices), source)

    # Draws.

    def draw(self, record: DrawRecord) -> None:
        source = self.begin(record)
        pieces = self.drawn(record)
        self.add_triangles(
            pieces, {**source, **record.told, **({"left_out": record.left_out} if record.left_out else {})}
        )
        if record.after:
            self.picture = record.after.picture()

    def begin(self, record: DrawRecord) -> dict[str, Any]:
        """The marker and the state of a draw; gives its source."""
        source: dict[str, Any] = {"event": record.event, "name": record.name}
        state = record.state
        view = meet(state.viewport.box(), [0, 0, self.width, self.height])
        if view != [0, 0, self.width, self.height]:
            source["viewport"] = view
        if record.depth_alone:
            source["depth_alone"] = True
        else:
            self.draws += 1
            self.add(captures.marker(label(f"{record.event} {record.name}")), source)
        for event in self.state_of(record):
            self.log.set(event, record.source_of(event["kind"], source))
        return source

    @staticmethod
    def state_of(record: DrawRecord) -> list[Event]:
        """The events of a draw's state, as far as it shows."""
        state = record.state
        told = [states.plain(0) if record.depth_alone else state.blend, state.raster, state.depth]
        told += [captures.scissor(*state.scissor)] if state.rectangle() else []
        return told + (
            [state.factor] if any("BLEND_FACTOR" in word for word in state.blend["rgb"] + state.blend["alpha"]) else []
        )

    def drawn(self, record: DrawRecord) -> list[Piece]:
        """The pieces of a draw with their colours. Where some are left out as discarded, the depths are what the
        others leave."""
        before = self.depth.kept() if record.state.discards and record.state.depth["enable"] else None
        whole = self.passing(record)
        pieces = self.coloured(record, whole)
        if before and sum(len(piece.passed) for piece in whole) and pieces != whole:
            self.depth.rows = before
            for piece in pieces:
                self.test(piece, record.state)
        return pieces

    def test(self, piece: Piece, state: State) -> list[Span]:
        """The spans at which a piece passes; the depths are what it leaves."""
        if piece.shape.is_culled(state.raster):
            return []
        return self.depth.draw(piece.shape, [z for _, _, z in piece.corners], state.depth, state.rectangle())

    def add_triangles(self, pieces: Sequence[Piece], source: dict[str, Any]) -> None:
        for start in range(0, len(pieces), MOST_TRIANGLES):
            part = pieces[start : start + MOST_TRIANGLES]
            corners = [
                (*corner, tuple(colour)) for piece in part for corner, colour in zip(piece.corners, piece.colours)
            ]
            numbers = {
                corner: number for number, corner in enumerate(dict.fromkeys(corners))
            }  # neighbours share corners
            vertices = [captures.vertex(x, y, colour, depth) for x, y, depth, colour in numbers]
            made = captures.draw(vertices, "linear", [numbers[corner] for corner in corners])
            self.add(made, {**source, "primitives": [list(piece.number) for piece in part]})

    def passing(self, record: DrawRecord) -> list[Piece]:
        """The triangles that cover a pixel, each with the spans at which it passes."""
        pieces: list[Piece] = []
        unseen, state = 0, record.state
        for number, corners in record.shapes:
            piece = Piece(number, [(x, y, self.scale(z)) for x, y, z in corners])
            if not any(True for _ in piece.shape.spans(self.width, self.height)):
                unseen += 1
                continue
            piece.passed = self.test(piece, state)
            pieces.append(piece)
        if unseen:
            self.losses.add("triangles that cover no pixel's centre", "left out", unseen)
        return pieces

    def coloured(self, record: DrawRecord, pieces: list[Piece]) -> list[Piece]:
        if record.depth_alone or self.is_distinct or not record.after:
            colour = NO_COLOUR if record.depth_alone else distinct(self.draws)
            for piece in pieces:
                piece.colours = [colour] * 3
            return pieces
        return self.painter.paint(record, pieces, self.picture)


def painted(picture: bytes, width: int, box: Sequence[int], record: ClearRecord) -> bytes:
    """A picture with a rectangle of some channels cleared."""
    assert record.colour  # it is a clear of colour
    left, top, right, bottom = box
    made = bytearray(picture)
    for channel in range(4):
        if record.mask >> channel & 1:
            for y in range(top, bottom):
                start, end = 4 * (y * width + left) + channel, 4 * (y * width + right)
                made[start:end:4] = bytes([record.colour[channel]]) * (right - left)
    return bytes(made)
