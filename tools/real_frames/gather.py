"""Goes through a frame once, and keeps what is wanted of each action on one target."""
import zlib
from collections.abc import Callable, Iterable
from dataclasses import dataclass

from . import unblended
from .asked import MOST_OF_A_DRAW, pixels_to_ask
from .fault import Fault
from .frame import Frame, RenderDoc
from .losses import Losses
from .names import BEFORE
from .placing import placed
from .records import ClearRecord, Colour, DrawRecord, MarkerRecord, PictureRecord, Record
from .reel import Reel
from .viewport import Rectangle

MULTISAMPLED, IN_SRGB, OF_FLOATS = (
    "samples of each pixel beyond the first",
    "target in sRGB",
    "target of floats: what lies beyond 0 to 1 is cut off, and the rest rounded to bytes",
)
READS_TEXTURES = "draws that read textures"


@dataclass(frozen=True)
class Wanted:
    """Which part of a frame is carried over, and how dearly its colours are got."""

    first: int = 0
    last: int = 1 << 62
    with_colours: bool = True
    with_alone: bool = True  # blended draws are drawn alone or unblended too, or asked about, to have their alpha
    histories: int = 400  # pixels that may be asked about in all, or one for each draw


class Gatherer:
    """The frame is a replay.ReplayedFrame, or what stands in for one."""

    records: list[Record]

    def __init__(
        self,
        frame: Frame,
        target: int,
        losses: Losses,
        wanted: Wanted = Wanted(),
        say: Callable[[str], None] = lambda text: None,
    ) -> None:
        self.frame, self.target, self.losses, self.wanted, self.say = frame, target, losses, wanted, say
        self.size = self.width, self.height = frame.size(target)
        self.records, self.reel, self.own_reel = [], Reel(), Reel()
        self.before = 0  # the event before the one at hand
        self.touched = False  # something has been laid on the target
        self.carried = False  # a draw or a clear is there for its own sake
        self.done = 0
        self.all = sum(1 for action in frame.actions if frame.kind(action) == "draw" and self.is_here(action))

    def gather(self) -> list[Record]:
        """The records of the part that is wanted, behind those that bring the depths of what comes before it, where
        it has a depth test."""
        for note, count in self.frame.notes(self.target).items():
            self.losses.add(note, count=count)
        early = [action for action in self.frame.actions if self.is_early(action)]
        self.before = early[-1].eventId if early else 0
        self.walk(action for action in self.frame.actions if self.wanted.first <= action.eventId <= self.wanted.last)
        if not self.carried:
            raise Fault(f"nothing is drawn on target {self.target} between the events that are wanted")
        records, self.records = self.records, []
        if any(isinstance(record, DrawRecord) and record.state.depth["enable"] for record in records):
            self.walk(early)
        return self.records + records

    def walk(self, actions: Iterable[RenderDoc]) -> None:
        readers = {
            "draw": self.draw,
            "clear": self.clear,
            "marker": self.mark,
            "dispatch": self.dispatch,
            "copy": self.copy,
        }
        for action in actions:
            reader = readers.get(self.frame.kind(action))
            if reader:
                try:
                    reader(action)
                except Fault as fault:
                    raise Fault(f"event {action.eventId}, {self.frame.name(action)}: {fault}") from None
            self.before = action.eventId

    def is_here(self, action: RenderDoc) -> bool:
        return self.target in self.frame.targets(action)

    def is_early(self, action: RenderDoc) -> bool:
        return action.eventId < self.wanted.first

    def mark(self, action: RenderDoc) -> None:
        if not self.is_early(action):
            self.records.append(MarkerRecord(action.eventId, self.frame.name(action), self.frame.until(action)))

    def dispatch(self, action: RenderDoc) -> None:
        if not self.is_early(action):
            self.losses.add("compute dispatches")

    def copy(self, action: RenderDoc) -> None:
        if self.is_early(action):
            return
        onto = self.frame.copied_onto(action) == self.target
        self.losses.add("copies and resolves onto the target" if onto else "copies and resolves onto other textures")
        if onto:
            name = self.frame.name(action)
            self.lay(action.eventId, name, f"{action.eventId} {name}")

    def lay(self, event: int, name: str, label: str) -> None:
        """What is on the target after an event, as a picture."""
        self.frame.go(event)
        if self.wanted.with_colours:
            self.records.append(PictureRecord(event, name, zlib.compress(self.frame.picture(self.target), 1), label))
        self.touched = True

    def lay_what_was_there(self, action: RenderDoc) -> None:
        if not self.touched:
            self.lay(self.before, BEFORE, f"the picture before {action.eventId}")

    # Clears.

    def clear(self, action: RenderDoc) -> None:
        if not self.is_here(action):
            if not self.is_early(action):
                self.losses.add("clears of other targets")
            return
        self.frame.go(action.eventId)
        for record in self.cleared(action):
            self.keep_clear(action, record)

    def keep_clear(self, action: RenderDoc, record: ClearRecord) -> None:
        is_whole = record.rectangle is None and record.mask == 15
        if self.is_early(action):
            record.colour = None
            if record.depth is None:
                return
            if is_whole:
                self.records = []
        elif record.colour is not None:
            if is_whole:
                self.touched = True
            else:
                self.lay_what_was_there(action)
                self.frame.go(action.eventId)
        self.carried = self.carried or not self.is_early(action)
        self.records.append(record)

    def cleared(self, action: RenderDoc) -> list[ClearRecord]:
        """What a clear does, for each rectangle that holds a pixel."""
        colour, depth, boxes, mask = self.frame.clears(action, self.width, self.height)
        some = [box for box in boxes if not box or (box[0] < box[2] and box[1] < box[3])]
        records = [self.cleared_in(action, box, (colour, depth, mask)) for box in some]
        return [record for record in records if record.colour is not None or record.depth is not None]

    def cleared_in(self, action: RenderDoc, box: Rectangle | None, what: tuple[bool, bool, int]) -> ClearRecord:
        colour, depth, mask = what
        x, y = box[:2] if box else (0, 0)
        record = ClearRecord(action.eventId, self.frame.name(action), rectangle=box, mask=mask)
        if colour and mask:
            at = (y * self.width + x) * 4
            record.colour = tuple(self.frame.picture(self.target)[at : at + 4])
        if depth:
            record.depth = self.frame.depth_value(action, x, y)
        return record

    # Draws.

    def draw(self, action: RenderDoc) -> None:
        early = self.is_early(action)
        if not self.is_here(action):
            if not early:
                self.losses.add("draws on other targets")
            return
        self.done += 1
        if not early:
            self.lay_what_was_there(action)
        self.frame.go(action.eventId)
        name = self.frame.name(action)
        self.say(f"draw {self.done} of {self.all}: {action.eventId} {name}")
        losses = Losses() if early else self.losses
        state = self.frame.state(action, self.width, self.height, losses)
        if early and not (state.depth["enable"] and state.depth["write"]):
            return
        primitives, trouble = self.frame.primitives(action)
        if trouble:
            losses.add("draws without triangles: " + trouble)
        record = DrawRecord(action.eventId, name, state, placed(primitives, state, losses), depth_alone=early)
        if not early:
            self.carried = True
            record.told, record.set_by = self.frame.told(action, state.viewport, self.size)
            self.count(action)
            self.take_pictures(record)
        self.records.append(record)

    def count(self, action: RenderDoc) -> None:
        if len(self.frame.targets(action)) > 1:
            self.losses.add("further colour targets of draws", count=len(self.frame.targets(action)) - 1)
        if self.frame.reads_textures(action):
            self.losses.add(READS_TEXTURES)

    def take_pictures(self, record: DrawRecord) -> None:
        blend = record.state.blend
        if self.wanted.with_colours and blend["mask"]:
            record.after = self.reel.put(self.frame.picture(self.target))
            if blend["enable"] and self.wanted.with_alone:
                self.take_source(record)

    def take_source(self, record: DrawRecord) -> None:
        """What tells of a blended draw's own colours and alpha: the draw alone, its histories, or the draw
        unblended."""
        if self.frame.can_draw_alone():
            record.alone = zlib.compress(self.frame.alone(self.target), 1)
        elif self.frame.can_ask():
            record.known = self.asked(record)
        elif unblended.tells(record.state.blend):
            own = self.frame.unblended(self.target)
            record.own = self.own_reel.put(own) if own else None

    def asked(self, record: DrawRecord) -> dict[tuple[int, int], dict[int, Colour]]:
        """What the draw's shader gave at some pixels."""
        after = self.frame.picture(self.target)
        self.frame.go(self.before)
        before = self.frame.picture(self.target)
        self.frame.go(record.event)
        most = max(min(self.wanted.histories // max(self.all, 1), MOST_OF_A_DRAW), 1)
        known = {
            pixel: self.frame.given_at(self.target, *pixel)
            for pixel in pixels_to_ask(record.shapes, self.size, (before, after), most)
        }
        return {pixel: given for pixel, given in known.items() if given}
