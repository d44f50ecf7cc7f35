"""framedbg beside a driver, event by event: which pixels differ, and why."""
import array
import collections
from collections.abc import Callable, Container, Iterator
from dataclasses import dataclass, field
from typing import Any, TypeAlias

from blaming.frame import CaptureFrame
from captures import Event

from .depths import Depths
from .exact import Exact
from .kinds import Counts, Difference, Kind
from .player import Player
from .reasons import Reasons, apart

Words: TypeAlias = "array.array[int]"  # the depths of all pixels, row by row

DRAWS = ("clear", "draw", "depth_clear")  # kinds of events that change pixels


@dataclass(frozen=True)
class Judgement:
    """What an event was drawn like."""

    number: int
    event: Event
    changed: int  # pixels whose colour it changed, as is right
    found: list[Difference]
    image: bytes  # the driver's, after the event
    counts: Counts = field(default_factory=collections.Counter)


def pixels_apart(width: int, one: bytes, other: bytes, size: int) -> Iterator[int]:
    """The numbers of the pixels whose `size` bytes differ."""
    if one == other:
        return
    stride = width * size
    for start in range(0, len(one), stride):
        row, beside = one[start : start + stride], other[start : start + stride]
        if row != beside:
            for at in range(0, stride, size):
                if row[at : at + size] != beside[at : at + size]:
                    yield (start + at) // size


def same(event: Event) -> Event:
    return event


class Judge:
    """Judges the events of a capture that draw, one after the other: `for judgement in Judge(exact, player, capture)`.

    After each, framedbg's own pixels are put into the driver's target, so that the next is judged by itself; a depth
    that is off by 1 stays, as a second pass by EQUAL is to meet its own. Not so where `is_alone` is false. `change`
    is a fault that is planted in the driver.
    """

    def __init__(
        self,
        exact: Exact,
        player: Player,
        capture: dict[str, Any],
        change: Callable[[Event], Event] = same,
        is_alone: bool = True,
    ) -> None:
        self.exact, self.player, self.frame = exact, player, CaptureFrame(capture)
        self.width, self.height = capture["width"], capture["height"]
        self.change, self.is_alone = change, is_alone
        size = self.width * self.height
        self.right = self.shown = bytes(4 * size)  # framedbg's colours, and the driver's, before the event
        self.depths = Depths(exact, self.frame)
        self.deep = self.driver_deep = self.depths.words

    def __iter__(self) -> Iterator[Judgement]:
        self.player.restart()
        for number, event in enumerate(self.frame.events, 1):
            self.player.apply(self.change(event))
            if event["kind"] in DRAWS:
                yield self._judged(number, event)
        self.player.check()

    def _judged(self, number: int, event: Event) -> Judgement:
        right, shown = self.exact.image(number), self.player.colours()
        reasons = (
            Reasons(self.exact, self.frame, number, self._there, self._is_alike) if event["kind"] == "draw" else None
        )
        found = list(self._colours(reasons, right, shown))
        deep, driver_deep = self.deep, self.driver_deep
        if self.frame.version == 2:
            deep, driver_deep = self.depths.after(number), self.player.depths()
            found += self._depths(
                reasons, deep, driver_deep, {(one.x, one.y) for one in found if one.kind not in (Kind.BY_1, Kind.BY_2)}
            )
        changed = sum(1 for _ in pixels_apart(self.width, self.right, right, 4))
        told = Judgement(number, event, changed, found, shown, collections.Counter(one.kind for one in found))
        self._go_on(right, shown, deep, driver_deep)
        return told

    def _go_on(self, right: bytes, shown: bytes, deep: Words, driver_deep: Words) -> None:
        if self.is_alone:
            is_far = deep != driver_deep and any(abs(a - b) > 1 for a, b in zip(deep, driver_deep))
            if right != shown or is_far:
                self.player.put(right, deep.tobytes() if is_far else None)
            shown, driver_deep = right, deep if is_far else driver_deep
        self.right, self.shown, self.deep, self.driver_deep = right, shown, deep, driver_deep

    def _there(self, x: int, y: int) -> tuple[int, ...]:
        at = 4 * (y * self.width + x)
        return tuple(self.shown[at : at + 4])

    def _is_alike(self, x: int, y: int) -> bool:
        at = y * self.width + x
        return self.deep[at] == self.driver_deep[at]

    # ---- Colours
    def _colours(self, reasons: Reasons | None, right: bytes, shown: bytes) -> Iterator[Difference]:
        for pixel in pixels_apart(self.width, right, shown, 4):
            y, x = divmod(pixel, self.width)
            one, other = (tuple(image[4 * pixel : 4 * pixel + 4]) for image in (right, shown))
            gap = apart(one, other)
            if gap == 1:
                yield Difference(x, y, Kind.BY_1, one, other)
            elif reasons:
                kind, is_left_open = reasons.of(x, y, other)
                yield Difference(x, y, kind, one, other, is_left_open)
            else:
                yield Difference(x, y, Kind.BY_2 if gap == 2 else Kind.BY_MORE, one, other)

    # ---- Depths
    def _depths(
        self, reasons: Reasons | None, deep: Words, driver_deep: Words, told: Container[tuple[int, int]]
    ) -> Iterator[Difference]:
        """Depths that differ and that the event wrote, on this side or on that, where no colour tells of it already."""
        for pixel in pixels_apart(self.width, deep.tobytes(), driver_deep.tobytes(), 2):
            y, x = divmod(pixel, self.width)
            one, other = deep[pixel], driver_deep[pixel]
            if (x, y) in told or one == self.deep[pixel] and other == self.driver_deep[pixel]:
                continue
            kind = Kind.DEPTH_BY_1 if abs(one - other) == 1 else Kind.DEPTH_BY_MORE
            if kind == Kind.DEPTH_BY_MORE and reasons and (other == self.driver_deep[pixel] or one == self.deep[pixel]):
                kind = self._by_test(reasons, x, y)
            yield Difference(x, y, kind, (one,), (other,))

    def _by_test(self, reasons: Reasons, x: int, y: int) -> Kind:
        """The kind of a pixel whose depth was written by one side alone."""
        if not (reasons.depth["enable"] and reasons.depth["write"]):
            return Kind.DEPTH_BY_MORE
        entries = [entry for entry in reasons.entries(x, y) if entry.depths]
        if not entries:
            return Kind.COVERAGE
        return Kind.DEPTH_TIE if any(map(reasons.is_tie_at(x, y), entries)) else Kind.DEPTH_TEST
