"""framedbg's depths, event after event."""
import array

from blaming.frame import CaptureFrame
from captures import Event
from rules.snapping import snap

from .exact import Exact
from .mapping import DEEPEST


class Depths:
    """`words` are those of all pixels, row by row. They change inside the box of a draw's triangles alone, and are
    asked for there."""

    def __init__(self, exact: Exact, frame: CaptureFrame) -> None:
        self.exact, self.frame, self.width, self.height = exact, frame, frame.width, frame.height
        self.words = array.array("H", [DEEPEST]) * (self.width * self.height)

    def after(self, number: int) -> "array.array[int]":
        """The depths after an event, of which all before have been gone through. A list that was given is never
        changed."""
        event = self.frame.events[number - 1]
        if event["kind"] == "depth_clear":
            self.words = array.array("H", [event["depth"]]) * (self.width * self.height)
        box = self._box(event) if self._is_written(number, event) else None
        if box:
            left, top, right, bottom = box
            self.words, found, wide = self.words[:], self.exact.depths(number, box), right - left
            for row, y in enumerate(range(top, bottom)):
                self.words[y * self.width + left : y * self.width + right] = found[row * wide : (row + 1) * wide]
        return self.words

    def _is_written(self, number: int, event: Event) -> bool:
        depth = self.frame.state(number, "depth")
        return bool(event["kind"] == "draw" and depth["enable"] and depth["write"])

    def _box(self, event: Event) -> tuple[int, int, int, int] | None:
        """The pixels of the target that the triangles of a draw may cover: left, top, and right and bottom behind
        the last; None if there are none."""
        edges = []
        for name, side in (("x", self.width), ("y", self.height)):
            places = [snap(vertex[name]) for vertex in event["vertices"]] or [0]
            edges.append((min(max(min(places) // 256, 0), side), min(max(max(places) // 256 + 1, 0), side)))
        (left, right), (top, bottom) = edges
        return (left, top, right, bottom) if event["vertices"] and left < right and top < bottom else None
