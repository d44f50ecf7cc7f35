"""The pictures of draws: the colour that one puts out at a pixel, and the part of it that lies on a window. A
picture is no part that a change changes."""
from collections.abc import Callable, Sequence
from typing import Any

from captures import PICTURE, Event, picture, unspelled

Window = tuple[int, int, int, int]  # left, top, right, bottom


def has_picture(event: Event) -> bool:
    return event.get("interp") == PICTURE


class Painting:
    """A draw's picture, read."""

    def __init__(self, told: dict[str, Any]) -> None:
        self.left, self.top, self.width, self.height = (told[name] for name in ("left", "top", "width", "height"))
        self.texels = unspelled(told["texels"]) or b""
        self.holes = unspelled(told["holes"]) if "holes" in told else None

    def place(self, x: int, y: int) -> int | None:
        """The number of the texel that lies on a pixel, or None beyond the box."""
        column, row = x - self.left, y - self.top
        return row * self.width + column if 0 <= column < self.width and 0 <= row < self.height else None

    def is_hole(self, number: int) -> bool:
        return self.holes is not None and self.holes[number >> 3] >> (number & 7) & 1 == 1

    def texel(self, x: int, y: int) -> tuple[int, ...] | None:
        """The colour at a pixel, or None where none is put out."""
        number = self.place(x, y)
        return None if number is None or self.is_hole(number) else tuple(self.texels[4 * number : 4 * number + 4])

    def on(self, window: Sequence[int]) -> dict[str, Any] | None:
        """The picture of the part that lies on a window, which is a target of its own; None where none does."""
        left, top = max(self.left, window[0]), max(self.top, window[1])
        right, bottom = min(self.left + self.width, window[2]), min(self.top + self.height, window[3])
        if left >= right or top >= bottom:
            return None
        starts = [start for start in (self.place(left, y) for y in range(top, bottom)) if start is not None]
        texels = b"".join(self.texels[4 * start : 4 * (start + right - left)] for start in starts)
        holes = (
            None
            if self.holes is None
            else [self.is_hole(number) for start in starts for number in range(start, start + right - left)]
        )
        return picture(left - window[0], top - window[1], right - left, bottom - top, texels, holes)


class Album:
    """The pictures of a frame's draws, each read once, and cut for a window once. A changed draw has the picture of
    the draw that it was."""

    def __init__(self) -> None:
        # by a picture's identity and a window; the picture is kept with it, so that its identity stays its own
        self.kept: dict[tuple[int, Window | None], tuple[dict[str, Any], Any]] = {}

    def painting(self, event: Event) -> Painting:
        painting: Painting = self._kept(event["picture"], None, lambda: Painting(event["picture"]))
        return painting

    def on(self, event: Event, window: Window) -> dict[str, Any] | None:
        part: dict[str, Any] | None = self._kept(event["picture"], window, lambda: self.painting(event).on(window))
        return part

    def _kept(self, told: dict[str, Any], window: Window | None, make: Callable[[], Any]) -> Any:
        key = id(told), window
        if key not in self.kept:
            self.kept[key] = told, make()
        return self.kept[key][1]
