"""framedbg over a capture: what is right, position by position."""
import array
import json
import os
import pathlib
import tempfile
from typing import Any

from framedbg_client import Client, Entry, find_program

from .faults import Fault

MOST_LINES = 900_000  # that are asked of one run; it answers 1,000,000


def program_of(word: str | None) -> str:
    """The path of framedbg."""
    program = word or find_program()
    if not program:
        raise Fault("framedbg isn't built or installed here")
    return program


class Exact:
    """A run of framedbg over a capture that needs no file. To be closed."""

    def __init__(self, program: str, capture: dict[str, Any]) -> None:
        self.width, self.height = capture["width"], capture["height"]
        self.path, self.lines = "", 0
        try:
            self.frame = self._start(program, capture)
        except OSError as fault:
            self.close()
            raise Fault(f"{fault.filename or program}: {fault.strerror}") from None
        except BaseException:  # who ends it leaves no file
            self.close()
            raise

    def _start(self, program: str, capture: dict[str, Any]) -> Client:
        handle, self.path = tempfile.mkstemp(prefix="framedbg-driver-", suffix=".json")
        with os.fdopen(handle, "w", encoding="utf-8") as file:
            json.dump(capture, file)
        return Client(self.path, program, workers=1)

    def __enter__(self) -> "Exact":
        return self

    def __exit__(self, *_: object) -> None:
        self.close()

    def close(self) -> None:
        try:
            if hasattr(self, "frame"):
                self.frame.close()
        finally:
            if self.path:
                pathlib.Path(self.path).unlink(missing_ok=True)

    def _go(self, position: int, lines: int) -> None:
        """Goes there, by a run that answers so many more lines."""
        if self.lines + lines > MOST_LINES:
            self.frame.restart(position)
            self.lines = 0
        elif self.frame.position != position:
            self.frame.goto(position)
        self.lines += lines + 1

    def image(self, position: int) -> bytes:
        """The colours at a position, four bytes a pixel."""
        self._go(position, 1)
        return self.frame.image().samples

    def depths(self, position: int, box: tuple[int, int, int, int]) -> "array.array[int]":
        """The depths there in a box (left, top, right, bottom), row by row."""
        left, top, right, bottom = box
        found = array.array("H")
        rows = max(1, MOST_LINES // (2 * (right - left)))
        for start in range(top, bottom, rows):
            end = min(bottom, start + rows)
            self._go(position, (right - left) * (end - start))
            found.extend(self.frame.depths(left, start, right, end))
        return found

    def entries(self, event: int, x: int, y: int) -> list[Entry]:
        """What an event, or each of its triangles, did to a pixel."""
        self._go(event, 1)
        return [entry for entry in self.frame.history(x, y) if entry.event == event]
