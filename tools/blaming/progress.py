"""How far a search has come, in one line on a terminal, which is taken away again."""
import sys
import time
from typing import TextIO

BETWEEN = 0.1  # seconds


class Progress:
    def __init__(self, stream: TextIO | None = None, is_quiet: bool = False) -> None:
        self.stream = stream or sys.stderr
        self.is_shown = not is_quiet and self.stream.isatty()
        self.at, self.is_there = 0.0, False

    def say(self, text: str) -> None:
        now = time.monotonic()
        if self.is_shown and now - self.at >= BETWEEN:
            self.at, self.is_there = now, True
            self.stream.write(f"\r\x1b[K{text}")
            self.stream.flush()

    def end(self) -> None:
        if self.is_there:
            self.stream.write("\r\x1b[K")
            self.stream.flush()
            self.is_there = False
