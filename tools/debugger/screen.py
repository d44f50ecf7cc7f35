"""Where things are told: a terminal, with its size, its colours and what pictures it can show, or a file."""
import os
import select
import sys
import termios
import time
import tty
from collections.abc import Mapping
from typing import TextIO

from .faults import Slip

PATIENCE = 0.3  # seconds in which a terminal says what it can
CELL = (10, 20)  # pixels of a character, where the terminal doesn't tell
KINDS = ("kitty", "sixel", "half", "letters")
ATTRIBUTES = b"\x1b[c"  # asks a terminal what it can; a 4 in its answer is sixel


class Screen:
    def __init__(self, out: TextIO, environment: Mapping[str, str] = os.environ) -> None:
        self.out, self.environment = out, environment
        self.is_terminal = out.isatty()
        dumb = environment.get("TERM", "") in ("", "dumb")
        self.paints = self.is_terminal and not dumb and not environment.get("NO_COLOR")
        self.kind: str | None = None
        self.typed = ""  # what the user typed while the terminal was asked

    def write(self, line: str) -> None:
        self.out.write(f"{line}\n")
        self.out.flush()

    def clear_line(self) -> None:
        if self.is_terminal:
            self.out.write("\r\x1b[K" if self.paints else "\n")

    def size(self) -> tuple[int, int]:
        """Columns and rows as they are now."""
        try:
            columns, rows = os.get_terminal_size(self.out.fileno())
        except (OSError, ValueError):
            columns, rows = 80, 24
        return columns or 80, rows or 24

    def picture_kind(self) -> str:
        """How pictures are shown: one of KINDS. FDB_LOOK names it, or the terminal does."""
        if self.kind is None:
            named = self.environment.get("FDB_LOOK")
            if named and named not in KINDS:
                raise Slip(f"FDB_LOOK is one of {', '.join(KINDS)}, and not {named}")
            self.kind = named or self.best_kind()
        return self.kind

    def best_kind(self) -> str:
        if not self.paints:
            return "letters"
        name, inside = self.environment.get("TERM", ""), self.environment.get("TMUX") or self.environment.get("STY")
        if not inside and (
            "kitty" in name
            or self.environment.get("KITTY_WINDOW_ID")
            or self.environment.get("TERM_PROGRAM") in ("WezTerm", "ghostty")
        ):
            return "kitty"
        if self.shows_sixel():
            return "sixel"
        return "half" if (self.out.encoding or "").lower().replace("-", "") == "utf8" else "letters"

    def shows_sixel(self) -> bool:
        """Asks the terminal. What the user types meanwhile is kept for the next line."""
        try:
            terminal = sys.stdin.fileno()
            before = termios.tcgetattr(terminal)
        except (OSError, ValueError, termios.error):
            return False
        if select.select([terminal], [], [], 0)[0]:
            return False  # somebody types ahead: that isn't taken away
        tty.setcbreak(terminal)
        try:
            self.out.write(ATTRIBUTES.decode())
            self.out.flush()
            answer = read_answer(terminal)
        finally:
            termios.tcsetattr(terminal, termios.TCSADRAIN, before)
        typed, escape, told = answer.partition(b"\x1b[?")
        self.typed += typed.decode("utf-8", "ignore")
        return bool(escape) and b"4" in told.rstrip(b"c").split(b";")[1:]


def read_answer(terminal: int) -> bytes:
    """What comes from a terminal until its answer ends, or for a little while."""
    answer, end = b"", time.monotonic() + PATIENCE
    while not (b"\x1b[?" in answer and answer.endswith(b"c")) and (left := end - time.monotonic()) > 0:
        if select.select([terminal], [], [], left)[0]:
            answer += os.read(terminal, 1)
    return answer
