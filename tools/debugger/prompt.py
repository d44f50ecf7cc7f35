"""The prompt: lines that are typed, edited, completed and kept."""
import os
import pathlib
import sys
from typing import TYPE_CHECKING

try:
    import readline
except ImportError:
    readline = None  # type: ignore[assignment]  # a Python without it: lines are typed without editing

from framedbg_client import Ended, Garbled

from .completion import candidates
from .faults import Failed, Leave, Slip
from .telling import printable
from .words import WORDS

if TYPE_CHECKING:
    from .session import Session

KEPT = 1000  # lines of the history


class Prompt:
    def __init__(self, session: "Session") -> None:
        self.session, self.before = session, ""
        self.offered: list[str] = []
        self.kept = 0  # lines of the history that were there before

    def run(self) -> None:
        """Takes lines until the user has had enough."""
        history = history_file()
        self.begin(history)
        try:
            while True:
                self.take()
        except EOFError:
            self.session.screen.write("")
        except Leave:
            pass
        finally:
            self.end(history)

    def take(self) -> None:
        """One line; whatever comes of it, the next may be typed."""
        try:
            line = self.line()
            if not line.strip() and repeats(self.before):
                line = self.before
            self.before = line
            self.session.execute(line)
        except KeyboardInterrupt:
            self.before = ""
            self.session.screen.write("")
        except (Slip, Failed, Garbled) as fault:
            self.session.screen.write(f"  {printable(str(fault))}")
        except Ended as ended:
            self.session.screen.write(f"  {ended}; run starts another")
        except MemoryError:
            self.session.screen.write("  fdb: memory")

    def line(self) -> str:
        frame, screen = self.session.frame, self.session.screen
        text = f"({frame.position}/{len(frame)}) "
        if screen.paints and readline:
            text = f"\x01\x1b[1m\x02{text}\x01\x1b[0m\x02"
        if readline and screen.typed:
            typed, screen.typed = screen.typed, ""
            readline.set_startup_hook(lambda: readline.insert_text(typed))
        try:
            return input(text)
        finally:
            if readline:
                readline.set_startup_hook(None)

    def begin(self, history: pathlib.Path) -> None:
        if not readline:
            return
        readline.set_completer(self.complete)
        readline.set_completer_delims(" ")
        libedit = "libedit" in (readline.__doc__ or "")
        readline.parse_and_bind("bind ^I rl_complete" if libedit else "tab: complete")
        if not libedit:
            readline.parse_and_bind("set enable-bracketed-paste off")
        readline.set_history_length(KEPT)
        try:
            readline.read_history_file(history)
        except (OSError, ValueError):
            pass  # there is none yet, or none that can be read
        self.kept = readline.get_current_history_length()

    def end(self, history: pathlib.Path) -> None:
        if not readline:
            return
        try:
            history.parent.mkdir(parents=True, exist_ok=True)
            if not history.exists():
                history.touch(mode=0o600)
            if hasattr(readline, "append_history_file"):  # so that two at once lose nothing of each other's
                readline.append_history_file(max(0, readline.get_current_history_length() - self.kept), history)
            else:
                readline.write_history_file(history)
        except OSError as fault:
            print(f"fdb: the history isn't kept: {fault}", file=sys.stderr)

    def complete(self, begun: str, index: int) -> str | None:
        if index == 0:
            self.offered = candidates(self.session, readline.get_line_buffer()[: readline.get_begidx()], begun)
        return self.offered[index] if index < len(self.offered) else None


def repeats(line: str) -> bool:
    """Whether an empty line means that one again."""
    words = line.split()
    word = WORDS.named.get(words[0]) if words else None
    return line.strip() in ("step", "back") or bool(word and word.repeats)


def history_file() -> pathlib.Path:
    """FDB_HISTORY names it; else it is where programs keep such things."""
    named = os.environ.get("FDB_HISTORY")
    state = os.environ.get("XDG_STATE_HOME") or os.path.expanduser("~/.local/state")
    return pathlib.Path(named) if named else pathlib.Path(state) / "fdb_history"
