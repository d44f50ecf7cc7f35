"""A session over one capture: lines of framedbg's own with their replies, and a call for each of them that gives
values."""
import errno
import itertools
import os
import stat
import subprocess
from collections.abc import Iterable, Iterator, Sequence
from typing import Any

from .connection import Connection
from .image import Image
from .program import find_program
from .replies import At, Bad, Entry, Event, Events, Garbled, History, Pixel, Refused, Reply, State, Stopped, read_reply

Path = str | bytes | os.PathLike[str] | os.PathLike[bytes]
Line = str | bytes
Place = tuple[int, int]  # a pixel: x, y

BUNDLE = 512  # `pixel` lines that are written before their replies are read: those fit any pipe


class Refusal(Exception):
    """framedbg refused a command, and nothing has changed. `reply` is Refused or Bad."""

    def __init__(self, reply: Refused | Bad) -> None:
        super().__init__(reply.why)
        self.reply = reply


class Client:
    """`with Client("house.json") as frame:` starts framedbg over the capture, at position 0; the end of the block
    ends it."""

    def __init__(
        self, capture: Path, program: Path | None = None, workers: int | None = None, errors: Any = subprocess.PIPE
    ) -> None:
        program = program or find_program()
        if not program:
            raise FileNotFoundError("framedbg isn't built or installed here")
        check_readable(capture)
        self.words = (program, os.fspath(capture), workers, errors)
        self.position = 0  # as the replies told so far
        self._off: set[int] = set()
        self._told_off: frozenset[int] | None = None  # what was given of `_off`, as long as it is so
        self.switches = 0  # how often events were switched
        self.is_asking = (
            False  # also after a call that was interrupted: what comes next isn't the reply to the next line
        )
        self.connection = Connection(*self.words)

    def __enter__(self) -> "Client":
        return self

    def __exit__(self, *_: object) -> None:
        self.close()

    def close(self) -> None:
        self.connection.end()

    @property
    def off(self) -> frozenset[int]:
        """The events that are off now: a set that doesn't change with them, and by which they can't be changed."""
        if self._told_off is None:
            self._told_off = frozenset(self._off)
        return self._told_off

    # ---- Lines and replies
    def ask(self, line: Line) -> Reply:
        """The Reply to a line; its `value` is what it says."""
        return self.ask_all([line])[0]

    def _begin_asking(self) -> None:
        """Refuses to ask where the run has ended, or where a reply is still to be read."""
        if self.connection.ending:
            raise self.connection.ending
        if self.is_asking:
            raise Garbled("a reply wasn't read to its end: restart() begins anew")
        self.is_asking = True

    def ask_all(self, lines: Iterable[Line]) -> list[Reply]:
        """The replies to some lines. `pixel` lines that follow one another are sent together."""
        asked = [as_bytes(line) for line in lines]
        self._begin_asking()
        replies: list[Reply] = []
        for bundle in bundles(asked):
            self.connection.write(bundle)
            replies += [self._reply(line) for line in bundle]
        self.is_asking = False
        return replies

    def restart(self, position: int = 0, off: Iterable[int] | None = None) -> int:
        """Ends the run at once and starts another at a position, with the same events off, or with others. Gives the
        position that it came to."""
        self.connection.end(at_once=True)
        off = sorted(self.off if off is None else off)
        self.connection, self.is_asking = Connection(*self.words), False
        self.position, self.switches = 0, self.switches + 1
        self._set_off(())
        try:
            self.ask_all([f"off {number}" for number in off])
        finally:
            self._set_off(off)  # also where this was interrupted: the next restart makes it good
        return self.goto(position) if position else 0

    def _reply(self, line: bytes) -> Reply:
        reply = read_reply(self.connection.line, self.connection.bytes)
        text = reply.text
        if text.startswith(("at ", "stopped ")):
            self._note(line.split(), reply.value)
        return reply

    def _note(self, words: list[bytes], value: Any) -> None:
        self.position = value.position
        if words[0] in (b"on", b"off"):
            self.switches += 1
            (self._off.discard if words[0] == b"on" else self._off.add)(int(words[1]))
            self._told_off = None

    def _set_off(self, events: Iterable[int]) -> None:
        self._off, self._told_off = set(events), None

    # ---- Values
    def reply(self, line: Line, *kinds: type) -> Reply:
        """The reply to a line. A refusal is raised, and so is a reply of another kind than is wanted."""
        reply = self.ask(line)
        if isinstance(reply.value, (Refused, Bad)):
            raise Refusal(reply.value)
        if kinds and not isinstance(reply.value, kinds):
            raise Garbled(f"no reply of framedbg to {line!s}: {reply.text[:80]!r}")
        return reply

    def value(self, line: Line, *kinds: type) -> Any:
        return self.reply(line, *kinds).value

    def goto(self, position: int) -> int:
        """Goes there, and gives the position that was reached: a smaller one where memory was wanted on the way."""
        return self.value(f"goto {position}", At, Stopped).position

    def step(self) -> int:
        return self.value("step", At, Stopped).position

    def back(self) -> int:
        return self.value("back", At).position

    def switch(self, event: int, on: bool) -> int:
        """Switches an event on or off."""
        return self.value(f"{'on' if on else 'off'} {event}", At, Stopped).position

    def pixel(self, x: int, y: int) -> Pixel:
        return self.value(f"pixel {x} {y}", Pixel)

    def pixels(self, places: Iterable[Place]) -> list[Any]:
        """The pixels at some places, each (x, y)."""
        return [reply.value for reply in self.ask_all([f"pixel {x} {y}" for x, y in places])]

    def depths(self, left: int, top: int, right: int, bottom: int) -> list[int]:
        """The depths in a box of pixels, row by row, of a capture since version 2; `right` and `bottom` lie behind
        it. They are asked for in one go: lines are written while replies are read, and of these the last word alone
        is looked at."""
        lines = [f"pixel {x} {y}".encode() for y in range(top, bottom) for x in range(left, right)]
        self._begin_asking()
        depths = []
        for line in self.connection.exchange(lines):
            words = line.split(b" ")
            if len(words) != 6:
                raise Garbled(f"no depth of framedbg: {line[:80]!r}")
            depths.append(int(words[5]))
        self.is_asking = False
        return depths

    def history(self, x: int, y: int) -> list[Entry]:
        return self.value(f"history {x} {y}", History).entries

    def histories(self, places: Iterable[Place]) -> list[list[Entry]]:
        """The histories of some pixels, each (x, y), asked for in one go. All replies are read, also where one is a
        refusal, which is raised then."""
        lines = [f"history {x} {y}".encode() for x, y in places]
        self._begin_asking()
        with self.connection.writing(lines):
            values = [read_reply(self.connection.line, self.connection.bytes).value for _ in lines]
        self.is_asking = False
        refused = next((value for value in values if not isinstance(value, History)), None)
        if refused:
            raise Refusal(refused)
        return [value.entries for value in values]

    def state(self) -> State:
        return self.value("state", State)

    def events(self) -> list[Event]:
        return self.value("events", Events).events

    def image(self) -> Image:
        return self.value("show", Image)


def check_readable(capture: Path) -> None:
    """An OSError that names the file and says why, where a capture can't be read: framedbg says that it can't."""
    if stat.S_ISDIR(os.stat(capture).st_mode):
        raise IsADirectoryError(errno.EISDIR, os.strerror(errno.EISDIR), os.fspath(capture))
    if not os.access(capture, os.R_OK):
        raise PermissionError(errno.EACCES, os.strerror(errno.EACCES), os.fspath(capture))


def as_bytes(line: Line) -> bytes:
    data = line if isinstance(line, bytes) else line.encode("utf-8", "surrogateescape")
    if b"\n" in data:
        raise ValueError("a command is one line")
    return data


def bundles(lines: Sequence[bytes]) -> Iterator[list[bytes]]:
    """The lines one by one, but `pixel` lines that follow one another together: each of those has one short reply."""
    for is_pixel, neighbours in itertools.groupby(lines, lambda line: line.split()[:1] == [b"pixel"]):
        some = list(neighbours)
        size = BUNDLE if is_pixel else 1
        yield from (some[at : at + size] for at in range(0, len(some), size))
