"""What framedbg's replies say: the texts of docs/FORMATS.md, read into values."""
import io
from collections.abc import Callable, Iterator, Sequence
from dataclasses import dataclass
from functools import cached_property
from typing import Any, NamedTuple, TypeVar

from .image import read_pam

Read = TypeVar("Read")


class Garbled(Exception):
    """A reply that framedbg doesn't give."""


class Colour(NamedTuple):
    red: int
    green: int
    blue: int
    alpha: int

    def __str__(self) -> str:
        return " ".join(map(str, self))


class Depths(NamedTuple):
    source: int
    before: int
    after: int


@dataclass(frozen=True)
class At:
    position: int


@dataclass(frozen=True)
class Stopped:
    """Memory was wanted on the way forward; the session stands at the position."""

    position: int


@dataclass(frozen=True)
class Refused:
    number: int
    why: str


@dataclass(frozen=True)
class Bad:
    """The line is no command."""

    number: int
    why: str


@dataclass(frozen=True)
class Bye:
    pass


@dataclass(frozen=True)
class Pixel:
    colour: Colour
    depth: int | None = None  # since version 2 of captures


@dataclass(frozen=True)
class Entry:
    """What an event, or one of its triangles, did to a pixel."""

    event: int
    triangle: int | None  # None for a clear of either kind
    verdict: str
    source: Colour
    before: Colour
    after: Colour
    depths: Depths | None = None  # since version 2 of captures

    @property
    def is_drawn(self) -> bool:
        return self.verdict == "drawn"


@dataclass(frozen=True)
class History:
    entries: list[Entry]


@dataclass(frozen=True)
class Event:
    number: int
    on: bool
    kind: str
    words: tuple[str, ...]  # what stands behind the kind

    @property
    def name(self) -> str:
        return " ".join(self.words)

    @property
    def colour(self) -> Colour | None:
        return colour(self.words) if self.kind in ("clear", "factor") else None


@dataclass(frozen=True)
class Events:
    position: int
    events: list[Event]


@dataclass(frozen=True)
class DepthState:
    enable: bool
    write: bool
    func: str


@dataclass(frozen=True)
class State:
    cull: str
    front_ccw: bool
    scissor: bool
    rect: tuple[int, ...]
    blend: bool
    rgb: tuple[str, ...]
    alpha: tuple[str, ...]
    mask: int
    factor: Colour
    depth: DepthState | None = None  # since version 2 of captures


@dataclass(frozen=True)
class Reply:
    """A reply as it came: its first line, the lines of a list, the bytes of an image."""

    text: str
    lines: tuple[str, ...] = ()
    data: bytes | None = None

    @cached_property
    def value(self) -> Any:
        """What the reply says, as one of the classes above, or as an Image."""
        word, _, rest = self.text.partition(" ")
        try:
            return READERS[word](self, rest)
        except (KeyError, ValueError, IndexError, TypeError):
            raise Garbled(f"no reply of framedbg: {self.text[:80]!r}") from None


def extent(text: str) -> tuple[int, int]:
    """How much follows a reply's first line: (lines, bytes)."""
    word, _, rest = text.partition(" ")
    count = rest.split(" ")[0]
    if word not in ("history", "events", "pam"):
        return 0, 0
    if not (count.isascii() and count.isdigit()):
        raise Garbled(f"no reply of framedbg: {text[:80]!r}")
    return (0, int(count)) if word == "pam" else (int(count), 0)


def read_reply(line: Callable[[], str], some: Callable[[int], bytes]) -> Reply:
    """The next reply, by two calls: one gives a line, and one so many bytes."""
    text = line()
    lines, size = extent(text)
    return Reply(text, tuple(line() for _ in range(lines)), some(size) if text.startswith("pam ") else None)


def replies_of(data: bytes) -> Iterator[Reply]:
    """The replies of a run, from all that framedbg wrote."""
    stream = io.BytesIO(data)
    while stream.tell() < len(data):
        yield read_reply(lambda: stream.readline().removesuffix(b"\n").decode("utf-8", "replace"), stream.read)


def lines_of(data: bytes) -> list[str]:
    """The lines of what framedbg wrote, images left out."""
    return [line for reply in replies_of(data) for line in (reply.text, *reply.lines)]


def images_of(data: bytes) -> list[bytes]:
    """The images among them, each as the bytes of a PAM file."""
    return [reply.data for reply in replies_of(data) if reply.data is not None]


def colour(words: Sequence[str]) -> Colour:
    return Colour(*map(int, words))


def event_of(line: str) -> Event:
    """11 on draw 2 flat"""
    number, on, kind, *words = line.split(" ")
    return Event(int(number), on == "on", kind, tuple(words))


def entry_of(line: str) -> Entry:
    """11 0 drawn 190 60 50 128 60 130 60 255 125 95 55 128, with three depths more where the capture has depth"""
    words = line.split(" ")
    depths = Depths(*map(int, words[15:18])) if len(words) > 15 else None
    triangle = None if words[1] == "-" else int(words[1])
    return Entry(
        int(words[0]), triangle, words[2], colour(words[3:7]), colour(words[7:11]), colour(words[11:15]), depths
    )


def pixel_of(rest: str) -> Pixel:
    words = rest.split(" ")
    return Pixel(colour(words[:4]), int(words[4]) if len(words) > 4 else None)


def state_of(rest: str) -> State:
    """cull back ccw 0 scissor 0 rect 0 0 0 0 blend 1 SRC DST OP SRC DST OP mask 15 factor 255 255 255 255, perhaps
    with depth 1 1 LESS"""
    w = rest.split(" ")
    names = (w[0], w[2], w[4], w[6], w[11], w[19], w[21])
    if names != ("cull", "ccw", "scissor", "rect", "blend", "mask", "factor"):
        raise ValueError
    depth = DepthState(w[27] == "1", w[28] == "1", w[29]) if len(w) > 26 else None
    return State(
        w[1],
        w[3] == "1",
        w[5] == "1",
        tuple(map(int, w[7:11])),
        w[12] == "1",
        tuple(w[13:16]),
        tuple(w[16:19]),
        int(w[20]),
        colour(w[22:26]),
        depth,
    )


def listed(reply: Reply, count: str, read: Callable[[str], Read]) -> list[Read]:
    if int(count) != len(reply.lines):
        raise ValueError
    return [read(line) for line in reply.lines]


def numbered(kind: type[Refused] | type[Bad]) -> Callable[[Reply, str], Any]:
    def read(_reply: Reply, rest: str) -> Refused | Bad:
        number, _, why = rest.partition(" ")
        return kind(int(number), why)

    return read


READERS: dict[str, Callable[[Reply, str], Any]] = {
    "at": lambda _, rest: At(int(rest)),
    "stopped": lambda _, rest: Stopped(int(rest)),
    "refused": numbered(Refused),
    "bad": numbered(Bad),
    "bye": lambda _, rest: Bye(),
    "pixel": lambda _, rest: pixel_of(rest),
    "history": lambda reply, rest: History(listed(reply, rest, entry_of)),
    "events": lambda reply, rest: Events(int(rest.split(" ")[2]), listed(reply, rest.split(" ")[0], event_of)),
    "state": lambda _, rest: state_of(rest),
    "pam": lambda reply, _: read_pam(reply.data or b""),
}
