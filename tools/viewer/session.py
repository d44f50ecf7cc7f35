"""One run of framedbg, driven by its own commands over pipes: a line in, a reply out."""
import array
import itertools
import sys
import threading
from collections.abc import Callable, Iterable, Sequence
from typing import Any, TypeVar

from framedbg_client import Ended
from framedbg_client.client import bundles
from framedbg_client.connection import MOST_LINES, Connection
from framedbg_client.replies import extent

from .image import Pixels, read_image, widen
from .nearby import Boxes, Nearby, colours_of

MAX_LISTED = 100_000  # lines of a list that are kept; the rest is read and counted
BEGUN_BEFORE = 300_000  # of these are left when the next run is begun beside it
DEPTH_WORDS = 6  # of a reply to `pixel` with a depth, which is the last
BEGUN_BYTES = 4096  # of lines that it is given at once: they fit any pipe

Reply = dict[str, Any]  # as the page is told
Window = Sequence[int] | None
Answer = tuple[list[Reply], list[Pixels], tuple[int, int]]  # replies, images, count of switches before and after
Begun = tuple[Connection, set[int], int]
Given = TypeVar("Given")


def depths_of(words: Iterable[bytes]) -> bytes:
    depths = array.array("H", map(int, words))
    if sys.byteorder == "big":
        depths.byteswap()
    return depths.tobytes()


class Stopped(Ended):
    """The run was stopped in the midst of a call, and another stands in its place, with the events off that were off
    before."""

    def __str__(self) -> str:
        return "stopped"


class Session:
    connection: Connection
    run: Any  # its pipes are there until it has ended
    begun: Begun | None
    off: set[int]
    flipped: list[list[bytes]]

    def __init__(self, program: str, capture: str, workers: int, boxes: Boxes | None = None) -> None:
        """`boxes` gives the boxes of events, where the capture's own are known (nearby.py)."""
        self.words = program, capture, workers
        self.nearby = Nearby(boxes)
        self.lock = threading.Lock()
        self.connection = self.run = None  # type: ignore[assignment]  # to the run, and its process
        # the next run, on its way to where this one stood: a connection, the events that are off there, and how many
        # replies are to come
        self.begun = None
        self.switches = 0  # how often events were switched, or all of them on by a new start
        self.off, self.flipped = set(), []  # the events that are off, and the switches of the call that is answered
        self.stopping = False
        self.lines = self.position = 0  # lines that the run has been given, and where it stands
        self.start()

    def start(self) -> None:
        """Starts the run, or starts it again, at position 0 with all events on."""
        with self.lock:
            self.off.clear()
            self._drop_begun()
            self._start()
            self.switches += 1

    def stop(self) -> None:
        """Ends the run in the midst of what it does, without waiting for it, and starts another with the same events
        off."""
        run, self.stopping = self.run, True
        run.kill()
        with self.lock:
            if self.stopping:
                self._start_again()

    def answer(self, lines: list[bytes], window: Window = None) -> Answer:
        """The replies to some commands, the images among them, and the count of switches before and after. No other
        caller's commands come between. Of an image the part in the window is kept."""
        images: list[Pixels] = []
        with self.lock:
            before = self.switches
            self._keep_room(len(lines) + lines.count(b"show") * self.nearby.most)
            replies = self._unless_stopped(lambda: self._answer(lines, images, window))
            return replies, images, (before, self.switches)

    def depths(self, position: int, part: Sequence[int]) -> bytes | None:
        """The depths of some pixels at a position, two bytes each, the lower one first, or None where it hasn't all
        of them. All lines go out while replies come in."""
        left, top, every, columns, rows = part
        lines = [
            b"pixel %d %d" % (left + every * column, top + every * row)
            for row in range(rows)
            for column in range(columns)
        ]
        with self.lock:
            self._keep_room(1 + len(lines))
            return self._unless_stopped(lambda: self._depths(position, lines))

    def follow(self, off: set[int], count: int) -> None:
        """Has the same events off as another run, and lines left for so many more. The position may be any then."""
        with self.lock:
            self._keep_room(count + len(off ^ self.off) + 1)
            other = sorted(off ^ self.off)
            lines = [b"%s %d" % (b"off" if number in off else b"on", number) for number in other]
            self._unless_stopped(
                lambda: self._answer([b"goto %d" % (other[0] - 1), *lines] if len(other) > 1 else lines, [], None)
            )

    def close(self) -> None:
        """Ends the run for good, whatever it is at."""
        self.run.kill()
        with self.lock:
            self._drop_begun()
            self._close()

    def _start(self, connection: Connection | None = None) -> None:
        self._close()
        self.nearby.forget()
        self.connection, self.lines, self.position = connection or Connection(*self.words), 0, 0
        self.run = self.connection.process
        widen(self.run.stdout)

    def _unless_stopped(self, job: Callable[[], Given]) -> Given:
        try:
            return job()
        except Ended as ended:
            if not self.stopping:
                raise
            self._start_again()
            raise Stopped(ended.said, ended.status) from None

    def _start_again(self, begun: Begun | None = None) -> None:
        """Another run with the same events off: a new one, or one that was begun."""
        connection, off, count = begun or (None, set(), 0)
        self._start(connection)
        self.stopping, switches = False, self.switches
        for _ in range(count):
            self._reply(b"goto", [], None)
        self.lines, other = count, sorted(off ^ self.off)
        lines = [b"%s %d" % (b"off" if number in self.off else b"on", number) for number in other]
        self._answer([b"goto %d" % (other[0] - 1), *lines] if len(other) > 1 else lines, [], None)
        self.switches = switches

    def _keep_room(self, count: int) -> None:
        """Another run with the same events off, where this one has no lines left for so many more. The position may
        be any then. It is begun before that, and draws what lies before where this one stands beside it."""
        if self.lines + count > MOST_LINES:
            begun, self.begun = self.begun, None
            self._unless_stopped(lambda: self._start_again(begun))
        elif self.begun is None and self.lines + count > MOST_LINES - BEGUN_BEFORE:
            lines = [*(b"off %d" % number for number in sorted(self.off)), b"goto %d" % self.position]
            if len(b" ".join(lines)) < BEGUN_BYTES:
                self.begun = Connection(*self.words), set(self.off), len(lines)
                self.begun[0].write(lines)

    def _drop_begun(self) -> None:
        if self.begun:
            self.begun[0].end(at_once=True)
        self.begun = None

    def _answer(self, lines: Sequence[bytes], images: list[Pixels], window: Window) -> list[Reply]:
        """The replies. What the lines switched counts when all of them are answered."""
        replies: list[Reply] = []
        self.flipped = []
        for bundle in bundles(lines):
            near = self._near(images, window) if bundle == [b"show"] and not self.flipped else None
            replies += [near] if near else self._given(bundle, images, window)
        for word, number in self.flipped:
            (self.off.add if word == b"off" else self.off.discard)(int(number))
        return replies

    def _given(self, bundle: Sequence[bytes], images: list[Pixels], window: Window) -> list[Reply]:
        self.lines += len(bundle)
        self.connection.write(bundle)
        return [self._reply(line, images, window) for line in bundle]

    def _depths(self, position: int, lines: Sequence[bytes]) -> bytes | None:
        if self._answer([b"goto %d" % position], [], None)[0]["text"] != f"at {position}":
            return None
        self.lines += len(lines)
        with self.connection.writing(lines):
            told = list(itertools.islice(self.run.stdout, len(lines)))
        if len(told) < len(lines) or not told[-1].endswith(b"\n"):
            raise self.connection.end()
        words = b"".join(told).split()
        return depths_of(words[DEPTH_WORDS - 1 :: DEPTH_WORDS]) if len(words) == DEPTH_WORDS * len(lines) else None

    def _near(self, images: list[Pixels], window: Window) -> Reply | None:
        """The reply to `show` where the picture is near the last one, else None. `since` says of what it was made,
        and which rows may be others."""
        runs, before = self.nearby.places(self.position, self.off, window), self.nearby.pixels
        if runs is None:
            return None
        pixels, rows = self.nearby.move(self.position, runs, self._colours(self.nearby.lines(runs)))
        images.append(pixels)
        return {"text": self.nearby.text, "image": {**self.nearby.part, "bytes": len(pixels), "since": (before, rows)}}

    def _colours(self, bundles: Iterable[tuple[bytes, int]]) -> bytearray:
        """What is told of pixels, four bytes each. While that of some is read, the run has the lines of the next
        already, so neither waits for the other."""
        colours = bytearray()
        asked: list[int] = []
        for text, count in bundles:
            self.connection.write([text])
            self.lines += count
            asked.append(count)
            if len(asked) == 2:
                colours += self._pixels(asked.pop(0))
        return colours + self._pixels(*asked) if asked else colours

    def _pixels(self, count: int) -> bytearray:
        """The replies to so many `pixel` lines as they come: of thousands of them anything else that is done with
        each takes longer than the program."""
        told = list(itertools.islice(self.run.stdout, count))
        if len(told) < count or not told[-1].endswith(b"\n"):
            raise self.connection.end()
        return colours_of(told)

    def _reply(self, line: bytes, images: list[Pixels], window: Window) -> Reply:
        first = self.connection.line()
        reply: Reply = {"text": first}
        lines, size = extent(first)
        word = first.split(" ")[0]
        if word == "pam":
            image = read_image(self.run.stdout, size, window)
            if image is None:
                raise self.connection.end()
            reply["image"], pixels = image
            self.nearby.keep(
                self.position, first, {name: value for name, value in image[0].items() if name != "bytes"}, pixels
            )
            images.append(pixels)
        elif word in ("history", "events"):
            reply["lines"] = [self.connection.line() for _ in range(min(lines, MAX_LISTED))]
            reply["left_out"] = lines - len(reply["lines"])
            for _ in range(reply["left_out"]):
                self.connection.line()
        elif word in ("at", "stopped"):
            self.position = int(first.split(" ")[1])
            if line.split()[:1] in ([b"on"], [b"off"]):
                self.switches += 1
                self.flipped.append(line.split())
                self.nearby.forget()
        return reply

    def _close(self) -> None:
        if self.connection:
            self.connection.end()
