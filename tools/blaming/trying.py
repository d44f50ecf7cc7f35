"""Changed captures, drawn by framedbg in several processes at once, and what then differs."""
import concurrent.futures
import hashlib
import os
import pathlib
import subprocess
import tempfile
import threading
import time
from collections.abc import Iterable
from dataclasses import dataclass

from captures import Event
from framedbg_client import Fault as NoImage
from framedbg_client import read_pam
from writing.counting import counted

from .comparing import Comparison, both, pixels_of
from .frame import CaptureFrame
from .painting import Window
from .progress import Progress

Measured = tuple[int, tuple[int, ...], bool]  # how many differ, how many of each cluster, whether all were looked at

CHUNK = 4  # changes a process that are given out at once
LONGEST = 120  # seconds that framedbg may take for one picture


@dataclass(frozen=True)
class Change:
    """One change of a frame: of which event, of which kind, what it says, and the events after it. `also` are
    further events that it touches."""

    event: int
    kind: str
    says: str
    events: list[Event]
    also: tuple[int, ...] = ()


@dataclass(frozen=True)
class Tried:
    """A change, how many pixels differ after it, and how many of each cluster; on the window alone where `is_whole`
    is false."""

    change: Change
    left: int
    of_clusters: tuple[int, ...]
    is_whole: bool


class Trials:
    """Draws lists of events over a frame's window, or over the whole target, and counts what differs."""

    def __init__(
        self, program: str, processes: int, deadline: float, progress: Progress | None, most: int | None = None
    ) -> None:
        """`most` bounds the number of changes, where the time mustn't: a measurement on a busy machine. `count` is
        of those that were looked at in whatever way; few of them are drawn."""
        self.program, self.deadline, self.progress, self.most = program, deadline, progress, most
        self.pool = concurrent.futures.ThreadPoolExecutor(processes)
        self.chunk = CHUNK * processes
        self.room = tempfile.TemporaryDirectory(prefix="framedbg-blame-")
        self.count = 0
        self.best: int | None = None
        self.known: dict[int, tuple[View, dict[bytes, Measured | None]]] = {}
        self.runs: set[subprocess.Popen[bytes]] = set()
        self.broken_off = threading.Event()

    def __enter__(self) -> "Trials":
        return self

    def __exit__(self, fault: object, *_: object) -> None:
        """Where it was broken off the pictures that are drawn still are too, as a program may be silent for long."""
        if fault:
            self.broken_off.set()
        for run in list(self.runs) if fault else ():
            run.kill()
        self.pool.shutdown(wait=True, cancel_futures=True)
        self.room.cleanup()

    def is_over(self) -> bool:
        return time.monotonic() > self.deadline or self.most is not None and self.count >= self.most

    def drawn(self, text: str, words: Iterable[str] = ()) -> bytes | None:
        """The samples of a capture's picture, or None where framedbg gives none."""
        handle, name = tempfile.mkstemp(dir=self.room.name, suffix=".json")
        try:
            with os.fdopen(handle, "w", encoding="utf-8") as file:
                file.write(text)
            return self.answer([self.program, "image", "--workers", "1", *words, name])
        finally:
            pathlib.Path(name).unlink()

    def answer(self, words: list[str]) -> bytes | None:
        """What a run of framedbg gives. None begins in the main thread: a Ctrl-C could come there when the run has
        begun and isn't among those yet that are ended."""
        if threading.current_thread() is threading.main_thread():
            return self.pool.submit(self.run, words).result()
        return self.run(words)

    def run(self, words: list[str]) -> bytes | None:
        with subprocess.Popen(
            words, stdin=subprocess.DEVNULL, stdout=subprocess.PIPE, stderr=subprocess.DEVNULL
        ) as run:
            self.runs.add(run)
            if self.broken_off.is_set():
                run.kill()
            try:
                out, _ = run.communicate(timeout=LONGEST)
                return read_pam(out).samples if run.returncode == 0 else None
            except (NoImage, subprocess.TimeoutExpired):
                return None
            finally:
                run.kill()
                self.runs.discard(run)

    def mask_of(self, events: Iterable[Event], view: "View") -> list[tuple[int, int]]:
        """Which pixels of a view differ after some events, as numbers of the whole target's; none where they can't
        be drawn."""
        samples = self.drawn(view.frame.text(events, view.window))
        left, top, right, _ = view.window or (0, 0, view.frame.width, 0)
        found = pixels_of(view.comparison.differing(samples)) if samples else []
        return [(left + at % (right - left), top + at // (right - left)) for at in found]

    def all_of(self, changes: Iterable[Change], view: "View", is_late: bool = False) -> list[Tried]:
        """Tries changes, several at once, up to the end of the time, or also when it is over; gives Tried."""
        left, done = iter(changes), []
        while is_late or not self.is_over():
            some = [change for _, change in zip(range(self.chunk), left)]
            if not some:
                break
            found = [tried for tried in self.pool.map(lambda change: self.one(change, view), some) if tried]
            done += found
            for tried in found:
                self.best = tried.left if self.best is None else min(self.best, tried.left)
            self.tell()
        return done

    def tell(self) -> None:
        if self.best is not None and self.progress:
            self.progress.say(
                f"{counted(self.count, 'change')} tried, after the best of them {counted(self.best)} "
                f"{'differs' if self.best == 1 else 'differ'}"
            )

    def one(self, change: Change, view: "View") -> Tried | None:
        """A change tried on a view; None where it can't be drawn."""
        text = view.frame.text(change.events, view.window)
        known = self.known.setdefault(id(view), (view, {}))[1]
        key = hashlib.blake2b(text.encode(), digest_size=16).digest()
        if key not in known:
            samples = self.drawn(text)
            known[key] = view.measured(samples) if samples else None
        measured = known[key]
        return Tried(change, *measured) if measured else None


@dataclass(frozen=True)
class View:
    """What of the target is looked at: a window of it with what is wanted there, and the clusters as masks of it.
    Without a window it is the whole."""

    frame: CaptureFrame
    comparison: Comparison
    window: Window | None = None
    masks: tuple[bytes, ...] = ()  # of the largest clusters, and of all that differs last

    @property
    def wrong(self) -> int:
        return self.masks[-1].count(1)

    def measured(self, samples: bytes) -> Measured:
        mask = self.comparison.differing(samples)
        left = mask.count(1)
        return left, tuple(both(mask, cluster) if left else 0 for cluster in self.masks), self.window is None
