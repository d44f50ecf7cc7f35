"""Another capture beside the one that is shown: which events differ, where the pictures first do, and its run."""
import os
import pathlib
import tempfile
from collections.abc import Iterable, Sequence
from typing import Any

from debugger.contents import Contents
from debugger.differing import differences, steps_through, tell_pictures
from debugger.frame import DebuggedFrame
from explaining.verdict import explained
from framedbg_client import Client, Garbled, Refusal

from .capture import Capture
from .doors import Refused
from .session import Ended, Session

MOST_TOLD = 10_000  # events that differ; the rest is counted
REFUSED = 2  # framedbg's status for a capture
Words = tuple[str, str, int]  # of a session: the program, the capture, the number of threads


class Beside:
    """`words` are the program, the capture that is shown, and the number of threads; `path` is the other's, whose file
    may lie in a room of its own."""

    told: dict[str, Any] | None
    first: list[str] | None

    def __init__(
        self,
        words: Words,
        path: str | os.PathLike[str],
        name: str | None = None,
        room: "tempfile.TemporaryDirectory[str] | None" = None,
    ) -> None:
        program, self.shown, workers = words
        self.path, self.name, self.room = os.path.abspath(path), name or pathlib.Path(path).name, room
        self.session = Session(program, self.path, workers, Capture(path).boxes_between)
        self.told = self.first = None

    def close(self) -> None:
        self.session.close()
        if self.room:
            self.room.cleanup()

    def differs(self) -> dict[str, Any]:
        """What the page shows of both: {name, last, size, steps, told, left_out, counts}, found once."""
        if self.told is None:
            with self.frames() as (frames, contents):
                steps, moves = steps_through(frames, contents)
                found, counts = differences(frames, contents, steps, moves)
                self.told = {
                    "name": self.name,
                    "last": len(frames[1]),
                    "size": contents[1].size,
                    "steps": runs_of(steps),
                    "told": found[:MOST_TOLD],
                    "left_out": max(0, len(found) - MOST_TOLD),
                    "counts": {sort: counts[sort] for sort in ("same", "changed", "moved", "went", "came")},
                }
        return self.told

    def pictures(self) -> list[str]:
        """Where the pictures first differ, and by how much there and at the end, in the words of fdb --diff."""
        if self.first is None:
            with self.frames() as (frames, contents):
                if contents[0].size != contents[1].size:
                    self.first = ["pictures have other sizes"]
                else:
                    steps, _ = steps_through(frames, contents)
                    keys = [content.keys for content in contents]
                    same = {(i, j) for i, j in steps if i and j and keys[0][i - 1] == keys[1][j - 1]}
                    self.first = tell_pictures(frames, steps, same)
        return self.first

    def frames(self) -> "Frames":
        return Frames(self.session.words[0], [self.shown, self.path], self.session.words[2])


class Frames:
    """Runs of both captures for as long as they are compared, so that none that is shown is moved."""

    clients: list[Client]

    def __init__(self, program: str, paths: Sequence[str], workers: int) -> None:
        self.words, self.paths, self.clients = (program, workers), paths, []

    def __enter__(self) -> tuple[list[DebuggedFrame], list[Contents]]:
        try:
            self.clients += [Client(path, *self.words) for path in self.paths]
            return [DebuggedFrame(client) for client in self.clients], [Contents(path) for path in self.paths]
        except BaseException as fault:
            self.__exit__(type(fault), fault)
            raise

    def __exit__(self, kind: type[BaseException] | None, fault: BaseException | None, *_: object) -> None:
        for client in self.clients:
            client.connection.end(at_once=True)
        if isinstance(fault, MemoryError):
            raise Refused(507, "no more memory to compare both captures") from None
        if isinstance(fault, (Ended, Garbled, Refusal, OSError, ValueError, KeyError)):
            raise Refused(400, f"the captures can't be compared: {fault}") from None


def sent(words: Words, capture: bytes, name: str) -> Beside:
    """A Beside of a capture that the page sent, or Refused in the words of framedbg-explain."""
    room = tempfile.TemporaryDirectory(prefix="framedbg-view-")
    path = pathlib.Path(room.name) / "beside.json"
    try:
        path.write_bytes(capture)
        beside = Beside(words, path, name, room)
        beside.session.answer([b"state"])
        return beside
    except (Ended, OSError) as fault:
        room.cleanup()
        is_refused = isinstance(fault, Ended) and fault.status == REFUSED
        raise Refused(400, explained(capture)[2] if is_refused else str(fault)) from None


def runs_of(steps: Iterable[Sequence[int]]) -> list[list[int]]:
    """Steps through both frames as runs: [number in the one, number in the other, how many]; 0 where it goes over none.
    Steps follow one another in both, so those of one sort are a run."""
    runs: list[list[int]] = []
    for i, j in steps:
        if runs and [bool(at) for at in runs[-1][:2]] == [bool(i), bool(j)]:
            runs[-1][2] += 1
        else:
            runs.append([i, j, 1])
    return runs
