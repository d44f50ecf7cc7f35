"""The run that the page moves, and others of the same capture beside it, for what would move it away: histories of
the whole frame, pictures of depths."""
import threading
from collections.abc import Sequence
from typing import TYPE_CHECKING

from .session import Answer, Ended, Session, Stopped, Window

if TYPE_CHECKING:
    from .beside import Beside

OTHER = "other"  # of another capture: it follows nothing
BESIDE = ("end", "depths", OTHER)  # what the runs beside are for; each is started when it is asked for the first time


class Runs:
    beside: dict[str, Session]
    other: "Beside | None"

    def __init__(self, session: Session) -> None:
        self.session, self.beside, self.lock = session, {}, threading.Lock()
        self.other = None  # another capture (beside.py)

    def answer(
        self, lines: list[bytes], window: Window = None, beside: str | None = None, ending: int = 0
    ) -> Answer:
        """The replies to some lines, the images among them, and the count of switches before and after; those beside
        have the same events off. So many of the last lines are answered by the run at the end."""
        if ending:
            own, images, switches = self.answer(lines[:-ending], window, beside)
            there, more, _ = self.answer(lines[-ending:], window, "end")
            return own + there, images + more, switches
        if beside is None:
            return self.session.answer(lines, window)
        before, run = self.session.switches, self._run(beside)
        try:
            if beside != OTHER:
                run.follow(set(self.session.off), len(lines))
            replies, images, _ = run.answer(lines, window)
        except Stopped:
            raise
        except Ended:
            if beside == OTHER:
                run.start()
            else:
                self._drop(beside, run)
            raise
        return replies, images, (before, before)

    def depths(self, position: int, part: Sequence[int]) -> bytes | None:
        """The depths of some pixels at a position, by the run beside that is for them."""
        run = self._run("depths")
        try:
            run.follow(set(self.session.off), 1 + part[-1] * part[-2])
            return run.depths(position, part)
        except Stopped:
            raise
        except Ended:
            self._drop("depths", run)
            raise

    def start(self) -> None:
        self._drop_all()
        self.session.start()

    def stop(self) -> None:
        """Those beside that are at something are ended too."""
        for run in [*self.beside.values(), *([self.other.session] if self.other else [])]:
            if run.lock.locked():
                run.stop()
        self.session.stop()

    def put_beside(self, other: "Beside | None") -> None:
        """Another capture, in the place of the one before, or none."""
        before, self.other = self.other, other
        if before:
            before.close()

    def close(self) -> None:
        self._drop_all()
        self.put_beside(None)
        self.session.close()

    def _run(self, name: str) -> Session:
        if name == OTHER:
            return self.other.session  # type: ignore[union-attr]  # who asks it has looked
        with self.lock:
            if name not in self.beside:
                self.beside[name] = Session(*self.session.words)
            return self.beside[name]

    def _drop(self, name: str, run: Session) -> None:
        with self.lock:
            if self.beside.get(name) is run:
                del self.beside[name]
        run.close()

    def _drop_all(self) -> None:
        for name, run in list(self.beside.items()):
            self._drop(name, run)
