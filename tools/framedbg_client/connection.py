"""One process of `framedbg run` behind pipes: lines in, lines and bytes out."""
import builtins
import contextlib
import subprocess
import threading
from collections.abc import Iterator, Sequence
from typing import Any

from .program import as_word

MOST_LINE, MOST_LINES, MOST_INPUT = (
    256,
    1_000_000,
    268_435_456,
)  # bytes of a line, lines that a run answers, and bytes that it takes
BUFFER = 1 << 20
PATIENCE = 2  # seconds in which a run whose input has ended has to end


class Ended(Exception):
    """The run is over. `said` is what framedbg said last, `status` how it ended."""

    def __init__(self, said: str, status: int) -> None:
        super().__init__(f"{said or 'framedbg has ended'} (status {status})")
        self.said, self.status = said, status


class Connection:
    def __init__(self, program: Any, capture: Any, workers: int | None = None, errors: Any = subprocess.PIPE) -> None:
        """`errors` is where framedbg's standard error goes; from a pipe it is told with Ended. The process has a
        session of its own, so that a Ctrl-C at the terminal is its client's alone."""
        self.process: Any  # its pipes are there until it has ended
        words = [program, "run", *(["--workers", str(workers)] if workers else []), "--"]
        with as_word(capture) as (word, descriptors):
            self.process = subprocess.Popen(
                [*words, word],
                stdin=subprocess.PIPE,
                stdout=subprocess.PIPE,
                stderr=errors,
                bufsize=BUFFER,
                start_new_session=True,
                pass_fds=descriptors,
            )
        self.ending: Ended | None = None

    def write(self, lines: Sequence[bytes]) -> None:
        """Sends lines, each of which is bytes without a line feed."""
        try:
            self.process.stdin.write(b"".join(line + b"\n" for line in lines))
            self.process.stdin.flush()
        except (BrokenPipeError, ValueError):
            raise self.end() from None

    @contextlib.contextmanager
    def writing(self, lines: Sequence[bytes]) -> Iterator[None]:
        """Sends lines while their replies are read: both go on at once, so that no pipe is full on both sides."""
        writer = threading.Thread(target=self._write_all, args=[lines], daemon=True)
        writer.start()
        yield
        writer.join()

    def exchange(self, lines: Sequence[bytes]) -> Iterator[bytes]:
        """Sends lines that have a reply of one line each, and gives these as bytes."""
        with self.writing(lines):
            for _ in lines:
                line = self.process.stdout.readline()
                if not line.endswith(b"\n"):
                    raise self.end()
                yield line[:-1]

    def _write_all(self, lines: Sequence[bytes]) -> None:
        """The reader tells of a run that has ended."""
        with contextlib.suppress(BrokenPipeError, ValueError):
            self.process.stdin.write(b"".join(line + b"\n" for line in lines))
            self.process.stdin.flush()

    def line(self) -> str:
        line = self.process.stdout.readline()
        if not line.endswith(b"\n"):
            raise self.end()
        return line[:-1].decode("utf-8", "replace")

    def bytes(self, size: int) -> builtins.bytes:
        data = self.process.stdout.read(size)
        if len(data) < size:
            raise self.end()
        return data

    def end(self, at_once: bool = False) -> Ended:
        """Ends the run, if it hasn't ended by itself, and gives its Ended."""
        if self.ending is None:
            if at_once:
                self.process.kill()
            try:
                self.process.stdin.close()
            except OSError:
                pass
            try:
                self.process.wait(PATIENCE)
            except subprocess.TimeoutExpired:
                self.process.kill()
                self.process.wait()
            said = self.process.stderr.read(4096).decode("utf-8", "replace").strip() if self.process.stderr else ""
            self.ending = Ended(said, self.process.returncode)
            for pipe in (self.process.stdout, self.process.stderr):
                if pipe:
                    pipe.close()
        return self.ending
