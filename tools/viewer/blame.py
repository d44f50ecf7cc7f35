"""Who made the image differ from a picture: one run of framedbg-blame at a time over the run's capture, and the
picture after what mends it."""
import json
import os
import pathlib
import subprocess
import sys
import tempfile
import threading
from collections.abc import Container, Iterable
from typing import Any

from blaming.faults import Fault
from blaming.frame import CaptureFrame, read_capture
from captures import marker
from framedbg_client import read_pam

from .doors import Refused

TOOL = pathlib.Path(__file__).resolve().parent.parent / "framedbg-blame"
SECONDS = 60  # for a search
FOUND = (0, 1, 4)  # statuses with which it says what it found
INTERRUPTED = 130


class Blame:
    run: "subprocess.Popen[bytes] | None"

    def __init__(self, program: str, capture: str) -> None:
        self.program, self.capture = program, os.path.abspath(capture)
        self.lock, self.run, self.is_stopped = threading.Lock(), None, False

    def answer(self, picture: bytes, tolerance: Iterable[int], off: set[int]) -> tuple[dict[str, Any], bytes]:
        """What is found, with the size of the picture after the best change, and that picture's samples. Events that
        are off are none for it, and keep their numbers."""
        if not self.lock.acquire(blocking=False):
            raise Refused(409, "it is looked for already")
        try:
            self.is_stopped = False
            with tempfile.TemporaryDirectory(prefix="framedbg-view-") as folder:
                return self._answer(pathlib.Path(folder), picture, tolerance, off)
        except Fault as fault:
            raise Refused(400, str(fault)) from None
        finally:
            self.run = None
            self.lock.release()

    def stop(self) -> None:
        """Ends the search, if there is one: it is answered with "stopped"."""
        self.is_stopped, run = True, self.run
        if run and run.poll() is None:
            run.terminate()

    def _answer(
        self, folder: pathlib.Path, picture: bytes, tolerance: Iterable[int], off: set[int]
    ) -> tuple[dict[str, Any], bytes]:
        capture: str | pathlib.Path
        wanted, mended, capture = folder / "wanted.pam", folder / "mended.json", self.capture
        wanted.write_bytes(picture)
        if off:
            capture = folder / "shown.json"
            capture.write_text(without(read_capture(self.capture), off), encoding="utf-8")
        words = [
            sys.executable,
            str(TOOL),
            str(capture),
            wanted.name,
            "--json",
            "--program",
            self.program,
            "--seconds",
            str(SECONDS),
            "--tolerance",
            ",".join(map(str, tolerance)),
            "--write",
            str(mended),
        ]
        self.run = subprocess.Popen(
            words, cwd=folder, stdin=subprocess.DEVNULL, stdout=subprocess.PIPE, stderr=subprocess.PIPE
        )
        if self.is_stopped:
            self.stop()
        out, said = self.run.communicate()
        if self.is_stopped or self.run.returncode == INTERRUPTED:
            return {"stopped": True}, b""
        if self.run.returncode not in FOUND:
            raise Refused(400, said.decode("utf-8", "replace").strip().removeprefix("framedbg-blame: "))
        told = json.loads(out)
        return told, self.drawn(mended) if mended.exists() else b""

    def drawn(self, capture: pathlib.Path) -> bytes:
        return read_pam(
            subprocess.run(
                [self.program, "image", str(capture)], stdin=subprocess.DEVNULL, capture_output=True, check=False
            ).stdout
        ).samples


def without(capture: dict[str, Any], off: Container[int]) -> str:
    """A capture whose events of some numbers do nothing."""
    events = [marker("off") if number in off else event for number, event in enumerate(capture["events"], 1)]
    return CaptureFrame(capture).text(events)
