"""What if an event were another one, or stood elsewhere: the capture changed so, its picture, and its text to be
kept."""
import json
import os
import pathlib
import subprocess
import tempfile
from collections.abc import Container

import captures
from debugger.changing import Wrong, changed, without
from explaining.verdict import explained
from framedbg_client import read_pam

from .doors import Refused

REFUSED = 2  # framedbg's status for a capture


class Changed:
    def __init__(self, program: str, capture: str | os.PathLike[str]) -> None:
        self.program, self.capture = program, pathlib.Path(capture)

    def file(self) -> bytes:
        """The capture as it is."""
        try:
            return self.capture.read_bytes()
        except OSError as fault:
            raise Refused(400, fault.strerror) from None

    def text(self, change: bytes, off: Container[int]) -> bytes:
        """The capture with a change, {"set": event, "members": {..}} or {"move": event, "to": its number
        then}; events that are off are none in it."""
        try:
            capture, wanted = json.loads(self.capture.read_bytes()), json.loads(change)
            return captures.text(capture | {"events": changed(without(capture["events"], off), wanted)}).encode()
        except OSError as fault:
            raise Refused(400, fault.strerror) from None
        except Wrong as wrong:
            raise Refused(400, str(wrong)) from None
        except (ValueError, KeyError, TypeError, RecursionError):
            raise Refused(400, "no change of this capture") from None

    def picture(self, change: bytes, off: Container[int]) -> tuple[int, int, bytes]:
        """Width, height and samples of its image at the end."""
        text = self.text(change, off)
        with tempfile.TemporaryDirectory(prefix="framedbg-view-") as folder:
            file = pathlib.Path(folder) / "changed.json"
            file.write_bytes(text)
            run = subprocess.run(
                [self.program, "image", str(file)], stdin=subprocess.DEVNULL, capture_output=True, check=False
            )
        if run.returncode:
            raise Refused(
                400, explained(text)[2] if run.returncode == REFUSED else run.stderr.decode("utf-8", "replace").strip()
            )
        image = read_pam(run.stdout)
        return image.width, image.height, image.samples
