"""A screen for programs that want one: the one that is there, else an Xvfb of one's own."""
import os
import select
import shutil
import subprocess

from .fault import Fault
from .orphans import end_with_parent

PATIENCE = 30  # seconds until an Xvfb has to be up
SIZE = "1280x1024x24"


class Display:
    """In a `with` statement. The Xvfb chooses a number that is free, and ends with the statement or with this
    process."""

    process: "subprocess.Popen[bytes] | None"

    def __enter__(self) -> "Display":
        self.process = None
        if os.environ.get("DISPLAY"):
            return self
        if not shutil.which("Xvfb"):
            raise Fault("there is no screen (DISPLAY) and no Xvfb; on Debian: apt install xvfb")
        reader, writer = os.pipe()
        words = ["Xvfb", "-displayfd", str(writer), "-screen", "0", SIZE, "-nolisten", "tcp"]
        self.process = subprocess.Popen(
            words,
            pass_fds=[writer],
            stdin=subprocess.DEVNULL,
            stdout=subprocess.DEVNULL,
            stderr=subprocess.DEVNULL,
            preexec_fn=end_with_parent,
        )
        os.close(writer)
        number = self.number(reader)
        os.close(reader)
        if not number:
            self.__exit__()
            raise Fault(f"Xvfb wasn't up after {PATIENCE} seconds")
        os.environ["DISPLAY"] = ":" + number
        return self

    @staticmethod
    def number(reader: int) -> str:
        """The number that Xvfb says, once it is up; empty where it says none in time."""
        told = b""
        while not told.endswith(b"\n"):
            if not select.select([reader], [], [], PATIENCE)[0]:
                return ""
            some = os.read(reader, 64)
            if not some:
                return ""
            told += some
        return told.decode().strip()

    def __exit__(self, *_: object) -> None:
        if self.process:
            os.environ.pop("DISPLAY", None)
            self.process.terminate()
            try:
                self.process.wait(10)
            except subprocess.TimeoutExpired:
                self.process.kill()
                self.process.wait()
