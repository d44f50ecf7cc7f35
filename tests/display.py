"""A display that nobody sees, for programs of tests that open windows: Xvfb with a number of its own."""
import pathlib
import subprocess
import time

NUMBERS = range(90, 140)
SECONDS = 30
SILENT = {name: subprocess.DEVNULL for name in ("stdin", "stdout", "stderr")}


class Display:
    """`name` is what DISPLAY has to be. It is ended by end()."""

    def __init__(self):
        for number in NUMBERS:
            words = ["Xvfb", f":{number}", "-screen", "0", "1600x1200x24", "-nolisten", "tcp"]
            self.server = subprocess.Popen(words, **SILENT)
            if self._has_begun(pathlib.Path(f"/tmp/.X11-unix/X{number}")):
                self.name = f":{number}"
                return
            self.end()
        raise OSError("no display starts here")

    def _has_begun(self, socket):
        """Whether it is this one that took the number."""
        until = time.monotonic() + SECONDS
        while self.server.poll() is None and time.monotonic() < until:
            if socket.exists():
                time.sleep(0.3)
                return self.server.poll() is None
            time.sleep(0.1)
        return False

    def end(self):
        self.server.terminate()
        self.server.wait()
