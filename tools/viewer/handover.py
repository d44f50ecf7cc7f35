"""The address on its way to the browser, in a file that only the user can read: the words of a program are seen by
every user of the machine."""
import html
import os
import pathlib
import shutil
import subprocess
import sys
import tempfile
import threading
from collections.abc import Callable

PATIENCE = 10  # seconds until it is said that no browser has come
OPEN = "import sys, webbrowser; sys.exit(not webbrowser.open(sys.argv[1]))"
PAGE = """<!doctype html><meta charset="utf-8"><meta name="referrer" content="no-referrer"><meta http-equiv="refresh" content="0;url={address}">
<title>framedbg</title><p><a href="{address}">To the frame</a></p>
"""


class Handover:
    def __init__(self, address: str) -> None:
        self.folder = pathlib.Path(tempfile.mkdtemp(prefix="framedbg-view-"))  # the user's alone
        self.page, self.has_come = self.folder / "open.html", threading.Event()
        with open(os.open(self.page, os.O_WRONLY | os.O_CREAT | os.O_EXCL, 0o600), "w", encoding="utf-8") as file:
            file.write(PAGE.format(address=html.escape(address)))

    def open(self, tell: Callable[[str], None], patience: float = PATIENCE) -> None:
        """Has the browser opened by a program of its own, since one that Python doesn't know is waited for. Where
        none comes that is told."""
        quiet = subprocess.DEVNULL
        opener = subprocess.Popen(
            [sys.executable, "-c", OPEN, self.page.as_uri()],
            stdin=quiet,
            stdout=quiet,
            stderr=quiet,
            start_new_session=True,
        )
        threading.Thread(target=self.watch, args=(opener, tell, patience), daemon=True).start()

    def watch(self, opener: "subprocess.Popen[bytes]", tell: Callable[[str], None], patience: float) -> None:
        try:
            failed = opener.wait(patience) != 0
        except subprocess.TimeoutExpired:
            failed = False  # it runs on
        if not self.has_come.is_set() and (failed or not self.has_come.wait(patience)):
            tell("no browser could be opened" if failed else "no browser has come yet")

    def close(self) -> None:
        """The browser is there, or isn't wanted any more."""
        self.has_come.set()
        shutil.rmtree(self.folder, ignore_errors=True)
