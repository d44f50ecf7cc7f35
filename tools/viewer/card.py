"""A run of a capture that the page made, or was given, for its view of the card: there is one at a time."""
import pathlib
import tempfile
import threading
from typing import Any

from explaining.verdict import explained

from .doors import Refused
from .image import Pixels
from .session import Ended, Reply, Session

WORKERS = 1


class Card:
    session: Session | None
    folder: Any  # of the run, while there is one
    data: bytes

    def __init__(self, program: str) -> None:
        self.program, self.lock = program, threading.RLock()
        self.number, self.session, self.folder, self.data = 0, None, None, b""

    def start(self, data: bytes) -> int:
        """The number of a new run, in the place of the last one."""
        with self.lock:
            self.end()
            self.folder, self.data = tempfile.TemporaryDirectory(prefix="framedbg-view-"), data
            file = pathlib.Path(self.folder.name) / "card.json"
            file.write_bytes(data)
            self.session, self.number = Session(self.program, str(file), WORKERS), self.number + 1
            return self.number

    def answer(self, number: int, lines: list[bytes]) -> tuple[list[Reply], list[Pixels]]:
        """The replies to some lines, and the images among them."""
        with self.lock:
            if not self.session or number != self.number:
                raise Refused(400, "another capture is compared now")
            try:
                replies, images, _ = self.session.answer(lines)
            except Ended:
                is_accepted, verdict, why = explained(self.data)
                if is_accepted:
                    raise
                raise Refused(400, f"capture refused {verdict}: {why}") from None
            return list(map(told_of, replies)), images

    def end(self, number: int | None = None) -> None:
        """Ends the run, or that of a number alone."""
        with self.lock:
            if self.session and number in (None, self.number):
                self.session.close()
                self.folder.cleanup()
                self.session = None


def told_of(reply: Reply) -> Reply:
    """A reply with what its page reads of an image."""
    if "image" not in reply:
        return reply
    return reply | {"image": {name: value for name, value in reply["image"].items() if name != "since"}}
