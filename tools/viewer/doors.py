"""What a request must be, to be answered: the page's own, of this run, and of a bounded length."""
import hmac
import json
from email.message import Message

from framedbg_client.connection import MOST_LINE

from .runs import BESIDE

MAX_BODY = 1 << 16  # bytes of a call
MAX_PICTURE = 1 << 25  # bytes of a picture
MAX_COMMANDS = 4096  # lines of a call
MAX_NUMBER = 10  # digits
MAX_DEPTHS = 1 << 17  # of a call
MAX_NAME = 255  # characters
HEADERS = {
    "Content-Security-Policy": (
        "default-src 'none'; script-src 'self'; style-src 'self'; img-src 'self' data:; connect-src 'self'; "
        "base-uri 'none'; form-action 'none'; frame-ancestors 'none'"
    ),
    "X-Content-Type-Options": "nosniff",
    "Referrer-Policy": "no-referrer",
    "Cross-Origin-Opener-Policy": "same-origin",
    "Cross-Origin-Resource-Policy": "same-origin",
    "Cache-Control": "no-store",
}


class Refused(Exception):
    def __init__(self, status: int, why: str) -> None:
        super().__init__(why)
        self.status = status


def check_caller(headers: Message, host: str, origin: str) -> None:
    """Its Host is exactly the address that was printed, and its Origin, where there is one, the page's own."""
    if headers.get_all("Host", []) != [host]:
        raise Refused(403, "another host")
    if headers.get_all("Origin", [origin]) != [origin]:
        raise Refused(403, "another origin")


def check_token(headers: Message, token: str) -> None:
    """It comes from this site, and carries the run's token exactly once."""
    if headers.get("Sec-Fetch-Site", "same-origin") not in ("same-origin", "none"):
        raise Refused(403, "another site")
    tokens: list[str] = headers.get_all("X-Token", [])
    if len(tokens) != 1 or not hmac.compare_digest(tokens[0].encode("utf-8", "replace"), token.encode()):
        raise Refused(403, "no token")


def body_length(headers: Message, most: int = MAX_BODY) -> int:
    length = headers.get("Content-Length", "")
    if not length.isascii() or not length.isdigit() or len(length) > MAX_NUMBER:
        raise Refused(411, "a length is wanted")
    if int(length) > most:
        raise Refused(413, "too long")
    return int(length)


def commands(body: bytes) -> list[bytes]:
    """The lines of a call. A line that is no command is framedbg's to answer; `quit` is the launcher's."""
    lines = body.splitlines()
    if not 1 <= len(lines) <= MAX_COMMANDS:
        raise Refused(400, f"from 1 to {MAX_COMMANDS} lines are wanted")
    for line in lines:
        if len(line) > MOST_LINE or not all(32 <= byte < 127 for byte in line):
            raise Refused(400, f"a line has at most {MOST_LINE} printable characters")
        if line.split()[:1] == [b"quit"]:
            raise Refused(400, "the viewer ends the run itself")
    return lines


def beside(headers: Message) -> str | None:
    """The run beside that is to answer, or None; such a call switches nothing."""
    name = headers.get("X-Run")
    if name is not None and name not in BESIDE:
        raise Refused(400, "no such run")
    return name


def name(headers: Message) -> str:
    """A file's name, which is shown and nothing else."""
    try:
        told = json.loads(headers.get("X-Name", '""'))
    except ValueError:
        told = None
    if not isinstance(told, str) or len(told) > MAX_NAME:
        raise Refused(400, "a name is wanted")
    return told or "the other capture"


def numbers(text: str, *counts: int) -> tuple[int, ...]:
    words = text.split()
    if len(words) not in counts or not all(
        word.isascii() and word.isdigit() and len(word) <= MAX_NUMBER for word in words
    ):
        raise Refused(400, f"{counts[0]} numbers are wanted")
    return tuple(map(int, words))
