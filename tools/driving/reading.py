"""A capture from its file, as framedbg accepts it; and what is written, whole or not at all."""
import os
from typing import Any

from captures import MOST_BYTES
from explaining import json_text
from explaining.verdict import explained
from writing import files

from .faults import READING, Fault


def read_capture(path: str | os.PathLike[str]) -> dict[str, Any]:
    """The capture in a file. What is refused is told with its place."""
    try:
        with open(path, "rb") as file:
            data = file.read(MOST_BYTES + 1)
    except OSError as fault:
        raise Fault(f"{path}: {fault.strerror}") from None
    is_accepted, verdict, why = explained(data)
    if not is_accepted:
        raise Fault(f"{path}: capture refused {verdict}: {why}")
    capture: dict[str, Any] = json_text.read(json_text.decoded(data))
    return capture


def write(path: str | os.PathLike[str], text: str) -> None:
    """Writes a file whole, or leaves what was there. A device or a pipe is written through, and a link stays one."""
    try:
        files.keep(os.path.abspath(path), text.encode())
    except OSError as fault:
        raise Fault(f"{path}: {fault.strerror}", READING) from None
