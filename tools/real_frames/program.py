"""framedbg, asked for images and for histories."""
import contextlib
import json
import os
import subprocess
import tempfile
from collections.abc import Iterator, Sequence
from typing import Any

from framedbg_client import Client, Ended, Garbled, Refusal, read_pam

from .fault import Fault

PATIENCE = 600  # seconds for one image: a machine may be busy
SOME = bytes([0]) + bytes([1]) * 255


def ran(words: Sequence[str], **how: Any) -> "subprocess.CompletedProcess[bytes]":
    try:
        return subprocess.run(words, capture_output=True, timeout=PATIENCE, check=False, **how)
    except OSError as fault:
        raise Fault(f"{words[0]}: {fault.strerror}") from None
    except subprocess.TimeoutExpired:
        raise Fault(f"{words[0]} didn't end in {PATIENCE} seconds") from None


def image(program: str, capture: dict[str, Any]) -> bytes:
    """The bytes of a capture's last image, RGBA."""
    with tempfile.NamedTemporaryFile("w", suffix=".json") as file:
        json.dump(capture, file)
        file.flush()
        done = ran([program, "image", "--workers", "1", file.name])
    if done.returncode:
        raise Fault(done.stderr.decode(errors="replace").strip() or f"{program} ended with {done.returncode}")
    return read_pam(done.stdout).samples


def marked(program: str, capture: dict[str, Any]) -> bytes:
    """The pixels of the last image whose red isn't 0, as a byte of 0 or 1 for each."""
    return image(program, capture)[0::4].translate(SOME)


@contextlib.contextmanager
def session(program: str, path: str | os.PathLike[str]) -> Iterator[Client]:
    """One run over a capture for some time, to be asked; what goes wrong is a Fault."""
    try:
        client = Client(path, program, workers=1, errors=None)
    except OSError as fault:
        raise Fault(f"{fault.filename or program}: {fault.strerror}") from None
    try:
        with client:
            yield client
    except Ended:
        raise Fault("framedbg ended early") from None
    except Garbled as fault:
        raise Fault(str(fault)) from None
    except Refusal as refusal:
        raise Fault(f"{type(refusal.reply).__name__.lower()} {refusal.reply.number} {refusal}") from None
