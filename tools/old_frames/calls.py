"""The calls of a trace, as `apitrace pickle` writes them: plain values, and nothing that would be run."""
import functools
import json
import pathlib
import pickle
import subprocess
from collections.abc import Iterator, Sequence
from dataclasses import dataclass
from io import BufferedReader
from typing import Any

from real_frames.fault import Fault

RENDERS, ENDS_FRAME = 1 << 3, 1 << 5  # apitrace's flags of a call
SUFFIXES = ("ARB", "EXT", "ATI", "NV", "OES")
MISSING = "there is no {}; on Debian: apt install apitrace"


class Process(subprocess.Popen[bytes]):
    """A tool whose output and complaints are read."""

    stdout: BufferedReader
    stderr: BufferedReader


@dataclass(frozen=True)
class Call:
    number: int
    name: str  # without the suffix of an extension
    words: dict[Any, Any]  # what the program gave, as plain as JSON, by name
    result: Any = None
    flags: int = 0

    def values(self) -> list[Any]:
        """The numbers that it was given, one by one or as an array."""
        values = list(self.words.values())
        return list(values[0]) if len(values) == 1 and isinstance(values[0], (list, tuple)) else values


class Reader(pickle.Unpickler):
    def find_class(self, module: str, name: str) -> type:
        """A trace has one kind beside the plain ones, its addresses. Any other name would be code of the file's own."""
        if (module, name) == ("unpickle", "Pointer"):
            return int
        raise Fault(f"the trace names {module}.{name}, which no trace of apitrace's does")


@functools.lru_cache(4096)
def plain(name: str) -> str:
    for suffix in SUFFIXES:
        if name.endswith(suffix) and len(name) > len(suffix) + 2:
            return name[: -len(suffix)]
    return name


def started(words: Sequence[str | pathlib.Path]) -> Process:
    try:
        return Process([str(word) for word in words], stdout=subprocess.PIPE, stderr=subprocess.PIPE)
    except FileNotFoundError:
        raise Fault(MISSING.format(words[0])) from None
    except OSError as fault:
        raise Fault(f"{words[0]}: {fault.strerror}") from None


def said(process: Process) -> str:
    """What a tool said last, for a fault."""
    lines = process.stderr.read().decode(errors="replace").split("\n")
    return next((line.strip() for line in reversed(lines) if line.strip()), "it said nothing")


def calls(path: str | pathlib.Path) -> Iterator[Call]:
    """Gives the calls of a trace in turn."""
    with started(["apitrace", "pickle", path]) as process:
        try:
            yield from read(process.stdout)
        finally:
            process.kill()


def read(stream: BufferedReader) -> Iterator[Call]:
    reader = Reader(stream)
    while stream.peek(1):
        try:
            number, name, words, result, flags = reader.load()
        except (
            pickle.UnpicklingError,
            EOFError,
            ValueError,
            TypeError,
            AttributeError,
            IndexError,
            KeyError,
            UnicodeDecodeError,
        ) as fault:
            raise Fault(f"a call of the trace can't be read: {fault}") from None
        yield Call(number, plain(name), dict(words), result, flags)


def described(path: str | pathlib.Path) -> tuple[int, str]:
    """How many frames a trace has, and the program that replays it; a Fault where it is none."""
    try:
        with open(path, "rb"):
            pass
    except OSError as fault:
        raise Fault(f"{path}: {fault.strerror}") from None
    with started(["apitrace", "info", path]) as process:
        told = process.stdout.read()
        try:
            known = json.loads(told, strict=False)
            return int(known["FramesCount"]), "eglretrace" if "EGL" in str(known["API"]) else "glretrace"
        except (ValueError, KeyError, TypeError):
            raise Fault(f"{path}: no trace of apitrace's: {said(process)}") from None
