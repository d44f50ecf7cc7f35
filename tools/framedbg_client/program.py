"""Where the program is: built in this repository, installed beside this package, or on the path. What tries a
program takes the built one, or another that is named."""
import contextlib
import os
import pathlib
import shutil
from collections.abc import Iterator
from typing import Any

TOOLS = pathlib.Path(__file__).resolve().parent.parent
BUILT = TOOLS.parent / "crates/framedbg/out/framedbg"
PLACES = (BUILT, TOOLS.parent.parent.parent / "bin/framedbg")


def find_program() -> str | None:
    """The path of framedbg, or None where there is none."""
    return next((str(place) for place in PLACES if place.is_file()), None) or shutil.which("framedbg")


@contextlib.contextmanager
def as_word(path: Any) -> Iterator[tuple[str, tuple[int, ...]]]:
    """A path as a word for framedbg, whose words are UTF-8, and the descriptors that a run of it has to have: a name
    of other bytes is reached by one."""
    path = os.fspath(path)
    try:
        path.encode()
    except UnicodeEncodeError:
        number = os.open(path, os.O_RDONLY)
        try:
            yield f"/dev/fd/{number}", (number,)
        finally:
            os.close(number)
    else:
        yield path, ()


def tried_program() -> str:
    """The path of the framedbg that tests and measurements run: the one that FRAMEDBG names, or else the built one,
    which may not be there."""
    return os.path.abspath(os.environ.get("FRAMEDBG", BUILT))
