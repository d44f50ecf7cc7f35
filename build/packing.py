"""What goes into a package: the files that build/install puts below a folder, and archives that are the same bytes
each time. SOURCE_DATE_EPOCH is the time of what is in them, else 1980."""
import gzip
import io
import os
import pathlib
import re
import subprocess
import sys
import tarfile
import tempfile
from typing import NamedTuple

from folders import TOP

from framedbg_client.program import BUILT

WHEN = 315532800  # the first day of 1980, before which some archives know no time
# by which build/install takes away what it put there: whoever installs a package has its own
LIST = "share/framedbg/installed"
VERSION = re.compile(r"framedbg (\d+(?:\.\d+)*) \(proved with (logic [0-9a-f]+)\)\n")
LIBRARY = re.compile(rb"GLIBC_(\d+)\.(\d+)")


class Fault(Exception):
    """Why nothing can be made."""


class File(NamedTuple):
    data: bytes
    mode: int


def when():
    return int(os.environ.get("SOURCE_DATE_EPOCH", WHEN))


def told():
    """The version of the built program and the logic that it was proved with, as it tells them."""
    if not BUILT.exists():
        raise Fault(f"{BUILT} isn't there: make program builds it")
    said = subprocess.run([BUILT, "--version"], capture_output=True, text=True, check=False).stdout
    found = VERSION.fullmatch(said)
    if not found:
        raise Fault(f"{BUILT} --version says {said!r}, which names no version and logic")
    return found[1], found[2]


def library():
    """The version of glibc that the built program wants, as (2, 34)."""
    return max((int(major), int(minor)) for major, minor in LIBRARY.findall(BUILT.read_bytes()))


def installed(folder):
    ran = subprocess.run([sys.executable, TOP / "build/install", folder], capture_output=True, text=True, check=False)
    if ran.returncode:
        raise Fault(ran.stderr.strip())


def files():
    """What is installed, by its place below the folder."""
    with tempfile.TemporaryDirectory() as room:
        tree = pathlib.Path(room) / "tree"
        installed(tree)
        found = {path.relative_to(tree).as_posix(): path for path in sorted(tree.rglob("*")) if path.is_file()}
        return {
            place: File(path.read_bytes(), 0o755 if place.startswith("bin/") else 0o644)
            for place, path in found.items()
            if place != LIST
        }


def tar(entries):
    """Files by their names as a tar file in gzip, with the folders that they are in: in order, of nobody, at one
    time."""
    folders = {
        parent.as_posix()
        for name in entries
        for parent in pathlib.PurePosixPath(name).parents
        if parent.as_posix() != "."
    }
    plain = io.BytesIO()
    with tarfile.open(fileobj=plain, mode="w", format=tarfile.GNU_FORMAT) as archive:
        for name in sorted({*folders, *entries}, key=lambda name: name.split("/")):
            file = entries.get(name)
            entry = tarfile.TarInfo(f"./{name}")
            entry.type, entry.mode, entry.size = (
                (tarfile.REGTYPE, file.mode, len(file.data)) if file else (tarfile.DIRTYPE, 0o755, 0)
            )
            entry.mtime, entry.uname, entry.gname = when(), "root", "root"
            archive.addfile(entry, io.BytesIO(file.data) if file else None)
    small = io.BytesIO()
    with gzip.GzipFile(filename="", mode="wb", compresslevel=9, fileobj=small, mtime=0) as file:
        file.write(plain.getvalue())
    return small.getvalue()
