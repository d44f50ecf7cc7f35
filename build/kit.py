"""The toolchain's own rt as a module: the crates as it reads them, its words for a check, and its lanes.

What is asked of it here is what `rt ci` is made of, so that the checks of this repository follow the toolchain that is
installed.
"""
import functools
import importlib.machinery
import importlib.util
import os
import pathlib
import signal
import subprocess
import sys

from folders import TOP

ASKED = ("checked", "edited", "in_lanes", "linked", "need", "rtlib", "seeded", "share_work", "unread", "work_for")


@functools.lru_cache(maxsize=None)
def place():
    """The folder of the toolchain."""
    try:
        said = subprocess.run(["rt", "doc"], capture_output=True, text=True, check=True).stdout
        return pathlib.Path(said.strip()).parent
    except (OSError, subprocess.CalledProcessError) as fault:
        sys.exit(f"the toolchain isn't there: rt doc: {fault}")


@functools.lru_cache(maxsize=None)
def rt():
    """The module of `rt`. It is asked for before any thread is: it starts what ends its commands with it, however it
    ends."""
    file = place() / "bin/rt"
    loader = importlib.machinery.SourceFileLoader("rt", str(file))
    module = importlib.util.module_from_spec(importlib.util.spec_from_loader("rt", loader))
    loader.exec_module(module)
    lacking = [name for name in ASKED if not hasattr(module, name)]
    if lacking:
        sys.exit(f"{file} has no {', '.join(lacking)}: build/kit.py was written for another toolchain")
    module.rtlib.guarded()
    if signal.getsignal(signal.SIGINT) is signal.default_int_handler:  # which waits for the commands of threads
        signal.signal(signal.SIGINT, signal.SIG_DFL)
    return module


def identity():
    return (place() / "KIT-ID").read_text().strip()


def crates(top=TOP):
    """Each crate of crates.txt by its name, lower ones first."""
    return {crate.name: crate for crate in rt().rtlib.crates_below(str(top))}


def is_older(crate, made):
    """Whether a source of the crate, or of one below it, was written after this file or folder was made."""
    files = [file for it in [crate, *crate.below()] for file in rt().rtlib.files_of(it.folder)]
    return any(os.stat(file).st_mtime > made.stat().st_mtime for file in [TOP / "crates.txt", *files])


def is_of_gate(crate):
    """Whether the crate's library is the one that `rt ci` built of these texts, which leaves no stamp."""
    folder = pathlib.Path(crate.rlib).parent
    is_built = (folder / f"{crate.name}.rlib/format").exists() and not (folder / "stamp").exists()
    return is_built and not is_older(crate, folder)


def has_libraries(crate):
    """Whether the libraries below the crate are built: all by commands of this checkout, or all by `rt ci`. The two
    don't fit each other."""
    below = crate.below()
    return all(it.is_built() for it in below) or all(map(is_of_gate, below))


@functools.lru_cache(maxsize=None)
def share_work():
    """Has what is built here begin with what other checkouts on the machine kept, and serve them, as rt's commands
    do."""
    rt().share_work(True)
