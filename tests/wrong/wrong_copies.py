"""Copies of the repository, in which a wrong version lies, and what the run of a test there says of it."""
import contextlib
import os
import pathlib
import re
import shutil
import signal
import subprocess
import sys
import tempfile

from folders import TOP

import passed_over

COPIED = (
    "benches",
    "build",
    "checks",
    "share",
    "tests",
    "tools",
)  # what may be exchanged; the rest of a copy leads to the repository
SECONDS = 900  # for the run of a test
RUNNING = set()  # the numbers of those that haven't ended


def twin(file, to):
    """A file once more. A hard link costs a tenth of a copy; what is exchanged is written as a file of its own."""
    try:
        os.link(file, to)
    except OSError:  # another disk
        shutil.copy2(file, to)


def exchange(path, text):
    """Writes a text in the place of a file. The time is none at which Python has compiled it."""
    mode = path.stat().st_mode
    path.unlink()
    path.write_text(text)
    path.chmod(mode)
    os.utime(path, (0, 0))


@contextlib.contextmanager
def copy():
    """A copy for some time. What a test passes over in it isn't noted in the repository."""
    with tempfile.TemporaryDirectory(ignore_cleanup_errors=True) as folder:
        room = pathlib.Path(folder)
        (room / "out").mkdir()
        for entry in [*TOP.iterdir(), *TOP.glob("out/*")]:
            if entry.parent == TOP and entry.name in COPIED:
                shutil.copytree(entry, room / entry.name, symlinks=True, copy_function=twin)
            elif entry not in (TOP / "out", TOP / ".git", passed_over.NOTED):
                (room / entry.relative_to(TOP)).symlink_to(entry)
        yield room


def has_not_begun(said):
    """Whether a class of tests couldn't begin, as one whose browser didn't start."""
    return re.search(r"^ERROR: setUp(Class|Module) ", said, re.M)


def verdict(status, said):
    """What a run of tests says of a wrong version: a test has to fail, and not only to break off, or not to begin."""
    if re.search(r"^FAILED \(", said, re.M) and not has_not_begun(said):
        return "seen"
    return "skipped" if "skipped=" in said else "MISSED" if status == 0 else "BROKEN"


def end(number):
    """Ends a run, and whatever it has started and left."""
    with contextlib.suppress(ProcessLookupError):
        os.killpg(number, signal.SIGKILL)


def end_all():
    for number in list(RUNNING):
        end(number)


def run(words, more):
    """The status of a run that meets more variables, none where it took too long, and what it said. CI isn't one:
    what wants something that isn't there is passed over by the list."""
    environment = {name: value for name, value in os.environ.items() if name != "CI"} | more
    with tempfile.TemporaryFile("w+", errors="replace") as said:
        ran = subprocess.Popen(
            words,
            env=environment,
            stdin=subprocess.DEVNULL,
            stdout=subprocess.DEVNULL,
            stderr=said,
            start_new_session=True,
        )
        RUNNING.add(ran.pid)
        try:
            status = ran.wait(SECONDS)
        except subprocess.TimeoutExpired:
            status = None
        end(ran.pid)
        ran.wait()
        RUNNING.discard(ran.pid)
        said.seek(0)
        return status, said.read()


def tried(file, tests, more, change=None):
    """The verdict of tests of a file of tests/, and what they said, in a copy where the text of a file may be
    another one. Those that can't begin are tried once more."""
    with copy() as room:
        if change:
            exchange(room / change[0], change[1])
        words = [sys.executable, room / "tests" / file, "-f", *tests]
        status, said = run(words, more)
        if has_not_begun(said):
            status, said = run(words, more)
    return verdict(status, said), said
