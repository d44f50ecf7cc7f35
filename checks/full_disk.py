"""Devices for what writes: one on which nothing has room, as on a full disk, and one that takes all."""
import contextlib
import os
import pathlib
import stat
import tempfile

NUMBERS = os.makedev(1, 7)  # of /dev/full
OF_NULL = os.makedev(1, 3)  # of /dev/null
LACKING = "no device of its own: none can be made here"


def is_full(path):
    """Whether it is such a device. Where a container has none, somebody may have written a plain file of that name."""
    try:
        told = os.stat(path)
        if not (stat.S_ISCHR(told.st_mode) and told.st_rdev == NUMBERS):
            return False
        with open(path, "wb", buffering=0) as file:
            file.write(b"a")
    except OSError as fault:
        return fault.errno == 28
    return False


@contextlib.contextmanager
def made_device(numbers):
    """The path of a device in a folder of its own, whatever becomes of which the machine keeps its own. None where
    none can be made."""
    with tempfile.TemporaryDirectory() as folder:
        made = pathlib.Path(folder) / "device"
        try:
            os.mknod(made, stat.S_IFCHR | 0o666, numbers)
            open(made, "wb").close()
        except OSError:
            made = None
        yield made


@contextlib.contextmanager
def full_device():
    """The path of a full one: one of its own, or the machine's. None where there is none."""
    with made_device(NUMBERS) as made:
        yield next((str(path) for path in (made, "/dev/full") if path and is_full(path)), None)
