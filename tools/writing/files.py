"""Files that are written whole, or not at all."""
import io
import os
import stat
import tempfile


def keep(path: str | os.PathLike[str], data: bytes) -> None:
    """Writes a file whole, or leaves what was there. A device or a pipe is written through, and a link stays one."""
    path = os.fspath(path)
    if is_other(path):
        with open(path, "wb", buffering=0) as file:
            write_all(file, data)
    else:
        replace(os.path.realpath(path), data)


def is_other(path: str) -> bool:
    """Whether something is there that is no plain file."""
    try:
        return not stat.S_ISREG(os.stat(path).st_mode)
    except FileNotFoundError:
        return False


def write_all(file: io.FileIO, data: bytes) -> None:
    rest = memoryview(data)
    while rest:
        rest = rest[file.write(rest) :]


def replace(path: str, data: bytes) -> None:
    handle, name = tempfile.mkstemp(dir=os.path.dirname(path), prefix=".framedbg-")
    try:
        with os.fdopen(handle, "wb") as file:
            file.write(data)
        os.chmod(name, 0o666 & ~umask())
        os.replace(name, path)
    except BaseException:
        os.unlink(name)
        raise


def umask() -> int:
    mask = os.umask(0)
    os.umask(mask)
    return mask
