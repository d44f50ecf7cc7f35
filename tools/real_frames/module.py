"""RenderDoc's Python module, which is built for one Python, that of the system; and which ends the process where a
driver does."""
import os
import signal
import sys
import traceback
from collections.abc import Callable
from typing import NoReturn

from writing import ending

from .orphans import end_with_parent

SYSTEM_S_PYTHON = "/usr/bin/python3"
ENDED = "RenderDoc or the driver ended the process"
MISSING = "RenderDoc's Python module isn't here; on Debian: apt install renderdoc python3-renderdoc"


def is_here() -> bool:
    try:
        import renderdoc  # noqa: F401
    except ImportError:
        return False
    return True


def run_by_its_python() -> bool:
    """Where this Python lacks the module, goes on in the system's own; returns whether the module is here."""
    if is_here():
        return True
    other = os.path.realpath(SYSTEM_S_PYTHON)
    if os.path.realpath(sys.executable) != other and os.access(other, os.X_OK):
        sys.stdout.flush()
        if sys.stdout.fileno() != 1:  # it is kept apart
            os.dup2(sys.stdout.fileno(), 1)
        os.execv(SYSTEM_S_PYTHON, [SYSTEM_S_PYTHON, *sys.argv])
    return False


def guarded(tool: str, main: Callable[[], int | None]) -> NoReturn:
    """Runs a tool in a process of its own, so that a line tells where RenderDoc or a driver ended it; ends with its
    status."""
    ending.hear_interrupts()
    child = os.fork()
    if child == 0:
        end_with_parent()
        os._exit(status_of(tool, lambda: kept_apart(main)))
    try:
        status = os.waitpid(child, 0)[1]
    except KeyboardInterrupt:  # the child has it too
        status = os.waitpid(child, 0)[1]
    if os.WIFSIGNALED(status):
        sys.exit(f"{tool}: {ENDED} by {signal.Signals(os.WTERMSIG(status)).name}; try again")
    sys.exit(os.waitstatus_to_exitcode(status))


def kept_apart(main: Callable[[], int | None]) -> int | None:
    """Runs a tool whose standard output is its own: what RenderDoc, a driver or its compiler of shaders prints there
    goes to standard error."""
    sys.stdout.flush()
    sys.stdout = ending.outlet(os.dup(1), sys.stdout)
    os.dup2(2, 1)
    return main()


def status_of(tool: str, main: Callable[[], int | None]) -> int:
    """The status that a tool ends with, after it has written all."""
    try:
        return ending.status_of(tool, main)
    except OSError as fault:
        print(f"{tool}: {fault}", file=sys.stderr)
    except Exception:  # a fault of the tool itself, for its report
        traceback.print_exc()
    return ending.FAULT
