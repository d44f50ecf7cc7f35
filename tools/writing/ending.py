"""How a tool ends: with its status, and where it can't write or is interrupted with one line that says so.

It is imported before all else, by a Python that may be too old for the rest. From then on a Ctrl-C is told, while the
other modules are read.
"""
import errno
import io
import os
import signal
import sys

TYPE_CHECKING = False  # nothing more is imported before a Ctrl-C is told, and an old Python passes over texts
if TYPE_CHECKING:
    import typing
    from _typeshed import ReadableBuffer

    Main = typing.Callable[[], typing.Optional[int]]  # a tool's own function: its status, or none for 0

LEAST = (3, 10)  # the Python that tools want
FAULT, WRITING, INTERRUPTED = 1, 3, 130
OPENED = (os.O_RDONLY, os.O_WRONLY, os.O_WRONLY)


class Unwritable(BaseException):
    """Standard output takes no more; `fault` says why. It is no Exception: nobody takes it for a fault of a file."""

    def __init__(self, fault: OSError) -> None:
        super().__init__(fault)
        self.fault = fault


class Outlet(io.FileIO):
    """A descriptor for output, whose faults are Unwritable."""

    def write(self, data: "ReadableBuffer") -> int:
        try:
            return super().write(data)
        except OSError as fault:
            raise Unwritable(fault) from None


def outlet(descriptor: int, like: "typing.TextIO") -> io.TextIOWrapper:
    """A stream of text over a descriptor, of the encoding of another."""
    raw = Outlet(descriptor, "w", closefd=False)
    return io.TextIOWrapper(io.BufferedWriter(raw), like.encoding, like.errors, line_buffering=raw.isatty())


def ends_as(name: str, main: "Main", writing: int = WRITING) -> "typing.NoReturn":
    """Ends the process with what `main` gives: a status, none for 0, or what it leaves by sys.exit. A tool may have a
    status of its own for what it can't write."""
    status = status_of(name, main, writing)
    os.dup2(os.open(os.devnull, os.O_WRONLY), 1)  # what is left to be written can't be, or there is nothing
    sys.exit(status)


def status_of(name: str, main: "Main", writing: int = WRITING) -> int:
    """The status that a tool comes to, once all is written."""
    try:
        hear_interrupts()
        open_streams()
        status = left(main)
        sys.stdout.flush()
        return status
    except KeyboardInterrupt:
        return told(name, "interrupted", INTERRUPTED)
    except Unwritable as unwritable:
        is_left = unwritable.fault.errno == errno.EPIPE  # who read it has gone, and wants to hear nothing
        return writing if is_left else told(name, "standard output: " + unwritable.fault.strerror, writing)


def hear_interrupts() -> None:
    """From here on a Ctrl-C is a KeyboardInterrupt."""
    if signal.getsignal(signal.SIGINT) is leave:
        signal.signal(signal.SIGINT, signal.default_int_handler)


def left(main: "Main") -> int:
    try:
        return main() or 0
    except SystemExit as end:
        if isinstance(end.code, str):
            return told("", end.code, FAULT)
        return end.code or 0


def told(name: str, why: str, status: int) -> int:
    try:
        print(": ".join(filter(None, (name, why))), file=sys.stderr, flush=True)
    except OSError:
        pass  # there is nobody to be told
    return status


def open_streams() -> None:
    """Standard output as an Outlet. What is closed of the three is opened: no file of the tool takes its place."""
    closed = [number for number, how in enumerate(OPENED) if is_closed(number) and os.open(os.devnull, how) == number]
    if sys.stdin is None:
        sys.stdin = open(0, closefd=False)
    if sys.stderr is None:
        sys.stderr = open(2, "w", closefd=False)
    if 1 in closed:
        raise Unwritable(OSError(errno.EBADF, "it is closed"))
    if sys.stdout is not None and not isinstance(getattr(sys.stdout.buffer, "raw", None), Outlet):
        sys.stdout.flush()
        sys.stdout = outlet(1, sys.stdout)


def is_closed(number: int) -> bool:
    try:
        os.fstat(number)
    except OSError:
        return True
    return False


def leave(*_: object) -> "typing.NoReturn":
    """What a Ctrl-C does while a tool's modules are read, and nothing has begun."""
    told(own_name(), "interrupted", INTERRUPTED)
    os._exit(INTERRUPTED)


def own_name() -> str:
    return os.path.basename(sys.argv[0])


if sys.version_info < LEAST:
    sys.exit("%s: Python %d.%d or newer is wanted, and this is %d.%d" % (own_name(), *LEAST, *sys.version_info[:2]))
HERE = os.path.dirname(os.path.realpath(__file__))
IS_TOOL = os.path.dirname(os.path.realpath(sys.argv[0])) == os.path.dirname(HERE)  # and no test that imports this
if IS_TOOL and signal.getsignal(signal.SIGINT) is signal.default_int_handler:  # one that is ignored stays so
    signal.signal(signal.SIGINT, leave)
