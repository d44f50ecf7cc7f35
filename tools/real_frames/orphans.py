"""No process outlives the tool that started it."""
import ctypes
import signal

DEATH_OF_PARENT = 1  # prctl's word for: send me a signal when my parent has ended


def end_with_parent() -> None:
    """For a process that was just started: it ends when the one that started it has ended, however that did."""
    ctypes.CDLL(None).prctl(DEATH_OF_PARENT, signal.SIGTERM)
