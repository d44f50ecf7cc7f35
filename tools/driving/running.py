"""A run of framedbg-driver, from its words to its status."""
import argparse
import signal
import sys

from explaining.printable import printable
from framedbg_client import Ended, Garbled, Refusal

from . import comparing, drawing, listing, reducing, rules, trying
from .faults import INTERRUPTED, READING, Fault

COMMANDS = {
    "draw": drawing.run,
    "compare": comparing.run,
    "try": trying.run,
    "reduce": reducing.run,
    "rules": rules.run,
}


def run(given: argparse.Namespace) -> int:
    """The status of a run. What went wrong is told on standard error, and nothing is left behind."""
    sys.stdout.reconfigure(errors="backslashreplace")  # type: ignore[attr-defined]  # an io.TextIOWrapper has it
    signal.signal(signal.SIGTERM, signal.default_int_handler)
    try:
        return listing.run(given) if given.list else COMMANDS[given.command](given)
    except KeyboardInterrupt:
        return told("interrupted", INTERRUPTED)
    except Fault as fault:
        return told(fault, fault.status)
    except (Ended, Garbled, Refusal) as fault:
        return told(fault, READING)
    except OSError as fault:
        return told(fault.strerror or fault, READING)
    except MemoryError:
        return told("memory", READING)


def told(why: object, status: int) -> int:
    print(f"framedbg-driver: {printable(str(why))}", file=sys.stderr)
    return status
