"""fdb --diff: two captures, event by event and picture by picture."""
import argparse
import sys

from framedbg_client import Client, Ended, Garbled, Refusal

from .batch import INTERRUPTED, told
from .contents import Contents
from .differing import steps_through, tell_events, tell_pictures
from .faults import status_of
from .frame import DebuggedFrame
from .screen import Screen
from .telling import printable

ALIKE, DIFFER, REFUSED, FAULT, MEMORY = 0, 1, 2, 3, 5


def run(given: argparse.Namespace) -> int:
    """The status of a run, as diff(1) has them: above 1 there was trouble."""
    clients: list[Client] = []
    try:
        for path in given.diff:
            clients.append(Client(path, given.program, given.workers))
        frames = [DebuggedFrame(client) for client in clients]
        return compared(frames, [Contents(path) for path in given.diff], Screen(sys.stdout))
    except OSError as fault:
        return told(f"{fault.filename}: {fault.strerror}" if fault.filename else fault, FAULT)
    except Ended as ended:
        return told(ended.said or ended, max(status_of(ended), REFUSED), plain=True)
    except (Garbled, Refusal, ValueError) as fault:
        return told(fault, FAULT)
    except MemoryError:
        return told("memory", MEMORY)
    except KeyboardInterrupt:
        return told("interrupted", INTERRUPTED)
    finally:
        for client in clients:
            client.connection.end(at_once=client.is_asking)


def compared(frames: list[DebuggedFrame], contents: list[Contents], screen: Screen) -> int:
    one, other = contents
    heads = [f"size: {' by '.join(map(str, one.size))}, and then {' by '.join(map(str, other.size))}"] * (
        one.size != other.size
    )
    heads += [f"version: {one.version}, and then {other.version}"] * (one.version != other.version)
    if not heads and one.keys == other.keys:
        return ALIKE
    steps, moves = steps_through(frames, contents)
    lines, counts = tell_events(frames, contents, steps, moves)
    for line in [
        *heads,
        *lines,
        ", ".join(f"{counts[name]} {name}" for name in ("same", "changed", "moved", "went", "came")),
    ]:
        screen.write(printable(line))
    same = {(i, j) for i, j in steps if i and j and one.keys[i - 1] == other.keys[j - 1]}
    for line in ["pictures have other sizes"] if one.size != other.size else tell_pictures(frames, steps, same):
        screen.write(line)
    return DIFFER
