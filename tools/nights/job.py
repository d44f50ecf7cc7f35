"""One job: a capture compared with its picture, and blamed where they differ. Its result and its pictures are kept."""
import argparse
import time
from typing import Any

from blaming import report, telling_json
from blaming.running import found
from blaming.searching import Outcome
from framedbg_client import Image

from .folder import Case, Results


def do(case: Case, results: Results, given: argparse.Namespace) -> None:
    """Does a case, and keeps what comes of it."""
    began = time.monotonic()
    words = argparse.Namespace(program=given.program, tolerance=given.tolerance, seconds=given.seconds, processes=1)
    frame, outcome = found(str(case.capture), str(case.picture), words, is_quiet=True)
    if outcome.wrong:
        for name, samples in (("drawn", outcome.drawn), ("wanted", outcome.wanted), ("difference", shown(outcome))):
            results.keep(case.name, f".{name}.png", Image(frame.width, frame.height, samples).png())
    value = telling_json.value_of(outcome)
    value |= {"suspects": value["suspects"][:5], "changes": value["changes"][:5]}
    results.write(
        case,
        how_of(given),
        {"report": list(report.lines(frame, outcome)), "seconds": round(time.monotonic() - began, 2), **value},
    )


def how_of(given: argparse.Namespace) -> list[Any]:
    """The words of a run on which its results depend."""
    return [list(given.tolerance), given.seconds]


def shown(outcome: Outcome) -> bytes:
    """What is drawn, dark, and white where it differs."""
    samples = bytearray(value // 4 for value in outcome.drawn)
    at = outcome.mask.find(1)
    while at >= 0:
        samples[4 * at : 4 * at + 4] = b"\xff\xff\xff\xff"
        at = outcome.mask.find(1, at + 1)
    return bytes(samples)
