"""What a driver ignored or mixed up in one event, by framedbg-blame."""
import argparse
import json
import pathlib
import tempfile
from typing import Any, NamedTuple

from blaming import telling_json
from blaming.running import found
from framedbg_client import Image
from writing.counting import counted

from .judging import Judgement

SECONDS, PROCESSES = 20.0, 2


class Answer(NamedTuple):
    text: str
    value: dict[str, Any]


def blamed(program: str, capture: dict[str, Any], judgement: Judgement, tolerance: int) -> Answer:
    """The change after which framedbg draws the event as the driver did. The capture ends with it, and what was
    before is framedbg's own."""
    allowed = (max(1, tolerance),) * 4
    with tempfile.TemporaryDirectory(prefix="framedbg-driver-") as folder:
        cut, drawn = pathlib.Path(folder, "cut.json"), pathlib.Path(folder, "drawn.pam")
        cut.write_text(json.dumps(capture | {"events": capture["events"][: judgement.number]}))
        drawn.write_bytes(Image(capture["width"], capture["height"], judgement.image).pam())
        given = argparse.Namespace(program=program, tolerance=allowed, seconds=SECONDS, processes=PROCESSES)
        _, outcome = found(str(cut), str(drawn), given, is_quiet=True)
    return answer_of(judgement.number, telling_json.value_of(outcome))


def answer_of(number: int, value: dict[str, Any]) -> Answer:
    best = value["changes"][0] if value["changes"] else None
    told = {
        "differ": value["differ"],
        "change": best and {"event": best["event"], "change": best["change"], "differ": best["differ"]},
    }
    if not best:
        left = f"{counted(value['differ'])} differ{'s' if value['differ'] == 1 else ''}"
        return Answer(f"no change that was tried explains event {number}: {left}", told)
    after = (
        "no pixel differs after it"
        if not best["differ"]
        else f"{best['differ']:,} of {value['differ']:,} pixels still differ"
    )
    return Answer(f"the driver drew event {number} as with event {best['event']}, {best['change']}: {after}", told)
