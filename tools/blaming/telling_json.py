"""The outcome as JSON, for scripts."""
import json
from collections.abc import Sequence
from typing import Any

from .alone import Alone
from .evidence import Suspect
from .searching import Outcome
from .trying import Tried
from .verdicts import Verdict, verdicts_of


def value_of(outcome: Outcome) -> dict[str, Any]:
    """`differ`, `suspects`, `changes` (the best first of each), `findings`, and how much was tried."""
    return {
        "differ": outcome.wrong,
        "pixels": outcome.width * outcome.height,
        "mended": outcome.is_mended,
        "tried": outcome.count,
        "over": outcome.is_over,
        "suspects": [suspect_of(outcome, suspect) for suspect in outcome.suspects],
        "changes": [change_of(one) for one in outcome.changes],
        "findings": [finding_of(verdict) for verdict in verdicts_of(outcome)],
    }


def suspect_of(outcome: Outcome, suspect: Suspect) -> dict[str, Any]:
    event = outcome.events[suspect.event - 1]
    told: dict[str, Any] = {
        "event": suspect.event,
        "kind": event.kind,
        "line": " ".join([event.kind, *event.words]),
        "weight": round(suspect.weight, 1),
        "reasons": [{"text": text, "pixels": count} for text, count in suspect.reasons.most_common(4)],
    }
    alone = outcome.alone.get(suspect.event)
    if alone is not None and alone.is_whole:
        still = alone.of_clusters[-1]
        told["without"] = {"right": outcome.wrong - still, "wrong": alone.left - still}
    return told


def change_of(one: Tried) -> dict[str, Any]:
    return {
        "event": one.change.event,
        "change": one.change.says,
        "differ": one.left,
        "kind": one.change.kind,
        "also": list(one.change.also),
    }


def finding_of(verdict: Verdict) -> dict[str, Any]:
    told: dict[str, Any] = {
        "number": verdict.number,
        "pixels": verdict.pixels,
        "box": list(verdict.box),
        "pixel": list(verdict.place),
        "event": verdict.suspect and verdict.suspect.event,
    }
    return told | ({"change": verdict.change.change.says, "left": verdict.left} if verdict.change else {})


def text_of(outcome: Outcome, alone: Sequence[Alone] = ()) -> str:
    """The outcome; and where events were judged alone those that differ, of which it tells the first."""
    value = value_of(outcome)
    if alone:
        value["alone"] = [{"event": one.number, "differ": one.count} for one in alone]
    return json.dumps(value, indent=1, ensure_ascii=False)
