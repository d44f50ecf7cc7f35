"""All colour targets of one frame, each with a capture of its own in one folder. frame.json says which they are, and
which draw reads which of them.

{"format": "framedbg frame", "shown": 76, "targets": [{"target": 35, "name": "lit", "capture": "target_35.json",
"width": 320, "height": 240}, ..],
 "reads": [{"target": 76, "position": 5, "reads": 35, "made": 21, "at": 9, "laid": "straight"}, ..]}: event 5 of the
capture of target 76 is a draw that reads target 35, which the program's call 21 wrote last: that capture stands so at
position 9. `laid` is there where the draw lays the whole of the one over the whole of the other, `straight` or
`upside down`.
"""
import json
import os
import pathlib
from collections.abc import Iterator, Sequence
from typing import Any

FRAME, FORMAT = "frame.json", "framedbg frame"
MOST_BYTES, MOST_TARGETS = 16 << 20, 64
LAID = "straight", "upside down"


class Unreadable(Exception):
    """A folder whose frame.json isn't one."""


def file_of(target: int) -> str:
    return f"target_{target}.json"


def made(shown: int, captures: Sequence[tuple[int, str, dict[str, Any]]]) -> dict[str, Any]:
    """frame.json of [(target, its name, its capture)]."""
    ends = {target: ends_of(capture) for target, _, capture in captures}
    return {
        "format": FORMAT,
        "shown": shown,
        "targets": [
            {
                "target": target,
                "name": name,
                "capture": file_of(target),
                "width": capture["width"],
                "height": capture["height"],
            }
            for target, name, capture in captures
        ],
        "reads": [read for target, _, capture in captures for read in reads_of(target, capture, ends)],
    }


def bare(capture: dict[str, Any]) -> dict[str, Any]:
    """What of a capture says which draw reads what, without its pictures."""
    return {**capture, "events": [{"kind": event["kind"], "source": event["source"]} for event in capture["events"]]}


def ends_of(capture: dict[str, Any]) -> list[tuple[int, int]]:
    """[(the program's call, the position after its last event)], in their order."""
    ends = {}
    for position, event in enumerate(capture["events"], 1):
        ends[event["source"]["event"]] = position
    return sorted(ends.items())


def reads_of(target: int, capture: dict[str, Any], ends: dict[int, list[tuple[int, int]]]) -> Iterator[dict[str, int]]:
    for position, event in enumerate(capture["events"], 1):
        for read in event["source"].get("reads", ()) if event["kind"] == "draw" else ():
            at = [end for call, end in ends.get(read["target"], ()) if call <= read["event"]]
            if at and read["target"] != target:
                laid = {"laid": read["laid"]} if "laid" in read else {}
                yield {
                    "target": target,
                    "position": position,
                    "reads": read["target"],
                    "made": read["event"],
                    "at": at[-1],
                    **laid,
                }


def sizes_of(frame: dict[str, Any], read: dict[str, Any]) -> list[tuple[int, int] | None]:
    """The sizes of the target that reads and of the one that is read, each (width, height) or None."""
    known = {one["target"]: (one.get("width"), one.get("height")) for one in frame["targets"]}
    return [
        size if size and all(is_number(side) and side for side in size) else None
        for size in (known.get(read["target"]), known.get(read["reads"]))
    ]


def texel(frame: dict[str, Any], read: dict[str, Any], x: int, y: int) -> tuple[int, int] | None:
    """The pixel of the target that is read which a pixel of the one that reads it shows; None where that isn't told."""
    own, other = sizes_of(frame, read)
    if read.get("laid") not in LAID or not (own and other and x < own[0] and y < own[1]):
        return None
    down = 2 * y + 1 if read["laid"] == LAID[0] else 2 * (own[1] - y) - 1
    return (2 * x + 1) * other[0] // (2 * own[0]), down * other[1] // (2 * own[1])


def is_number(value: Any) -> bool:
    return type(value) is int and value >= 0


def read(folder: str | os.PathLike[str]) -> dict[str, Any]:
    """What a folder's frame.json says; Unreadable where it says none of it. Its captures lie in the same folder."""
    path = pathlib.Path(folder) / FRAME
    try:
        with open(path, "rb") as file:
            frame = json.loads(file.read(MOST_BYTES))
        targets, reads = frame["targets"], frame["reads"]
        ok = (
            frame["format"] == FORMAT
            and 1 <= len(targets) <= MOST_TARGETS
            and all(is_number(one["target"]) and os.path.basename(one["capture"]) == one["capture"] for one in targets)
        )
        ok = ok and all(is_number(one[name]) for one in reads for name in ("target", "position", "reads", "made", "at"))
    except OSError as fault:
        raise Unreadable(f"{path}: {fault.strerror}") from None
    except (ValueError, KeyError, TypeError, RecursionError):
        ok = False
    if not ok:
        raise Unreadable(f"{path} is no list of a frame's targets")
    return frame


def beside(capture: str | os.PathLike[str]) -> tuple[dict[str, Any], int] | None:
    """(what frame.json beside a capture says, the capture's own target), or None where it isn't one of those."""
    path = pathlib.Path(capture)
    try:
        frame = read(path.parent)
    except Unreadable:
        return None
    return next(((frame, one["target"]) for one in frame["targets"] if one["capture"] == path.name), None)
