"""What the events of a capture's file are, by the members that framedbg reads."""
import hashlib
import json
import os
from collections.abc import Sequence
from typing import Any

from captures import MOST_BYTES, PICTURE, Event

MEMBERS = {  # of each kind
    "clear": ("color",),
    "raster": ("cull", "front_ccw", "scissor"),
    "scissor": ("rect",),
    "blend": ("enable", "rgb", "alpha", "mask"),
    "factor": ("color",),
    "draw": ("interp", "vertices", "indices", "picture"),
    "marker": ("name",),
    "depth": ("enable", "write", "func"),
    "depth_clear": ("depth",),
}
BOX = ("left", "top", "width", "height", "texels", "holes")  # of a picture


class Contents:
    """Of a file that framedbg has read: so it is a capture."""

    def __init__(self, path: str | os.PathLike[str]) -> None:
        with open(path, "rb") as file:
            capture = json.loads(file.read(MOST_BYTES))
        self.version, self.size = capture["version"], (capture["width"], capture["height"])
        self.events: list[Event] = capture["events"]
        self.keys = [
            hashlib.blake2b(json.dumps(self.members(number), sort_keys=True).encode(), digest_size=16).digest()
            for number in range(1, len(self.events) + 1)
        ]

    def members(self, number: int) -> dict[str, Any]:
        """Those of an event that framedbg reads."""
        event = self.events[number - 1]
        read = {name: event[name] for name in ("kind", *MEMBERS[event["kind"]]) if name in event}
        if event["kind"] == "draw":
            is_painted = event["interp"] == PICTURE
            corner = ("x", "y", *(["z"] if self.version > 1 else []), *([] if is_painted else ["color"]))
            read["vertices"] = [{name: vertex[name] for name in corner} for vertex in event["vertices"]]
            read.pop("picture", None)
            if is_painted:
                read["picture"] = {name: event["picture"][name] for name in BOX if name in event["picture"]}
        return read


def unlike(one: Event, other: Event) -> str:
    """The names of the members in which two events of a kind differ; of vertices how many do."""
    names = [name for name in MEMBERS[one["kind"]] if one.get(name) != other.get(name)]
    told = [vertices_unlike(one[name], other[name]) if name == "vertices" else name for name in names]
    return ", ".join(told) or "the same"


def vertices_unlike(one: Sequence[Any], other: Sequence[Any]) -> str:
    vertices = f"{len(one)} {'vertex' if len(one) == 1 else 'vertices'}"
    if len(one) != len(other):
        return f"{vertices}, and then {len(other)}"
    return f"{sum(a != b for a, b in zip(one, other))} of {vertices}"
