"""What framedbg wants of a capture, and the first member that isn't so, in the order in which framedbg looks."""
import difflib
import itertools
import re
from collections.abc import Callable, Iterable, Sequence
from typing import Any

from captures import (
    ALPHA_FACTORS,
    CULLS,
    FACTORS,
    FARTHEST,
    FUNCTIONS,
    INTERPOLATIONS,
    LEAST_EDGE,
    MOST_CORNER,
    MOST_CORNERS,
    MOST_EDGE,
    MOST_EVENTS,
    MOST_NAME,
    MOST_POSITION,
    MOST_SIDE,
    OPERATIONS,
    PICTURE,
    SINCE_TWO,
    Event,
    unspelled,
)

from .json_text import Other

Path = tuple[str | int, ...]  # names of members and numbers of items, from the capture down
Owner = dict[str, Any]  # whose member is looked at

MOST_COMPARED = 1000  # names that a misspelt one is compared with
FAULTS = {
    1: "too long",
    2: "not json",
    3: "not a capture",
    4: "version",
    5: "size",
    6: "too many events",
    7: "unknown event",
    8: "bad field",
}


class Wrong(Exception):
    """A fault of framedbg's list, at a path, and why."""

    def __init__(self, fault: int, path: Path, why: str) -> None:
        super().__init__(why)
        self.fault, self.path = fault, path

    @property
    def event(self) -> int | None:
        """The number of the event, from 1, or None."""
        number = self.path[1] if self.fault >= 7 else None
        return number + 1 if isinstance(number, int) else None


def check(capture: Any) -> None:
    """Raises Wrong where the capture is refused."""
    if not isinstance(capture, dict):
        raise Wrong(3, (), f"a capture is an object; this is {told(capture)}")
    if capture.get("format") != "framedbg":
        raise missing_or(3, capture, (), "format", 'the text "framedbg" is wanted')
    if not isinstance(capture.get("events"), list):
        raise missing_or(3, capture, (), "events", "an array is wanted")
    if not is_whole(capture.get("version"), 1, 3):
        raise missing_or(4, capture, (), "version", "1, 2 or 3 is wanted")
    for name in ("width", "height"):
        if not is_whole(capture.get(name), 1, MOST_SIDE):
            raise missing_or(5, capture, (), name, f"a whole number from 1 to {MOST_SIDE} is wanted")
    events = capture["events"]
    if len(events) > MOST_EVENTS:
        raise Wrong(6, ("events",), f"{len(events)} events are more than {MOST_EVENTS}")
    for number, event in enumerate(events):
        check_event(event, capture["version"], ("events", number))


def check_event(event: Any, version: int, path: Path) -> None:
    if not isinstance(event, dict):
        raise Wrong(8, path, f"an event is an object; this is {told(event)}")
    kind = event.get("kind")
    if not isinstance(kind, str):
        raise missing_or(8, event, path, "kind", "a text is wanted")
    kinds = KINDS if version > 1 else {name: rule for name, rule in KINDS.items() if name not in SINCE_TWO}
    if kind not in kinds:
        why = f'"{kind}" comes with version 2' if kind in SINCE_TWO else f'there is no kind "{kind}"{near(kind, kinds)}'
        raise Wrong(7, (*path, "kind"), why)
    kinds[kind](event, version, path)


# ---- The kinds of events ------------------------------------------------------------------------------------


def clear(event: Event, _: int, path: Path) -> None:
    colour(event, path)


def raster(event: Event, _: int, path: Path) -> None:
    one_of(event, path, "cull", CULLS)
    flag(event, path, "front_ccw")
    flag(event, path, "scissor")


def scissor(event: Event, _: int, path: Path) -> None:
    whole_numbers(event, path, "rect", 4, LEAST_EDGE, MOST_EDGE)


def blend(event: Event, _: int, path: Path) -> None:
    flag(event, path, "enable")
    for name in ("rgb", "alpha"):
        blend_part(array(event, path, name, 3), (*path, name))
    whole(event, path, "mask", 0, 15)
    for i in (0, 1):
        if event["alpha"][i] not in ALPHA_FACTORS:
            raise Wrong(8, (*path, "alpha", i), f"{event['alpha'][i]} is a colour, and the alpha part has none")


def blend_part(part: list[Any], path: Path) -> None:
    for i, allowed in enumerate((FACTORS, FACTORS, OPERATIONS)):
        if not isinstance(part[i], str) or part[i] not in allowed:
            raise Wrong(
                8,
                (*path, i),
                f"{'a factor' if i < 2 else 'an operation'} is wanted, not {told(part[i])}{near(part[i], allowed)}",
            )


def draw(event: Event, version: int, path: Path) -> None:
    has_picture = event.get("interp") == PICTURE
    if has_picture and version < 3:
        raise Wrong(
            8, (*path, "interp"), f'"{PICTURE}" comes with version 3: one of {", ".join(INTERPOLATIONS)} is wanted'
        )
    if has_picture:
        picture(event, path)
    else:
        one_of(event, path, "interp", (*INTERPOLATIONS, PICTURE) if version == 3 else INTERPOLATIONS)
    vertices = array(event, path, "vertices")
    for number, corner in enumerate(vertices):
        vertex(corner, version, (*path, "vertices", number))
        if not has_picture:
            colour(corner, (*path, "vertices", number))
    indices = array(event, path, "indices") if "indices" in event else []
    for number, index in enumerate(indices):
        if not is_whole(index, 0, (1 << 32) - 1):
            raise Wrong(8, (*path, "indices", number), f"a vertex' number is wanted, not {told(index)}")
    for name, some in (("vertices", vertices), ("indices", indices)):
        if len(some) > MOST_CORNERS:
            raise Wrong(8, (*path, name), f"{len(some)} are more than {MOST_CORNERS}")
    for number, index in enumerate(indices):
        if index >= len(vertices):
            raise Wrong(
                8, (*path, "indices", number), f"{index} names no vertex: the draw has {len(vertices)}, numbered from 0"
            )


def vertex(corner: Any, version: int, path: Path) -> None:
    if not isinstance(corner, dict):
        raise Wrong(8, path, f"a vertex is an object; this is {told(corner)}")
    for name in ("x", "y"):
        whole(corner, path, name, -MOST_POSITION, MOST_POSITION, " of 1/65536 pixel")
    if version > 1:
        whole(corner, path, "z", 0, FARTHEST)


def picture(event: Event, path: Path) -> None:
    box = event.get("picture")
    if not isinstance(box, dict):
        raise missing_or(8, event, path, "picture", "an object is wanted")
    path = (*path, "picture")
    for name in ("left", "top"):
        whole(box, path, name, 0, MOST_CORNER, " of pixels")
    for name in ("width", "height"):
        whole(box, path, name, 1, MOST_SIDE)
    size = f"{box['width']} by {box['height']} texels"
    in_base64(box, path, "texels", 4 * box["width"] * box["height"], f"four for each of {size}")
    if "holes" in box:
        in_base64(box, path, "holes", -(-box["width"] * box["height"] // 8), f"a bit for each of {size}")


def marker(event: Event, _: int, path: Path) -> None:
    name = event.get("name")
    if not isinstance(name, str):
        raise missing_or(8, event, path, "name", "a text is wanted")
    if len(name.encode()) > MOST_NAME:
        raise Wrong(8, (*path, "name"), f"the name's {len(name.encode())} bytes are more than {MOST_NAME}")
    if any(ord(c) < 0x20 or ord(c) == 0x7F for c in name):
        raise Wrong(8, (*path, "name"), "the name has a control character")


def depth(event: Event, _: int, path: Path) -> None:
    flag(event, path, "enable")
    flag(event, path, "write")
    one_of(event, path, "func", FUNCTIONS)


def depth_clear(event: Event, _: int, path: Path) -> None:
    whole(event, path, "depth", 0, FARTHEST)


KINDS: dict[str, Callable[[Event, int, Path], None]] = {
    "clear": clear,
    "raster": raster,
    "scissor": scissor,
    "blend": blend,
    "factor": clear,
    "draw": draw,
    "marker": marker,
    "depth": depth,
    "depth_clear": depth_clear,
}


# ---- Members ------------------------------------------------------------------------------------------------


def is_whole(value: Any, low: int, high: int) -> bool:
    return type(value) is int and low <= value <= high


def whole(owner: Owner, path: Path, name: str, low: int, high: int, unit: str = "") -> None:
    if not is_whole(owner.get(name), low, high):
        raise missing_or(8, owner, path, name, f"a whole number from {low} to {high}{unit} is wanted")


def flag(owner: Owner, path: Path, name: str) -> None:
    if not isinstance(owner.get(name), bool):
        raise missing_or(8, owner, path, name, "true or false is wanted")


def one_of(owner: Owner, path: Path, name: str, allowed: Sequence[str]) -> None:
    value = owner.get(name)
    if not isinstance(value, str) or value not in allowed:
        raise missing_or(8, owner, path, name, f"one of {', '.join(allowed)} is wanted{near(value, allowed)}")


def array(owner: Owner, path: Path, name: str, length: int | None = None) -> list[Any]:
    value = owner.get(name)
    if not isinstance(value, list) or length not in (None, len(value)):
        raise missing_or(
            8, owner, path, name, "an array is wanted" if length is None else f"an array of {length} is wanted"
        )
    return value


def whole_numbers(owner: Owner, path: Path, name: str, length: int, low: int, high: int) -> None:
    for i, value in enumerate(array(owner, path, name, length)):
        if not is_whole(value, low, high):
            raise Wrong(8, (*path, name, i), f"a whole number from {low} to {high} is wanted, not {told(value)}")


def colour(owner: Owner, path: Path) -> None:
    whole_numbers(owner, path, "color", 4, 0, 255)


def in_base64(owner: Owner, path: Path, name: str, length: int, why: str) -> None:
    """Bytes as a text, in its one spelling; the reason why it isn't names the first character that is at fault."""
    text = owner.get(name)
    if not isinstance(text, str):
        raise missing_or(8, owner, path, name, f"a text in base64 is wanted, of {counted(length)}")
    strange = re.search("[^A-Za-z0-9+/](?![=]*$)|[^A-Za-z0-9+/=]", text)
    if strange:
        raise Wrong(
            8,
            (*path, name),
            f"character {strange.start()} of the text is {strange[0]!r}, which is none of base64's (A to Z, a "
            f"to z, 0 to 9, + and /)",
        )
    if len(text) % 4 or text.count("=") > 2:
        has = "1 character isn't" if len(text) == 1 else f"{len(text)} characters aren't"
        raise Wrong(8, (*path, name), f"the text's {has} padded by = to whole fours, as base64 is")
    data = unspelled(text)
    if data is None:
        why = (
            f"behind the last byte of the text stand bits that aren't zero: base64 spells these bytes with "
            f"another last letter before {text[-1]}"
        )
        raise Wrong(8, (*path, name), why)
    if len(data) != length:
        raise Wrong(
            8,
            (*path, name),
            f"{counted(length)} in base64 {'is' if length == 1 else 'are'} wanted, {why}; the text has {len(data)}",
        )


def counted(bytes_: int) -> str:
    return "1 byte" if bytes_ == 1 else f"{bytes_} bytes"


# ---- Words --------------------------------------------------------------------------------------------------


def missing_or(fault: int, owner: Owner, path: Path, name: str, wanted: str) -> Wrong:
    """A member that isn't there, or isn't as it should be."""
    if name in owner:
        return Wrong(fault, (*path, name), f"{wanted}, not {told(owner[name])}")
    return Wrong(fault, path, f"the member {name} is missing: {wanted}{near(name, owner)}")


def near(value: Any, allowed: Iterable[str]) -> str:
    """The name that was meant perhaps, looked for among the first of them."""
    if not isinstance(value, str) or len(value) > MOST_NAME:
        return ""
    names = {name.lower(): name for name in itertools.islice(allowed, MOST_COMPARED)}
    found = difflib.get_close_matches(value.lower(), names, 1)
    return f" (did you mean {names[found[0]]}?)" if found else ""


def told(value: Any) -> str:
    if value is None:
        return "null"
    if isinstance(value, bool):
        return str(value).lower()
    if isinstance(value, str):
        return f'the text "{value if len(value) <= 24 else value[:20] + " .."}"'
    if isinstance(value, list):
        return f"an array of {len(value)}"
    if isinstance(value, dict):
        return "an object"
    return repr(value) if isinstance(value, Other) else str(value)
