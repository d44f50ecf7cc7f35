"""What the member `source` of an event tells of the program that it comes from, as lines. A capture is somebody
else's file: anything may stand there.

tools/viewer/page/origin.js says the same in the browser.
"""
from typing import Any

MOST_LISTED, MOST_NAME = 16, 200  # of calls, textures and places of a callstack; characters of a name


def lines(source: Any) -> list[str]:
    """[text]: the call, those that set a part of the state, shaders, textures, and where in the program the call
    stands."""
    if not isinstance(source, dict):
        return []
    told = [f"call {words(source.get('event'), source.get('name'))}"] if is_number(source.get("event")) else []
    told += [
        f"set by {words(*call)}"
        for call in listed(source, "set_by")
        if isinstance(call, list) and len(call) == 2 and is_number(call[0])
    ]
    shaders = source.get("shaders")
    told += (
        [f"{name(stage)} shader {name(shader)}" for stage, shader in list(shaders.items())[:MOST_LISTED]]
        if isinstance(shaders, dict)
        else []
    )
    reads = {
        one.get("target"): one
        for one in listed(source, "reads")
        if isinstance(one, dict) and is_number(one.get("target"))
    }
    told += [
        texture(one, reads) for one in listed(source, "textures") if isinstance(one, dict) and is_number(one.get("id"))
    ]
    return told + [f"at {name(place)}" for place in listed(source, "callstack")]


def texture(one: dict[str, Any], reads: dict[Any, dict[str, Any]]) -> str:
    """reads texture 35 "lit", 320 by 240, made by target 35, at event 21"""
    size = (
        f", {one['width']} by {one['height']}" if is_number(one.get("width")) and is_number(one.get("height")) else ""
    )
    made = reads.get(one["id"], {})
    by = f", made by target {made['target']}, at event {made['event']}" if is_number(made.get("event")) else ""
    return f"reads texture {one['id']} {name(one.get('name'))}{size}{by}".replace("  ", " ").replace(" ,", ",").rstrip()


def listed(source: dict[str, Any], member: str) -> list[Any]:
    found = source.get(member)
    return found[:MOST_LISTED] if isinstance(found, list) else []


def is_number(value: Any) -> bool:
    return type(value) is int and 0 <= value < 1 << 64


def words(number: Any, text: Any) -> str:
    return f"{number} {name(text)}".rstrip()


def name(text: Any) -> str:
    return text[:MOST_NAME] if isinstance(text, str) else ""
