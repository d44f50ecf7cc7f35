"""Faults that a driver might have, each a change of the events that it gets: for tests of what finds them."""
from collections.abc import Callable
from typing import Any

from captures import Event

Change = Callable[[Event], Event]

OTHER_FACTORS = {"INV_SRC_ALPHA": "ONE", "INV_DEST_ALPHA": "ONE", "SRC_ALPHA": "SRC_COLOR", "BLEND_FACTOR": "ONE"}
OTHER_FUNCTIONS = {"LESS": "LESS_EQUAL", "LESS_EQUAL": "LESS", "GREATER": "GREATER_EQUAL", "EQUAL": "ALWAYS"}
OTHER_CULLS = {"front": "back", "back": "front", "none": "none"}
FOUR_BITS = 1 << 12  # in 1/65536 pixel


def setting(kind: str, **parts: Any) -> Change:
    """The fault that parts of a state are always the same."""
    return lambda event: event | parts if event["kind"] == kind else event


def of_kind(kind: str) -> Callable[[Change], Change]:
    """Has a change see the events of a kind alone."""

    def made(change: Change) -> Change:
        return lambda event: change(event) if event["kind"] == kind else event

    return made


@of_kind("blend")
def other_factor(event: Event) -> Event:
    source, there, operation = event["rgb"]
    return event | {"rgb": [source, OTHER_FACTORS.get(there, there), operation]}


@of_kind("blend")
def alpha_like_colour(event: Event) -> Event:
    return event | {"alpha": [word.replace("_COLOR", "_ALPHA") for word in event["rgb"]]}


@of_kind("scissor")
def wider_scissor(event: Event) -> Event:
    left, top, right, bottom = event["rect"]
    return event | {"rect": [left, top, right + 1, bottom]}


@of_kind("draw")
def last_corner(event: Event) -> Event:
    if event["interp"] != "flat":
        return event
    order = event.get("indices", list(range(len(event["vertices"]))))
    return event | {
        "indices": [
            corner for at in range(0, len(order) - 2, 3) for corner in (order[at + 2], order[at], order[at + 1])
        ]
    }


@of_kind("draw")
def four_bits(event: Event) -> Event:
    moved = [
        vertex | {name: (vertex[name] + FOUR_BITS // 2) // FOUR_BITS * FOUR_BITS for name in "xy"}
        for vertex in event["vertices"]
    ]
    return event | {"vertices": moved}


PLANTS = {
    "destination factor": other_factor,
    "alpha blended like colour": alpha_like_colour,
    "mask ignored": setting("blend", mask=15),
    "blending ignored": setting("blend", enable=False),
    "scissor one wider": wider_scissor,
    "scissor ignored": setting("raster", scissor=False),
    "cull exchanged": of_kind("raster")(lambda event: event | {"cull": OTHER_CULLS[event["cull"]]}),
    "front face ignored": setting("raster", front_ccw=False),
    "flat by last corner": last_corner,
    "depth function": of_kind("depth")(
        lambda event: event | {"func": OTHER_FUNCTIONS.get(event["func"], event["func"])}
    ),
    "depth writes always": setting("depth", write=True),
    "depth test ignored": setting("depth", enable=False),
    "linear drawn flat": setting("draw", interp="flat"),
    "factor ignored": setting("factor", color=[255] * 4),
    "four subpixel bits": four_bits,
}


def change_of(name: str | None) -> Change:
    """The change of an event that a fault is, or none."""
    return PLANTS[name] if name else lambda event: event
