"""The image of a converted frame after each of its draws, beside the frame's own picture."""
from typing import Any

from .names import BEFORE


def positions_of(capture: dict[str, Any]) -> dict[int, int]:
    """{RenderDoc's event: the position after it} of draws, clears and copies, in their order; draws that are there
    for their depths alone are left out."""
    found = {}
    for position, event in enumerate(capture["events"], 1):
        source = event.get("source", {})
        if event["kind"] in ("draw", "clear") and source.get("name") != BEFORE and not source.get("depth_alone"):
            found[source["event"]] = position
    return found


def apart(theirs: bytes, ours: bytes, width: int) -> tuple[int, int, tuple[int, int] | None]:
    """(how many pixels differ, by how much at most, the first of them) of two pictures of one size."""
    if theirs == ours:
        return 0, 0, None
    both = zip(memoryview(theirs).cast("I"), memoryview(ours).cast("I"))
    places = [at for at, (one, other) in enumerate(both) if one != other]
    most = max(
        abs(one - other) for at in places for one, other in zip(theirs[4 * at : 4 * at + 4], ours[4 * at : 4 * at + 4])
    )
    return len(places), most, (places[0] % width, places[0] // width)
