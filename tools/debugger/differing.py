"""Two frames that differ in some events: how these are paired, and where the pictures first differ on the way through
both."""
import collections
import dataclasses
from collections.abc import Sequence, Set

from framedbg_client import Image

from .aligning import aligned
from .comparing import tell_images
from .contents import Contents, unlike
from .frame import WRITERS, DebuggedFrame

Frames = Sequence[DebuggedFrame]  # the one and the other
Steps = Sequence[tuple[int, int]]
Counts = collections.Counter[str]


def steps_through(frames: Frames, contents: Sequence[Contents]) -> tuple[Steps, dict[int, int]]:
    """The steps of aligned, and where events went that moved. An event moved that isn't in its order, and stands
    elsewhere in the other capture."""
    keys, kinds = [content.keys for content in contents], [list(frame.kinds) for frame in frames]
    plain = aligned(keys[0], keys[1], kinds)
    together = [
        {step[side] for step in plain if 0 not in step and keys[0][step[0] - 1] == keys[1][step[1] - 1]}
        for side in (0, 1)
    ]
    waiting: dict[bytes, collections.deque[int]] = collections.defaultdict(collections.deque)
    for number in range(1, len(keys[1]) + 1):
        if number not in together[1]:
            waiting[keys[1][number - 1]].append(number)
    moves = {}
    for number in range(1, len(keys[0]) + 1):
        if number not in together[0] and waiting[keys[0][number - 1]]:
            moves[number] = waiting[keys[0][number - 1]].popleft()
    for number, to in moves.items():  # kinds of their own: no other event takes them for its changed one
        kinds[0][number - 1], kinds[1][to - 1] = f"from {number}", f"to {to}"
    return (aligned(keys[0], keys[1], kinds) if moves else plain), moves


def tell_events(
    frames: Frames, contents: Sequence[Contents], steps: Steps, moves: dict[int, int]
) -> tuple[list[str], Counts]:
    """A line for each event that isn't the same, and how many there are of each sort."""
    found, counts = differences(frames, contents, steps, moves)
    places = {
        "changed": lambda i, j: f"{i} to {j}",
        "moved": lambda i, j: f"{i} to {moves[i]}",
        "went": lambda i, j: i,
        "came": lambda i, j: j,
    }
    return [f"{sort} {places[sort](i, j)}: {text}" for sort, i, j, text in found], counts


def differences(
    frames: Frames, contents: Sequence[Contents], steps: Steps, moves: dict[int, int]
) -> tuple[list[tuple[str, int, int, str]], Counts]:
    """Each event that isn't the same, as (sort, position in the one, position in the other, text): the positions
    behind it on the way through both. And how many there are of each sort."""
    found, arrived, at = [], set(moves.values()), (0, 0)
    counts: Counts = collections.Counter()
    text: str | None
    for i, j in steps:
        at = i or at[0], j or at[1]
        if i and j:
            is_same = contents[0].keys[i - 1] == contents[1].keys[j - 1]
            sort, text = ("same", None) if is_same else ("changed", tell_change(frames, contents, i, j))
        elif j in arrived:
            continue
        else:
            sort = "came" if j else "moved" if i in moves else "went"
            text = frames[1].events[j - 1] if j else frames[0].events[i - 1]
        counts[sort] += 1
        found += [(sort, *at, text)] if text is not None else []
    return found, counts


def tell_change(frames: Frames, contents: Sequence[Contents], i: int, j: int) -> str:
    before, after = frames[0].events[i - 1], frames[1].events[j - 1]
    if before != after:
        return f"{before}, and then {after}"
    return f"{before}: {unlike(contents[0].members(i), contents[1].members(j))}"


def tell_pictures(frames: Frames, steps: Steps, same: Set[tuple[int, int]]) -> list[str]:
    found = first_difference(frames, steps, same)
    if not found:
        return ["pictures differ nowhere"]
    (i, j), images = found
    return [
        f"pictures first differ at {i} and {j}",
        *tell_images(*images),
        "at the end",
        *tell_images(*pictures_at(frames, [len(frame) for frame in frames])),
    ]


def pictures_at(frames: Frames, positions: Sequence[int]) -> list[Image]:
    go(frames, positions)
    return [frame.client.value("show", Image) for frame in frames]


def go(frames: Frames, positions: Sequence[int]) -> None:
    for frame, position in zip(frames, positions):
        if frame.client.goto(position) != position:
            raise MemoryError


def first_difference(frames: Frames, steps: Steps, same: Set[tuple[int, int]]) -> tuple[list[int], list[Image]] | None:
    """The positions at which the pictures first differ on the way through both, and the pictures. Where nothing
    was drawn otherwise and the states are the same, events that are the same keep it so, and are gone over at once.
    Depths aren't looked at: with a depth test they may differ unseen."""
    has_depth = any("depth" in frame.kinds for frame in frames)
    is_alike, has_written, at = True, False, [0, 0]
    for step in steps:
        at = [event or before for event, before in zip(step, at)]
        kinds = {frame.kind(event) for frame, event in zip(frames, step) if event}
        if is_alike and (step in same or kinds == {"marker"}):
            continue
        go(frames, at)
        if not kinds.isdisjoint(WRITERS):
            has_written, images = True, pictures_at(frames, at)
            if images[0].samples != images[1].samples:
                return at, images
        is_alike = not (has_written and has_depth) and same_states(frames, has_depth)
        has_written = has_written and not is_alike
    return None


def same_states(frames: Frames, has_depth: bool) -> bool:
    one, other = (frame.client.state() for frame in frames)
    return one == other if has_depth else dataclasses.replace(one, depth=None) == dataclasses.replace(other, depth=None)
