"""Kinds of change: the indices of a draw. One to three of them left out, doubled, exchanged or wrong, and triangles
that run the other way round."""
import itertools
import math
from collections.abc import Callable, Iterable, Sequence
from typing import Any

from captures import PIXEL, Event

from .frame import order_of
from .kinds import Case, Made, kind, replaced

SLIPS = (1, 2, 3)
GRID = 24  # places that a search looks at in each of its rounds
WINDOW = 4  # indices before and behind the best place that are tried one by one
NEIGHBOURS = 12  # indices before and behind, whose vertices a missing one is looked for among
MOST_CORNERS = {1: 64, 2: 20, 3: 10}
MOST_TRIANGLES = 24
MOST_NEAR = 8  # vertices near what still differs
MOST_HOLES = 12  # holes that are closed at each place
CLOSEST = 8  # triangles whose indices are tried one by one
REACH = 3  # pixels from a wrong pixel within which a vertex may be a corner of a triangle that is missing
WORTH = 0.8  # of what differs: a slip that leaves more than so much, wherever it is, is none
FAR = 7  # indices that two exchanged ones lie apart at most


def with_order(case: Case, number: int, order: Iterable[int]) -> list[Event]:
    return replaced(case.frame.events, number, case.frame.events[number - 1] | {"indices": list(order)})


def triangles_of(case: Case, number: int) -> list[int]:
    """The triangles of a draw that wrong pixels have met, the most often met first, and behind them those beside
    wrong pixels."""
    suspect = case.suspects.get(number)
    met = [triangle for triangle, _ in suspect.triangles.most_common(MOST_TRIANGLES)] if suspect else []
    return list(dict.fromkeys([*met, *beside(case, number)]))[:MOST_TRIANGLES]


def beside(case: Case, number: int) -> list[int]:
    """The triangles with most of their corners near wrong pixels, those before others that were asked."""
    order, near = order_of(case.frame.events[number - 1]), set(vertices_near(case, number))
    asked = set(vertices_round(case, number, [(sample.x, sample.y) for sample in case.samples]))
    counted = (
        [
            (*(-sum(corner in some for corner in order[3 * t : 3 * t + 3]) for some in (asked, near)), t)
            for t in range(len(order) // 3)
        ]
        if near
        else []
    )
    return [t for _, count, t in sorted(counted) if count][:MOST_TRIANGLES]


def turned(order: list[int], triangles: Iterable[int]) -> list[int]:
    made = list(order)
    for triangle in triangles:
        at = 3 * triangle
        made[at + 1], made[at + 2] = made[at + 2], made[at + 1]
    return made


@kind("direction of triangles", "draw")
def directions(case: Case, number: int) -> Made:
    order, met = order_of(case.frame.events[number - 1]), sorted(triangles_of(case, number))
    count = len(order) // 3
    yield "its triangles the other way round", with_order(case, number, turned(order, range(count)))
    culled = sorted(
        {
            entry.triangle
            for sample in case.samples
            for entry in sample.entries
            if entry.event == number and entry.verdict == "culled" and entry.triangle is not None
        }
    )
    runs = {(t, t + 1) for t in met} | {(some[0], some[-1] + 1) for some in (met, culled) if some}
    for first, end in sorted(runs, key=lambda run: run[0] - run[1]):
        if (first, end) != (0, count):
            named = f"triangle {first}" if end == first + 1 else f"triangles {first} to {end - 1}"
            yield f"its {named} the other way round", with_order(case, number, turned(order, range(first, end)))


@kind("a triangle too many", "draw")
def triangles_left_out(case: Case, number: int) -> Made:
    order = order_of(case.frame.events[number - 1])
    for triangle in triangles_of(case, number):
        yield f"without its triangle {triangle}", with_order(
            case, number, order[: 3 * triangle] + order[3 * triangle + 3 :]
        )


@kind("indices doubled", "draw", searches=True)
def doubled(case: Case, number: int) -> Made:
    """One to three too many: all that come behind them slip."""
    order = order_of(case.frame.events[number - 1])
    for slip in SLIPS:
        took = lambda at, slip=slip: order[:at] + order[at + slip :]
        for at in places(case, number, took, len(order) - slip + 1):
            yield f"without its {told(slip)} at {at}", with_order(case, number, took(at))


@kind("indices left out", "draw", searches=True)
def left_out(case: Case, number: int) -> Made:
    """One to three are missing: all that come behind them slip. First where, with any vertex there, and then which."""
    order = order_of(case.frame.events[number - 1])
    for slip in SLIPS:
        padded = lambda at, slip=slip: order[:at] + [order[min(at, len(order) - 1)]] * slip + order[at:]
        for at in places(case, number, padded, len(order) + 1) if order else []:
            for corners in missing_corners(case, number, at, padded(at), slip):
                made = order[:at] + list(corners) + order[at:]
                yield f"{told(slip)} more at {at}: {' '.join(map(str, corners))}", with_order(case, number, made)


def missing_corners(case: Case, number: int, at: int, padded: list[int], slip: int) -> list[tuple[int, ...]]:
    """The vertices that may be missing, so many at a time: those near what still differs with any vertex there, and
    those of the indices beside."""
    near = vertices_round(case, number, case.points.still(with_order(case, number, padded)))[:MOST_NEAR]
    some = dict.fromkeys(itertools.product(near, repeat=slip))
    return list(some | dict.fromkeys(itertools.product(corners_for(case, number, at, slip), repeat=slip)))


@kind("indices exchanged", "draw", searches=True)
def exchanges(case: Case, number: int) -> Made:
    order = order_of(case.frame.events[number - 1])
    pairs = {
        (min(i, j), max(i, j)): None
        for t in triangles_of(case, number)[:CLOSEST]
        for i in range(3 * t, 3 * t + 3)
        for j in range(max(0, i - FAR), min(len(order), i + FAR + 1))
        if order[i] != order[j]
    }
    for i, j in sorted(pairs, key=lambda pair: pair[1] - pair[0]):
        made = list(order)
        made[i], made[j] = made[j], made[i]
        yield f"indices {i} and {j} exchanged", with_order(case, number, made)


@kind("an index that is wrong", "draw", searches=True)
def wrong_indices(case: Case, number: int) -> Made:
    order = order_of(case.frame.events[number - 1])
    for triangle in triangles_of(case, number)[:CLOSEST]:
        for at in range(3 * triangle, 3 * triangle + 3):
            for corner in corners_for(case, number, at, 1)[:20]:
                if corner != order[at]:
                    yield f"index {at} {corner} in place of {order[at]}", with_order(
                        case, number, order[:at] + [corner] + order[at + 1 :]
                    )


@kind("a triangle that is missing", "draw", searches=True)
def missing(case: Case, number: int) -> Made:
    """A triangle more: one that closes a hole of the mesh, or one between vertices near the wrong pixels; behind one
    beside it, or at the end."""
    draw = case.frame.events[number - 1]
    order, near = order_of(draw), vertices_near(case, number)[: MOST_CORNERS[3]]
    turns = 3 if draw["interp"] == "flat" else 1
    closing = [corners[i:] + corners[:i] for corners in holes(order, set(near)) for i in range(turns)]
    for corners in dict.fromkeys([*closing, *itertools.permutations(near, 3)]):
        beside = [at // 3 * 3 + 3 for at, corner in enumerate(order) if corner in corners] + [len(order) // 3 * 3]
        for at in dict.fromkeys(
            [max(beside[:-1], default=0), min(beside), *beside]
            if corners in closing[:MOST_HOLES]
            else [max(beside[:-1], default=beside[-1])]
        ):
            yield f"a triangle more at {at}: {' '.join(map(str, corners))}", with_order(
                case, number, order[:at] + list(corners) + order[at:]
            )


def holes(order: list[int], near: set[int]) -> list[tuple[int, int, int]]:
    """Triangles that would close a hole: their edges run against edges that no other triangle has run against. Those
    near wrong pixels come first."""
    edges = {(order[3 * t + i], order[3 * t + (i + 1) % 3]) for t in range(len(order) // 3) for i in range(3)}
    after: dict[int, list[int]] = {}
    for a, b in edges:
        if (b, a) not in edges:
            after.setdefault(b, []).append(a)
    paths = [(a, b, c) for a in after for b in after[a] for c in after.get(b, ()) if c != a]
    paths.sort(key=lambda path: (path[0] not in after.get(path[2], ()), -len(near & set(path)), path))
    found: dict[tuple[int, int, int], tuple[int, int, int]] = {}
    for a, b, c in paths:
        found.setdefault(min((a, b, c), (b, c, a), (c, a, b)), (a, b, c))
    return list(found.values())[: 4 * MOST_HOLES]


def told(slip: int) -> str:
    return "index" if slip == 1 else f"{slip} indices"


def places(case: Case, number: int, made: Callable[[int], list[int]], count: int) -> list[int]:
    """Where a slip is most likely: of places all over the draw the best, and then ever nearer to it; each of the
    last ones."""
    low, high = 0, count
    while high - low > 2 * WINDOW + 1:
        step = max(1, (high - low) // GRID)
        grid = list(range(low, high, step))
        (left, _), at = min((worth_of(case, number, made(at)), at) for at in grid)
        if left > WORTH * case.points.wrong or case.trials.is_over():
            return []
        low, high = (
            (max(low, at - 2 * step), min(high, at + 2 * step + 1))
            if step > 1
            else (max(0, at - WINDOW), min(count, at + WINDOW + 1))
        )
        if step == 1:
            break
    tried = sorted((worth_of(case, number, made(at)), at) for at in range(low, high))
    return [at for (left, _), at in tried if left <= WORTH * case.points.wrong]


def worth_of(case: Case, number: int, order: list[int]) -> tuple[int, int]:
    """How many points differ with an order of indices, and how far they are from what is wanted."""
    far, count = case.worth(with_order(case, number, order))
    return count, far


def corners_for(case: Case, number: int, at: int, slip: int) -> list[int]:
    """The vertices that an index may be meant to name, the likeliest first: those of the indices round it, those
    near the wrong pixels, and others."""
    order, vertices = order_of(case.frame.events[number - 1]), case.frame.events[number - 1]["vertices"]
    beside = sorted(range(max(0, at - NEIGHBOURS), min(len(order), at + NEIGHBOURS)), key=lambda i: abs(i - at))
    likely = dict.fromkeys([order[i] for i in beside])
    if slip < 3:
        likely |= dict.fromkeys(vertices_near(case, number)[:12])
        likely |= dict.fromkeys(
            corner + by for corner in list(likely)[:6] for by in (1, -1) if 0 <= corner + by < len(vertices)
        )
    return list(likely)[: MOST_CORNERS[slip]]


def vertices_near(case: Case, number: int) -> list[int]:
    """The vertices of a draw that lie within a few pixels of one that is wrong: those near the pixels that were
    asked, the nearest first, and then the others."""
    if number not in case.near:
        asked = vertices_round(case, number, [(sample.x, sample.y) for sample in case.samples])
        case.near[number] = list(
            dict.fromkeys(
                [
                    *asked,
                    *(
                        at
                        for at, vertex in enumerate(case.frame.events[number - 1]["vertices"])
                        if is_near_wrong(case, vertex)
                    ),
                ]
            )
        )
    return case.near[number]


def is_near_wrong(case: Case, vertex: dict[str, Any]) -> bool:
    """Whether any pixel within reach differs."""
    x, y, width, height = vertex["x"] / PIXEL - 0.5, vertex["y"] / PIXEL - 0.5, case.frame.width, case.frame.height
    left, right = max(0, math.ceil(x - REACH)), min(width - 1, math.floor(x + REACH))
    rows = range(max(0, math.ceil(y - REACH)), min(height - 1, math.floor(y + REACH)) + 1)
    return left <= right and any(case.mask.find(1, row * width + left, row * width + right + 1) >= 0 for row in rows)


def vertices_round(case: Case, number: int, pixels: Sequence[tuple[int, int]]) -> list[int]:
    found = []
    for at, vertex in enumerate(case.frame.events[number - 1]["vertices"]):
        x, y = vertex["x"] / PIXEL - 0.5, vertex["y"] / PIXEL - 0.5
        away = min((max(abs(x - a), abs(y - b)) for a, b in pixels), default=REACH + 1)
        if away <= REACH:
            found.append((away, at))
    return [at for _, at in sorted(found)]
