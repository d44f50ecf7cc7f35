"""Kinds of change: one vertex of a draw. Its colour is worked out from the wrong pixels; its place and its depth are
looked for."""
import collections
import functools
import itertools
from collections.abc import Callable, Iterable, Iterator, Sequence
from typing import Any, TypeVar

from captures import FARTHEST, PIXEL, Event
from framedbg_client import Entry
from rules.coverage import centre, cross
from rules.shading import mean
from rules.snapping import snapped

from .blending import Chain
from .cells import Cell
from .evidence import Sample
from .fragments import Colour, Place
from .frame import order_of
from .kinds import Case, Made, kind, replaced
from .painting import has_picture
from .points import Points
from .slips import vertices_near
from .states import allowed

Best = tuple[tuple[int, int], Place]  # how many points are wrong and how far, and a place of a vertex
Found = TypeVar("Found")  # by a search: a place, or a depth

MOST_VERTICES = 5
MOST_BEGUN = 20  # vertices whose places are tried from afar
ROUNDS = 6  # of a search, as long as it gets better
MOST_MORE = 60  # pixels that still differ that become points


def with_vertex(case: Case, number: int, at: int, **members: Any) -> list[Event]:
    event = case.frame.events[number - 1]
    vertices = list(event["vertices"])
    vertices[at] = vertices[at] | members
    return replaced(case.frame.events, number, event | {"vertices": vertices})


def met(case: Case, number: int) -> list[tuple[int, list[tuple[Sample, Entry]]]]:
    """The vertices of the triangles that wrong pixels have met in a draw, the most often met first, each with
    (sample, entry) where it did."""
    order = order_of(case.frame.events[number - 1])
    found: dict[int, list[tuple[Sample, Entry]]] = collections.defaultdict(list)
    for sample in case.samples:
        for entry in sample.entries:
            if entry.event == number and entry.triangle is not None:
                for at in dict.fromkeys(order[3 * entry.triangle : 3 * entry.triangle + 3]):
                    found[at].append((sample, entry))
    return sorted(found.items(), key=lambda item: -len({sample.pixel for sample, _ in item[1]}))[:MOST_VERTICES]


class Shade:
    """A fragment's source as a function of one vertex's colour."""

    def __init__(self, draw: Event, triangle: int, at: int, pixel: tuple[int, int]) -> None:
        self.corners = order_of(draw)[3 * triangle : 3 * triangle + 3]
        self.colours = [draw["vertices"][i]["color"] for i in self.corners]
        self.at, self.is_flat = at, draw["interp"] == "flat"
        places, middle = [snapped(draw["vertices"][i]) for i in self.corners], centre(*pixel)
        self.weights = [abs(cross(places[i - 2], places[i - 1], middle)) for i in range(3)]
        self.whole = abs(cross(*places))

    def source(self, channel: int, value: int, was: Sequence[int]) -> Colour:
        values = [value if corner == self.at else colour[channel] for corner, colour in zip(self.corners, self.colours)]
        if not self.is_flat:
            values[0] = mean(self.weights, values, self.whole)
        return tuple(values[0] if i == channel else byte for i, byte in enumerate(was))


@kind("colour of a vertex", "draw")
def colours(case: Case, number: int) -> Made:
    draw = case.frame.events[number - 1]
    for at, places in () if has_picture(draw) else met(case, number):
        held = []
        for sample, entry in [(sample, entry) for sample, entry in places if entry.is_drawn][:40]:
            chain = Chain(case.frame, sample.entries)
            if entry in chain.entries and entry.triangle is not None:
                held.append(
                    (sample, (chain, chain.entries.index(entry), Shade(draw, entry.triangle, at, (sample.x, sample.y))))
                )
        if not held:
            continue

        def finals(one: tuple[Chain, int, Shade], channel: int, value: int) -> Colour:
            chain, first, shade = one
            return chain.final(
                first, chain.entries[first].before, source=shade.source(channel, value, chain.entries[first].source)
            )

        was = draw["vertices"][at]["color"]
        for colour in possible(was, allowed(case, held, finals)):
            yield (
                f"vertex {at} with the colour {' '.join(map(str, colour))} in place of {' '.join(map(str, was))}",
                with_vertex(case, number, at, color=colour),
            )


def possible(was: Sequence[int], found: Iterable[tuple[int, list[int]]]) -> Iterator[list[int]]:
    """Colours by the values that each channel allows: where there are several, a few of them."""
    channels = [[value] for value in was]
    for channel, values in found:
        if not values:
            return
        channels[channel] = (
            [was[channel]]
            if was[channel] in values
            else list(dict.fromkeys([values[len(values) // 2], values[0], values[-1]]))
        )
    for colour in itertools.islice(itertools.product(*channels), 27):
        if list(colour) != list(was):
            yield list(colour)


@kind("place of a vertex", "draw", searches=True)
def spots(case: Case, number: int) -> Made:
    """Where the points leave a vertex room, those vertices first with which the most of them are right there."""
    begun = []
    for at in likely(case, number):
        if case.trials.is_over():
            return
        begun.append((*bounded(case, case.points, number, at), at))
    for left, place, at in sorted(begun)[:MOST_VERTICES]:
        search = functools.partial(place_of, case, number, at, place)
        found = place if left[0] else exactly(case, search, functools.partial(with_place, case, number, at))
        yield from moved(case, number, at, found)


def likely(case: Case, number: int) -> list[int]:
    """The vertices of a draw that may have moved: of triangles that wrong pixels met, near wrong pixels, and beside
    these in a triangle."""
    order, near = order_of(case.frame.events[number - 1]), [
        *(at for at, _ in met(case, number)),
        *vertices_near(case, number),
    ]
    triangles = [order[k : k + 3] for k in range(0, len(order) - 2, 3)]
    beside = [at for triangle in triangles if not set(near).isdisjoint(triangle) for at in triangle]
    return list(dict.fromkeys([*near, *beside]))[:MOST_BEGUN]


def moved(case: Case, number: int, at: int, place: Place) -> Iterator[tuple[str, list[Event]]]:
    was = case.frame.events[number - 1]["vertices"][at]
    x, y = (PIXEL // 256 * along for along in place)
    says = f"vertex {at} at {x / PIXEL:g} {y / PIXEL:g} in place of {was['x'] / PIXEL:g} {was['y'] / PIXEL:g}"
    yield says, with_place(case, number, at, place)


def with_place(case: Case, number: int, at: int, place: Place) -> list[Event]:
    """The events with a vertex at a place in 1/256 pixel."""
    return with_vertex(case, number, at, x=PIXEL // 256 * place[0], y=PIXEL // 256 * place[1])


def bounded(case: Case, points: Points, number: int, at: int, place: Place | None = None) -> Best:
    """The best place for a vertex that some points leave it. Looked for anew from each that is better."""
    best = (len(points) + 1, 0), place or snapped(case.frame.events[number - 1]["vertices"][at])
    for turn in (None, True, False):
        cell = Cell(points, number, at, turn)
        for _ in range(ROUNDS):
            found = min(tried_until(case, points, number, at, cell.places(best[1])), default=best)
            if found >= best:
                break
            best = found
            if best[0][0] == 0:
                return best
        if cell.state["raster"]["cull"] != "none":
            break
    return best


def place_of(case: Case, number: int, at: int, place: Place, points: Points) -> Place:
    return bounded(case, points, number, at, place)[1]


def tried_until(case: Case, points: Points, number: int, at: int, places: Iterable[Place]) -> Iterator[Best]:
    """What is left of some points with a vertex at each of some places, up to the first at which all are right."""
    for place in places:
        case.trials.count += 1
        far, count = points.worth(with_place(case, number, at, place))
        yield (count, far), place
        if count == 0:
            return


def exactly(case: Case, search: Callable[[Points], Found], events_of: Callable[[Found], list[Event]]) -> Found:
    """What a search over points finds, until no pixel differs with it: those that still do are points too, again and
    again."""
    points = case.points
    for _ in range(ROUNDS):
        found = search(points)
        still = case.trials.mask_of(events_of(found), case.view)
        if not still or case.trials.is_over():
            break
        points = points.more([(x, y, case.wanted(x, y)) for x, y in scattered_places(still)])
    return found


def scattered_places(places: list[tuple[int, int]]) -> list[tuple[int, int]]:
    return places[:: max(1, len(places) // MOST_MORE)]


@kind("depth of a vertex", "draw", searches=True)
def depths(case: Case, number: int) -> Made:
    draw = case.frame.events[number - 1]
    if case.frame.version < 2:
        return
    for at, _ in met(case, number)[:3]:
        deep = functools.partial(with_depth, case, number, at)
        z, was = exactly(case, functools.partial(depth_of, case, deep), deep), draw["vertices"][at]["z"]
        if z != was:
            yield f"vertex {at} with depth {z} in place of {was}", deep(z)


def with_depth(case: Case, number: int, at: int, z: int) -> list[Event]:
    return with_vertex(case, number, at, z=z)


def depth_of(case: Case, deep: Callable[[int], list[Event]], points: Points) -> int:
    """The best depth of a vertex for some points, by ever smaller steps."""
    step, grid = 4096, [*range(0, FARTHEST, 4096), FARTHEST]
    best: list[tuple[tuple[int, int], int]] = []
    while grid:
        case.trials.count += len(grid)
        best = [min([*((points.worth(deep(z)), z) for z in grid), *best])]
        (_, left), z = best[0]
        step //= 4
        grid = (
            [other for other in range(z - 4 * step, z + 4 * step + 1, step or 1) if 0 <= other <= FARTHEST]
            if step and left
            else []
        )
    return best[0][1]
