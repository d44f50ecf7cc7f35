"""What comes out at some pixels after a change, worked out here without a run of framedbg. It says which of many
changes are worth a picture, and proves nothing: what is told of a change in the end was drawn by framedbg."""
import bisect
from collections.abc import Iterable, Sequence
from typing import Any

from captures import FARTHEST, PIXEL, Event
from rules.blending import blended
from rules.coverage import centre, culled_turn
from rules.depth import PASSES
from rules.snapping import snapped
from rules.states import AT_START

from .comparing import Comparison
from .fragments import Colour, Corner, Fragment, Triangle
from .frame import CaptureFrame, order_of
from .painting import has_picture

Wanted = tuple[int, int, Colour]  # a pixel, and what is wanted there
States = dict[str, Event]  # the parts of the state, as the events that set them
Step = tuple[States, list[Colour], list[int]]  # the state, and the colours and depths of all points
Covering = list[tuple[int, list[Fragment]]]  # points, each with a draw's fragments there

NO_COLOUR = (0, 0, 0, 0)  # of a corner whose draw has a picture
FRESH: tuple[Colour, int] = (0, 0, 0, 0), FARTHEST  # a pixel's colour and depth before the first event
FEW = 16  # points that are looked at first
MOST_KEPT = 100_000  # triangles whose fragments are kept


class Points:
    """Some pixels of a frame, each with what is wanted there: those that are wrong come first, and others that are
    right behind them."""

    def __init__(
        self, frame: CaptureFrame, wrong: Sequence[Wanted], right: Sequence[Wanted], comparison: Comparison
    ) -> None:
        self.frame, self.comparison, self.is_near, self.wrong = frame, comparison, comparison.is_near, len(wrong)
        self.places = [(x, y) for x, y, _ in [*wrong, *right]]
        self.wanted = [wanted for _, _, wanted in [*wrong, *right]]
        self.centres = [centre(x, y) for x, y in self.places]
        self.triangles: dict[tuple[int, int, int, bool], list[tuple[int, Fragment]]] = {}
        self.covered: dict[int, Covering] = {}
        self.corners: dict[int, tuple[dict[str, Any], Corner]] = {}
        self.paths: dict[int, dict[int, list[Fragment]]] = {}
        self.settings: dict[str, list[int]] = {kind: [] for kind in AT_START}  # places that set a part of the state
        self.drawing: list[int] = []  # places of the list that draw at a point
        self.steps = self._steps()

    def __len__(self) -> int:
        return len(self.places)

    def few(self) -> "Points":
        """The first of the wrong ones, as points of their own."""
        some = [(x, y, wanted) for (x, y), wanted in zip(self.places[: self.wrong][:FEW], self.wanted)]
        return Points(self.frame, some, [], self.comparison)

    def more(self, some: list[Wanted]) -> "Points":
        """These and more."""
        there = [(x, y, wanted) for (x, y), wanted in zip(self.places, self.wanted)]
        return Points(self.frame, there[: self.wrong], there[self.wrong :] + some, self.comparison)

    # ---- What covers them
    def corner(self, vertex: dict[str, Any]) -> Corner:
        """A vertex as it is drawn. Those of a draw are asked for again and again."""
        known = self.corners.get(id(vertex))
        if known is None:
            known = vertex, (snapped(vertex), tuple(vertex.get("color", NO_COLOUR)), vertex.get("z", 0))
            self.corners[id(vertex)] = known
        return known[1]

    def covering(self, event: Event) -> Covering:
        """Of a draw; that of the frame's own draws is kept."""
        return self.covered[id(event)] if id(event) in self.covered else self._covering(event)

    def _covering(self, event: Event) -> Covering:
        order, vertices = order_of(event), event["vertices"]
        found: dict[int, list[Fragment]] = {}
        if not self._meets(vertices):
            return []
        corners = [self.corner(vertex) for vertex in vertices]
        for at in range(0, len(order) - 2, 3):
            for point, fragment in self.put_out(event, [corners[number] for number in order[at : at + 3]]):
                found.setdefault(point, []).append(fragment)
        return list(found.items())

    def texel(self, event: Event, point: int) -> Colour | None:
        """The colour that a draw with a picture puts out at a point, or None."""
        return self.frame.album.painting(event).texel(*self.places[point])

    def put_out(self, event: Event, corners: Sequence[Corner]) -> list[tuple[int, Fragment]]:
        """The points that a triangle of a draw covers, each with the fragment, but for those that are discarded."""
        a, b, c = corners
        found = self.of_triangle(a, b, c, event["interp"] != "linear")
        if not has_picture(event):
            return found
        told = [(point, is_clockwise, self.texel(event, point), depth) for point, (is_clockwise, _, depth) in found]
        return [(point, (is_clockwise, texel, depth)) for point, is_clockwise, texel, depth in told if texel]

    def _meets(self, vertices: Sequence[dict[str, Any]]) -> bool:
        if not vertices:
            return False
        x, y = [vertex["x"] for vertex in vertices], [vertex["y"] for vertex in vertices]
        left, top, right, bottom = min(x) // PIXEL - 1, min(y) // PIXEL - 1, max(x) // PIXEL + 1, max(y) // PIXEL + 1
        return any(left <= a <= right and top <= b <= bottom for a, b in self.places)

    def of_triangle(self, a: Corner, b: Corner, c: Corner, is_flat: bool) -> list[tuple[int, Fragment]]:
        """The points that a triangle of three corners covers, each with the fragment."""
        key = id(a), id(b), id(c), is_flat
        if key not in self.triangles:
            triangle = Triangle((a, b, c), is_flat)
            left, top, right, bottom = triangle.box
            near = [at for at, (x, y) in enumerate(self.centres) if left <= x <= right and top <= y <= bottom]
            weighed = [(at, triangle.weights(self.centres[at])) for at in near]
            if len(self.triangles) >= MOST_KEPT:
                self.triangles.clear()
            self.triangles[key] = [(at, triangle.fragment(weights)) for at, weights in weighed if weights]
        return self.triangles[key]

    # ---- What comes out
    def _steps(self) -> list[Step]:
        """Before each event of the frame the state, and the colours and depths of all points; those that stay the
        same are shared."""
        state, colours, depths = AT_START, [FRESH[0]] * len(self), [FRESH[1]] * len(self)
        made: list[Step] = []
        for at, event in enumerate(self.frame.events):
            made.append((state, colours, depths))
            if event["kind"] == "draw":
                self.covered[id(event)] = self._covering(event)
            if event["kind"] in AT_START:
                state = state | {event["kind"]: event}
                self.settings[event["kind"]].append(at)
            elif event["kind"] in ("clear", "depth_clear") or event["kind"] == "draw" and self.covering(event):
                colours, depths = list(colours), list(depths)
                self._run(event, state, colours, depths)
                self.drawing.append(at)
        return made + [(state, colours, depths)]

    def after(self, events: Sequence[Event]) -> list[Colour]:
        """The colours of all points after some events."""
        base = self.frame.events
        start, behind = self.frame.differing_part(events)
        state, colours, depths = self.steps[start]
        state, colours, depths = dict(state), list(colours), list(depths)
        for event in events[start : len(events) - behind]:
            if event["kind"] in state:
                state[event["kind"]] = event
            elif event["kind"] != "draw" or self.covering(event):
                self._run(event, state, colours, depths)
        return self._to_the_end(len(base) - behind, state, colours, depths)

    def _to_the_end(self, at: int, state: States, colours: Sequence[Colour], depths: Sequence[int]) -> list[Colour]:
        """The colours where the frame's events from a place of the list on are drawn over others. What comes out as
        in the frame isn't drawn anew."""
        held, was, was_deep = self.steps[at]
        kinds = {kind: self.until(kind, at) for kind in state if state[kind] is not held[kind]}
        points = {
            point: (colours[point], depths[point])
            for point in range(len(self))
            if colours[point] != was[point] or depths[point] != was_deep[point]
        }
        for k in self.drawing[bisect.bisect_left(self.drawing, at) :]:
            kinds = {kind: end for kind, end in kinds.items() if k < end}
            if not kinds and not points:
                break
            self._step(k, {kind: state[kind] for kind in kinds}, points)
        made = list(self.steps[-1][1])
        for point, (colour, _) in points.items():
            made[point] = colour
        return made

    def until(self, kind: str, at: int) -> int:
        """The place of the list from one on at which a part of the state is set."""
        places = self.settings[kind]
        k = bisect.bisect_left(places, at)
        return places[k] if k < len(places) else len(self.frame.events)

    def _step(self, k: int, other: States, points: dict[int, tuple[Colour, int]]) -> None:
        """Draws an event of the frame at the points that are otherwise than in the frame, or at all that it covers
        where its state is; the points that come out otherwise are kept."""
        event, (state, colours, depths), (_, after, after_deep) = self.frame.events[k], self.steps[k], self.steps[k + 1]
        if event["kind"] == "draw":
            covering = self.fragments(k)
            state = state | other if other else state
            found = {
                point: self._drawn(point, covering[point], state, *points.get(point, (colours[point], depths[point])))
                for point in (covering if other else points.keys() & covering.keys())
            }
        elif event["kind"] == "clear":
            found = {point: (after[point], depth) for point, (_, depth) in points.items()}
        else:
            found = {point: (colour, after_deep[point]) for point, (colour, _) in points.items()}
        for point, (colour, depth) in found.items():
            if colour == after[point] and depth == after_deep[point]:
                points.pop(point, None)
            else:
                points[point] = colour, depth

    def fragments(self, k: int) -> dict[int, list[Fragment]]:
        """The fragments that a draw of the frame has, by point."""
        if k not in self.paths:
            self.paths[k] = dict(self.covering(self.frame.events[k]))
        return self.paths[k]

    def final(self, point: int, at: int, fragments: Iterable[Fragment]) -> Colour:
        """A point's colour in the end, where the draw that stands at a place of the list has some fragments there."""
        state, colours, depths = self.steps[at]
        colour, depth = self._drawn(point, fragments, state, colours[point], depths[point])
        for k in self.drawing[bisect.bisect_right(self.drawing, at) :]:
            event = self.frame.events[k]
            if event["kind"] == "clear":
                colour = tuple(event["color"])
            elif event["kind"] == "depth_clear":
                depth = event["depth"]
            elif point in self.fragments(k):
                colour, depth = self._drawn(point, self.fragments(k)[point], self.steps[k][0], colour, depth)
        return colour

    def _run(self, event: Event, state: States, colours: list[Colour], depths: list[int]) -> None:
        kind = event["kind"]
        if kind == "draw":
            self._draw(self.covering(event), state, colours, depths)
        elif kind == "clear":
            colours[:] = [tuple(event["color"])] * len(colours)
        elif kind == "depth_clear":
            depths[:] = [event["depth"]] * len(depths)

    def _draw(self, covering: Covering, state: States, colours: list[Colour], depths: list[int]) -> None:
        for point, fragments in covering:
            colours[point], depths[point] = self._drawn(point, fragments, state, colours[point], depths[point])

    def _drawn(
        self, point: int, fragments: Iterable[Fragment], state: States, colour: Colour, depth: int
    ) -> tuple[Colour, int]:
        return drawn(fragments, state, colour, depth) if self.is_inside(point, state) else (colour, depth)

    def is_inside(self, point: int, state: States) -> bool:
        """Whether the scissor leaves a point."""
        if not state["raster"]["scissor"]:
            return True
        (x, y), (left, top, right, bottom) = self.places[point], state["scissor"]["rect"]
        return left <= x < right and top <= y < bottom

    def left(self, events: Sequence[Event]) -> tuple[int, int]:
        """How many of the wrong ones are wrong after some events, and how many of the right ones."""
        return self._counted(self.after(events))

    def _counted(self, colours: Sequence[Colour]) -> tuple[int, int]:
        bad = [not self.is_near(colour, wanted) for colour, wanted in zip(colours, self.wanted)]
        wrong = sum(bad[: self.wrong])
        return wrong, sum(bad) - wrong

    def still(self, events: Sequence[Event]) -> list[tuple[int, int]]:
        """The places of those that are wrong after some events."""
        return [
            place
            for place, colour, wanted in zip(self.places, self.after(events), self.wanted)
            if not self.is_near(colour, wanted)
        ]

    def worth(self, events: Sequence[Event]) -> tuple[int, int]:
        """How far all of them are from what is wanted, in colours, and how many differ: less is better."""
        other = [
            (colour, wanted)
            for colour, wanted in zip(self.after(events), self.wanted)
            if not self.is_near(colour, wanted)
        ]
        return sum(abs(a - b) for colour, wanted in other for a, b in zip(colour, wanted)), len(other)


def drawn(fragments: Iterable[Fragment], state: States, colour: Colour, depth: int) -> tuple[Colour, int]:
    """A pixel's colour and depth after a draw's fragments there."""
    culled, blend, test = culled_turn(state["raster"]), state["blend"], state["depth"]
    is_plain, passes = not blend["enable"] and blend["mask"] == 15, PASSES[test["func"]]
    for is_clockwise, source, own in fragments:
        if is_clockwise == culled:
            continue
        if test["enable"]:
            if not passes(own, depth):
                continue
            depth = own if test["write"] else depth
        colour = source if is_plain else blended(blend, state["factor"]["color"], source, colour)
    return colour, depth
