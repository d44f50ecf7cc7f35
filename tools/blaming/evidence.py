"""What the histories of wrong pixels say of events: who drew them last, who drew over what is wanted, and by which
state."""
import collections
from collections.abc import Callable, Iterable, Iterator, Sequence
from dataclasses import dataclass, field

from captures import PIXEL, STATES
from framedbg_client import Entry

from .fragments import Colour
from .frame import CaptureFrame

Fact = tuple[int, int | None, str, float]  # an event, a triangle of it, what a pixel says of it, and its weight
IsNear = Callable[[Sequence[int], Sequence[int]], bool]  # whether a colour is near enough to a wanted one

DISCARDED = "discarded"  # by the draw's own picture, and with no colour that could be the wanted one
BY_VERDICT: dict[str, tuple[str, ...]] = {
    "scissored": ("raster", "scissor"),
    "culled": ("raster",),
    DISCARDED: (),
    "depthfailed": ("depth", "depth_clear"),
}
WEIGHTS = {"hidden": 3, "hider": 4, "over": 3, "last": 1, "blend": 3, "state": 0.9, "touched": 0.2, "reaches": 0.3}

REACHES = "has vertices round the pixel, and doesn't cover it"
REACH = 2  # pixels round a draw's vertices
UNSEEN = 0.8  # of its weight that a state loses of whose draws nearly none met a wrong pixel
CLEARED = 0.9  # of its weight that an event loses which shows at each pixel that is right


@dataclass
class Sample:
    """A wrong pixel: what is wanted of it, what it is, and the entries of its history."""

    pixel: int
    x: int
    y: int
    wanted: Colour
    entries: list[Entry]
    cluster: int

    @property
    def drawn(self) -> list[Entry]:
        return [entry for entry in self.entries if entry.is_drawn]


@dataclass
class Suspect:
    event: int
    weight: float = 0
    reasons: collections.Counter[str] = field(default_factory=collections.Counter)
    triangles: collections.Counter[int] = field(default_factory=collections.Counter)
    clusters: collections.Counter[int] = field(default_factory=collections.Counter)


def facts(frame: CaptureFrame, sample: Sample, is_near: IsNear) -> Iterator[Fact]:
    """What one pixel says."""
    wanted, drawn, since = sample.wanted, sample.drawn, first_that_counts(frame, sample.entries)
    for entry in sample.entries:
        is_wanted = entry.verdict != DISCARDED and is_near(entry.source, wanted)
        if not entry.is_drawn and (is_wanted or entry.event >= since):
            yield from hidden(frame, entry, is_wanted)
    right = [k for k, entry in enumerate(drawn) if is_near(entry.after, wanted)]
    if right and right[-1] + 1 < len(drawn):
        later = drawn[right[-1] + 1]
        yield (
            later.event,
            later.triangle,
            f"is drawn over the colour that is wanted, which event {drawn[right[-1]].event} had left",
            WEIGHTS["over"],
        )
    if drawn:
        yield from last(frame, drawn[-1], wanted, is_near)
    for entry in [entry for entry in drawn[:-1] if entry.event >= since]:
        yield entry.event, entry.triangle, "drew the pixel before", WEIGHTS["touched"]
        for kind in STATES if frame.kind(entry.event) == "draw" else ():
            by = frame.setter(entry.event, kind)
            if by:
                yield by, None, f"sets the {kind} state with which event {entry.event} drew the pixel before", WEIGHTS[
                    "touched"
                ]


def first_that_counts(frame: CaptureFrame, entries: Sequence[Entry]) -> int:
    """The first event that can show at a pixel, or hide there what comes later: the last clear; where depths are
    tested behind it, the last of depths if that is earlier."""
    last = lambda kind, some: max((entry.event for entry in some if frame.kind(entry.event) == kind), default=0)
    cleared = last("clear", entries)
    behind = [entry for entry in entries if entry.event > cleared]
    is_tested = any(
        frame.kind(entry.event) == "draw" and frame.state(entry.event, "depth")["enable"] for entry in behind
    )
    return min(cleared, last("depth_clear", entries)) if is_tested else cleared


def hidden(frame: CaptureFrame, entry: Entry, is_wanted: bool) -> Iterator[Fact]:
    if is_wanted:
        yield entry.event, entry.triangle, f"is {entry.verdict} where its colour is the one that is wanted", WEIGHTS[
            "hidden"
        ]
    else:
        yield entry.event, entry.triangle, f"is {entry.verdict} there", WEIGHTS["touched"]
    for kind in BY_VERDICT[entry.verdict]:
        by = frame.setter(entry.event, kind)
        if by:
            yield by, None, f"sets the {kind} state by which event {entry.event} is {entry.verdict}", WEIGHTS[
                "hider"
            ] if is_wanted else WEIGHTS["touched"]


def last(frame: CaptureFrame, entry: Entry, wanted: Colour, is_near: IsNear) -> Iterator[Fact]:
    yield entry.event, entry.triangle, "drew the pixel last", WEIGHTS["last"]
    if frame.kind(entry.event) != "draw":
        return
    for kind in STATES:
        by = frame.setter(entry.event, kind)
        if by:
            is_blended = kind == "blend" and is_near(entry.source, wanted) and not is_near(entry.after, wanted)
            yield by, None, f"sets the {kind} state with which event {entry.event} drew the pixel", WEIGHTS[
                "blend" if is_blended else "state"
            ]


def reaching(frame: CaptureFrame, samples: Iterable[Sample]) -> Iterator[tuple[Sample, Fact]]:
    """What can't be in a history: draws whose vertices lie round a pixel, which none of their triangles covers."""
    met = [
        (sample, {entry.event for entry in sample.entries}, first_that_counts(frame, sample.entries))
        for sample in samples
    ]
    for number, event in enumerate(frame.events, 1):
        if event["kind"] != "draw" or not event["vertices"]:
            continue
        x, y = ([vertex[name] for vertex in event["vertices"]] for name in "xy")
        box = min(x) / PIXEL - REACH, min(y) / PIXEL - REACH, max(x) / PIXEL + REACH, max(y) / PIXEL + REACH
        for sample, events, since in met:
            if (
                number > since
                and box[0] <= sample.x <= box[2]
                and box[1] <= sample.y <= box[3]
                and number not in events
            ):
                yield sample, (number, None, REACHES, WEIGHTS["reaches"])


def shown(frame: CaptureFrame, entries: Sequence[Entry]) -> set[int]:
    """The events whose colours a pixel has in the end, and those that set their states."""
    found: set[int] = set()
    for entry in reversed([entry for entry in entries if entry.is_drawn and frame.kind(entry.event) != "depth_clear"]):
        found.add(entry.event)
        if frame.kind(entry.event) == "clear":
            break
        found.update(by for by in (frame.setter(entry.event, kind) for kind in STATES) if by)
        blend = frame.state(entry.event, "blend")
        if not blend["enable"] and blend["mask"] == 15:
            break
    return found


def suspects_of(
    frame: CaptureFrame, samples: Sequence[Sample], is_near: IsNear, right: Sequence[Sequence[Entry]] = ()
) -> list[Suspect]:
    """The suspects by the evidence of some pixels, the strongest first. What shows at pixels that are right is the
    less suspected, the more of them show it, and a state the less, the fewer of the draws that have it met a pixel.
    `right` are the histories of right pixels."""
    found: dict[int, Suspect] = {}
    weights: dict[tuple[int, int], float] = collections.defaultdict(float)
    for sample, (event, triangle, reason, weight) in [
        *((sample, fact) for sample in samples for fact in facts(frame, sample, is_near)),
        *reaching(frame, samples),
    ]:
        suspect = found.setdefault(event, Suspect(event))
        weights[id(sample), event] = max(weights[id(sample), event], weight)
        suspect.reasons[reason] += 1
        suspect.clusters[sample.cluster] += 1
        if triangle is not None:
            suspect.triangles[triangle] += 1
    for (_, event), weight in weights.items():
        found[event].weight += weight
    shares = seen_of(frame, samples)
    for event, suspect in found.items():
        suspect.weight *= shares.get(event, 1)
    for event, count in collections.Counter(event for entries in right for event in shown(frame, entries)).items():
        if event in found:
            found[event].weight *= 1 - CLEARED * count / len(right)
    return sorted(found.values(), key=lambda suspect: (-suspect.weight, suspect.event))


def seen_of(frame: CaptureFrame, samples: Iterable[Sample]) -> dict[int, float]:
    """Of each event that sets a state what is left of its weight, by the draws that have the state and by those of
    them that met a pixel."""
    met = {entry.event for sample in samples for entry in sample.entries}
    having: collections.Counter[int | None] = collections.Counter()
    seen: collections.Counter[int | None] = collections.Counter()
    for kind in frame.states:
        for number in (number for number in frame.draws() if frame.kind(number) == "draw"):
            by = frame.setter(number, kind)
            having[by] += 1
            seen[by] += number in met
    return {by: 1 - UNSEEN * (1 - seen[by] / count) for by, count in having.items() if by}
