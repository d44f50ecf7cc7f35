"""The search: from the pixels that differ to suspects, and from those to changes, the likeliest first, as long as
the time allows."""
import collections
import itertools
import pathlib
from collections.abc import Callable, Iterable, Iterator, Sequence
from dataclasses import dataclass, field

from captures import STATES, Event
from framedbg_client import Client, Ended, Entry, History, Image
from framedbg_client import Event as EventLine

# each puts kinds into the table, which are tried in this order
from . import everywhere, states, orders, splitting, slips, corners  # noqa: F401
from .clusters import Cluster, clusters_of, outside, spread
from .comparing import Comparison
from .everywhere import EVERYWHERE
from .evidence import REACHES, Sample, Suspect, suspects_of
from .faults import MEMORY, Fault
from .frame import CaptureFrame, differing_part
from .kinds import KINDS, Case, changes_of, for_drivers, searching, simple
from .orders import WITHOUT
from .painting import Window
from .points import Points
from .trying import Change, Trials, Tried, View
from .windows import comparison_on, cut, window_of

Hint = tuple[int, int, Change]  # how many points are wrong after a change, its turn, and the change

NAMED_CLUSTERS = 8  # the largest: each has its own verdict
TURNS = 3, 8, 24, 200  # up to so many suspects, whose simple changes are tried in turn, as long as nothing mends all
ALL_OF = 24  # suspects by which all events of their kind are changed, where the picture is a driver's
SEARCHED, LATER = (
    5,
    16,
)  # suspects for which a search is worth its time; others, for which it is where none of these mends all
PAIRED, FOLLOWED = 10, 3  # best changes that are tried in pairs; that are taken to look for a second one
MOST_BLIND = 40  # simple changes of an event that are tried with those of another, where none is better alone
CHECKED = 12  # best changes of a window that are drawn whole
PARTIAL, OF_EVENT = (
    12,
    2,
)  # changes after which some points are right that are drawn, where none mends all; of one event
TOLD_EVERY = 64  # changes, after so many of which it is told how far the search has come
MOST_PERFECT = 32  # changes of a step after which all points are right that are drawn
SHOWN_AT = 1  # draws that are suspects behind the event that set their state
TOLD_ALONE = 3  # suspects of which it is told what differs without them


@dataclass
class Outcome:
    """What a search has found; `tried` are changes over the whole target, the best first."""

    width: int
    height: int
    events: list[EventLine]
    mask: bytes
    drawn: bytes  # samples of what is drawn, and of what is wanted
    wanted: bytes
    clusters: list[Cluster] = field(default_factory=list)
    samples: list[Sample] = field(default_factory=list)
    suspects: list[Suspect] = field(default_factory=list)
    tried: list[Tried] = field(default_factory=list)
    alone: dict[int, Tried] = field(default_factory=dict)  # by event: what differs without it
    count: int = 0
    is_over: bool = False

    @property
    def wrong(self) -> int:
        return self.mask.count(1)

    @property
    def changes(self) -> list[Tried]:
        return [one for one in self.tried if one.left < self.wrong]

    @property
    def is_mended(self) -> bool:
        return bool(self.tried) and self.tried[0].left == 0


def asked(path: str, program: str) -> tuple[Client, Image, list[EventLine]]:
    """The image at the end of a capture, its events as framedbg tells them, and a call that gives the histories of
    some pixels there."""
    client = Client(path, program)
    try:
        events = client.events()
        if events and client.goto(len(events)) != len(events):
            raise Fault("framedbg finds no memory for this frame", MEMORY)
        return client, client.image(), events
    except BaseException:
        client.connection.end(at_once=True)
        raise


def history_of(client: Client, pixel: int, width: int) -> list[Entry]:
    history: History = client.value(f"history {pixel % width} {pixel // width}", History)
    return list(history.entries)


class Search:
    """Over one frame; a second one stands on a frame that is changed already."""

    def __init__(
        self, frame: CaptureFrame, comparison: Comparison, trials: Trials, path: str, is_driver: bool = False
    ) -> None:
        """What is wanted may be what a driver drew: then all events of a kind are changed at once too."""
        self.frame, self.trials, self.is_driver = frame, trials, is_driver
        client, self.image, self.told = asked(path, trials.program)
        with client:
            self.mask = comparison.differing(self.image.samples)
            self.clusters = clusters_of(self.mask, frame.width)
            self.samples = self._samples(client, comparison)
            self.right = outside(self.mask, self.clusters, frame.width) if self.clusters else []
            right = [history_of(client, pixel, frame.width) for pixel in self.right]
        self.is_near = comparison.is_near
        self.suspects = suspects_of(frame, self.samples, comparison.is_near, right)
        self.case = Case(
            frame,
            self.samples,
            self.clusters,
            {one.event: one for one in self.suspects},
            comparison.is_near,
            comparison.looked_at,
            trials,
            mask=self.mask,
        )
        self.whole = self._view(comparison, None)
        window = window_of(frame, self.clusters) if self.clusters else None
        self.case.view = self.view = self._view(comparison, window) if window else self.whole
        self.case.points = self.points = self._points(comparison)
        self.few = self.points.few()
        self.tried: list[Tried] = []
        self.checked: dict[int, Tried] = {}
        self.breadths: dict[int, int] = {}
        self.hints: list[Hint] = []
        self.looked_at: set[int] = set()  # the events whose simple changes were tried
        self.met = collections.Counter(
            event for sample in self.samples for event in {entry.event for entry in sample.entries}
        )

    def _view(self, comparison: Comparison, window: Window | None) -> View:
        named = [cluster.mask(len(self.mask)) for cluster in self.clusters[:NAMED_CLUSTERS]] + [self.mask]
        masks = tuple(cut(mask, self.frame.width, window, 1) for mask in named) if window else tuple(named)
        return View(self.frame, comparison_on(comparison, self.frame.width, window), window, masks)

    def _samples(self, client: Client, comparison: Comparison) -> list[Sample]:
        """Wrong pixels from all over the largest clusters, with their histories."""
        width, most = self.frame.width, 96
        named = self.clusters[:NAMED_CLUSTERS]
        places = [
            (number, pixel)
            for number, cluster in enumerate(named)
            for pixel in spread(cluster.pixels, width, max(12, most * len(cluster) // self.mask.count(1)))
        ]
        others = [pixel for cluster in self.clusters[NAMED_CLUSTERS:] for pixel in cluster.pixels]
        places += [(len(named), pixel) for pixel in spread(others, width, 24)]
        made = []
        for number, pixel in places:
            y, x = divmod(pixel, width)
            made.append(
                Sample(
                    pixel,
                    x,
                    y,
                    tuple(comparison.wanted[4 * pixel : 4 * pixel + 4]),
                    history_of(client, pixel, width),
                    number,
                )
            )
        return made

    def _points(self, comparison: Comparison) -> Points:
        """The pixels that were asked, by turns of one cluster and the other, and some that are right."""
        turns: collections.Counter[int] = collections.Counter()
        wrong = []
        for sample in self.samples:
            wrong.append((turns[sample.cluster], sample.cluster, (sample.x, sample.y, sample.wanted)))
            turns[sample.cluster] += 1
        places = [
            (pixel % self.frame.width, pixel // self.frame.width, tuple(comparison.wanted[4 * pixel : 4 * pixel + 4]))
            for pixel in self.right
        ]
        return Points(self.frame, [point for _, _, point in sorted(wrong)], places, comparison)

    # ---- The steps, each of which ends the search where no pixel differs any more
    def run(self, deep: bool = True) -> "Search":
        ranked = [suspect.event for suspect in self.suspects]
        simple_ = [
            lambda some=ranked[start:end], has_all=not start: self.attempt(
                self._turn(some, ranked[:ALL_OF] if has_all else ())
            )
            for start, end in zip((0, *TURNS), TURNS)
        ]
        first, later = (
            lambda some=some: self.attempt(self._searched(*some), stops=True)
            for some in ((0, SEARCHED), (SEARCHED, LATER))
        )
        steps: list[Callable[[], None]] = [*simple_[:2], first]
        if deep:
            steps = [*simple_, first, lambda: self.attempt(self._pairs()), later]
        for step in steps:
            if self.is_mended or self.trials.is_over():
                break
            step()
        self.attempt(self._simple(self._stood_in_for()))
        return self

    def _turn(self, events: Iterable[int], everywhere_: Iterable[int]) -> Iterator[Change]:
        """The simple changes of some events; and before them those of all events of a kind."""
        for event in everywhere_ if self.is_driver else ():
            yield from changes_of(self.case, event, for_drivers())
        yield from self._simple(events)

    def _simple(self, events: Iterable[int]) -> Iterator[Change]:
        for event in events:
            self.looked_at.add(event)
            yield from changes_of(self.case, event, simple())

    def _stood_in_for(self) -> list[int]:
        """The state events that a mending change of another event stands in for: a change of their own is as good,
        and says more."""
        mending = [one.change for one in self.checked.values() if one.left == 0 and one.change.kind != EVERYWHERE]
        return sorted(
            {event for change in mending for event in change.also if self.frame.kind(event) in STATES} - self.looked_at
        )

    def _searched(self, start: int, end: int) -> Iterator[Change]:
        helped: dict[int, int] = {}
        for left, _, change in self.hints:
            helped[change.event] = min(left, helped.get(change.event, left))
        events = [one.event for one in self.suspects if self.frame.kind(one.event) in ("draw", "blend")]
        ranked = sorted(events, key=lambda event: (helped.get(event, len(self.points)), *self.specific(event)))
        for one, event in itertools.product(searching(), ranked[start:end]):
            yield from changes_of(self.case, event, [one])

    def _pairs(self) -> Iterator[Change]:
        for one, other in itertools.combinations(best_of_each(self.hints, PAIRED, 1), 2):
            events = joined(self.frame.events, one.events, other.events)
            if events:
                yield together(one, other.event, other.says, events)

    @property
    def is_mended(self) -> bool:
        return any(one.left == 0 for one in self.checked.values())

    def attempt(self, changes: Iterable[Change], stops: bool = False) -> None:
        """Tries changes: those after which all points are right are drawn, and the others that help are kept as
        hints."""
        perfect: list[Hint] = []
        for change in changes:
            if self.trials.is_over():
                break
            left = self.weighed(change)
            if left and left[0] == 0 and stops:
                self.draw([change])
            elif left and (left[0] == 0 or sum(left) < self.points.wrong):
                (self.hints if left[0] else perfect).append((sum(left), len(perfect) + len(self.hints), change))
            if stops and self.is_mended:
                break
        self.draw([change for _, _, change in sorted(perfect, key=by_rank)[:MOST_PERFECT]])

    def weighed(self, change: Change) -> tuple[int, int] | None:
        """What is left of the points after a change; None where none of a few is right."""
        self.trials.count += 1
        if self.trials.count % TOLD_EVERY == 0:
            self.trials.tell()
        return self.points.left(change.events) if self.few.left(change.events)[0] < self.few.wrong else None

    def draw(self, changes: Iterable[Change]) -> None:
        """Draws the pictures after changes; what mends the window is drawn whole at once."""
        found = self.trials.all_of(changes, self.view, is_late=True)
        self.tried += [one for one in found if one.left < self.mask.count(1)]
        self.check([one for one in found if one.left == 0])

    def look_alone(self, events: Iterable[int]) -> None:
        """What differs without each of some events, on the whole target."""
        changes = [
            change
            for event in events
            for change in changes_of(self.case, event, [kind for kind in KINDS if kind.name == WITHOUT])
        ]
        self.case.alone = {one.change.event: one for one in self.trials.all_of(changes, self.whole, is_late=True)}

    def check(self, some: Sequence[Tried]) -> None:
        """Draws the whole target after changes of a window."""
        todo = [one.change for one in some if id(one.change) not in self.checked]
        if self.view is self.whole:
            self.checked.update((id(one.change), one) for one in some)
        else:
            self.checked.update((id(one.change), one) for one in self.trials.all_of(todo, self.whole, is_late=True))

    # ---- The order of what was found
    def weight(self, event: int) -> float:
        suspect = self.case.suspects.get(event)
        return suspect.weight if suspect else 0

    def order(self, one: Tried) -> tuple[int, int, int, float]:
        """Of changes after which as many pixels differ the kind that stands first in the table, the event that has
        to do with the fewest draws, and the one with the most evidence."""
        names, event = [kind.name for kind in KINDS], one.change.event
        return (
            one.left,
            names.index(one.change.kind) if one.change.kind in names else len(names),
            self.breadth(event),
            -self.weight(event),
        )

    def breadth(self, event: int) -> int:
        """How many draws have the state that an event sets; a draw has to do with itself."""
        if event not in self.breadths:
            kind, events = self.frame.kind(event), self.frame.events[event:]
            ends = (
                next((at for at, other in enumerate(events) if other["kind"] == kind), len(events))
                if kind in STATES
                else 0
            )
            self.breadths[event] = sum(other["kind"] == "draw" for other in events[:ends])
        return self.breadths[event]

    def ranked(self) -> list[Suspect]:
        """All suspects: those of the best changes, each with the events that it has to do with, and then the others
        by evidence. Behind the state event of the best change stand the draws at which it shows."""
        whole = sorted((self.checked.get(id(one.change), one) for one in self.tried), key=self.order)
        changes = [*(one.change for one in whole), *(change for _, _, change in sorted(self.hints, key=by_rank))]
        first = [changes[0].event, *changes[0].also, *self.shows_at(changes[0].event)] if changes else []
        by_change = [event for change in changes for event in (change.event, *change.also)]
        return [
            self.case.suspects[event]
            for event in dict.fromkeys([*first, *by_change, *(suspect.event for suspect in self.suspects)])
            if event in self.case.suspects
        ]

    def shows_at(self, event: int) -> list[int]:
        """The draws with a state that an event sets which the most wrong pixels have met."""
        kind = self.frame.kind(event)
        drawn = (
            [
                other
                for other, _ in self.met.most_common()
                if self.frame.kind(other) == "draw" and self.frame.setter(other, kind) == event
            ]
            if kind in STATES
            else []
        )
        return drawn[:SHOWN_AT]

    def specific(self, event: int) -> tuple[int, int, int]:
        """Draws that all wrong pixels have to do with before others, and of those the smallest first: a bug in one
        draw shows nowhere else."""
        count = self.met[event] + self.case.suspects[event].reasons[REACHES]
        corners_ = self.frame.events[event - 1].get("vertices") or [{"x": 0, "y": 0}]
        wide, high = (
            max(corner[name] for corner in corners_) - min(corner[name] for corner in corners_) for name in "xy"
        )
        return -count, wide * high, event

    def best(self) -> list[Tried]:
        """Changes over the whole target, the best first."""
        self.check(sorted(self.tried, key=self.order)[:CHECKED])
        return sorted(self.checked.values(), key=self.order)


def by_rank(weighed: Hint) -> tuple[int, int]:
    left, turn, _ = weighed
    return left, turn


def best_of_each(weighed: Iterable[Hint], most: int, of_event: int) -> list[Change]:
    """The best of some changes, no more than a few of one event."""
    counted: collections.Counter[int] = collections.Counter()
    found: list[Change] = []
    for _, _, change in sorted(weighed, key=by_rank):
        counted[change.event] += 1
        if counted[change.event] <= of_event:
            found.append(change)
    return found[:most]


def together(first: Change, event: int, says: str, events: list[Event]) -> Change:
    return Change(first.event, "two at once", f"{first.says}; and event {event}, {says}", events, (event,))


def joined(events: list[Event], one: list[Event], other: list[Event]) -> list[Event] | None:
    """The events after two changes that touch different parts of the list; None where they touch the same."""
    (first, behind_first), (second, _) = differing_part(events, one), differing_part(events, other)
    if second < first:
        return joined(events, other, one)
    if second < len(events) - behind_first or second == first:
        return None
    return one[: len(one) - behind_first] + events[len(events) - behind_first : second] + other[second:]


def blind_pairs(search: Search) -> Iterator[Change]:
    """Two simple changes of the first suspects, for where neither alone is any better."""
    simple_ = [
        list(itertools.islice(changes_of(search.case, suspect.event, simple()), MOST_BLIND))
        for suspect in search.suspects[: FOLLOWED + 1]
    ]
    for some, others in itertools.combinations(simple_, 2):
        for one, other in itertools.product(some, others):
            events = joined(search.frame.events, one.events, other.events)
            if events:
                yield together(one, other.event, other.says, events)


def followed(search: Search, comparison: Comparison) -> None:
    """A second change after each of the best first ones: the frame is changed, and searched anew."""
    trials = search.trials
    if not search.hints:
        search.attempt(blind_pairs(search), stops=True)
    for first in best_of_each(search.hints, FOLLOWED, 1):
        if trials.is_over() or search.is_mended:
            return
        frame = search.frame.with_events(first.events)
        path = pathlib.Path(trials.room.name) / "second.json"
        path.write_text(frame.text(frame.events), encoding="utf-8")
        try:
            second = Search(frame, comparison, trials, str(path), search.is_driver).run(deep=False)
        except Ended:
            continue
        for found in second.best()[:CHECKED]:
            event = number_before(search.frame, first, second.frame.events[found.change.event - 1])
            change = together(first, event, found.change.says, found.change.events)
            search.tried.append(type(found)(change, found.left, (), True))
            search.checked[id(change)] = search.tried[-1]


def number_before(frame: CaptureFrame, change: Change, event: Event) -> int:
    """The number in the first frame of an event of a changed one; of one that the change made or put there, the
    change's own."""
    return next((i for i, other in enumerate(frame.events, 1) if other is event), change.event)


def searched(
    frame: CaptureFrame, comparison: Comparison, trials: Trials, path: str, is_driver: bool = False
) -> Outcome:
    """The Outcome over a frame whose capture is in a file."""
    search = Search(frame, comparison, trials, path, is_driver)
    outcome = Outcome(
        frame.width,
        frame.height,
        search.told,
        search.mask,
        search.image.samples,
        comparison.wanted,
        search.clusters,
        search.samples,
    )
    if outcome.wrong:
        search.run()
        if not search.is_mended:
            followed(search, comparison)
        if not search.is_mended:
            search.draw(best_of_each(search.hints, PARTIAL, OF_EVENT))
        outcome.tried = search.best()
        outcome.suspects = search.ranked()
        search.look_alone([suspect.event for suspect in outcome.suspects[:TOLD_ALONE]])
        outcome.alone, outcome.count, outcome.is_over = search.case.alone, trials.count, trials.is_over()
    return outcome
