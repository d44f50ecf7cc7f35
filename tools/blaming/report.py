"""The report, which a person reads from the top: who, since when, why, what mends it, and how sure that is."""
from collections.abc import Iterable, Iterator, Sequence
from typing import Any

from writing.counting import counted

from .evidence import Sample
from .frame import CaptureFrame
from .searching import Outcome
from .verdicts import Verdict, reasons, since, state_lines, verdicts_of

SHOWN_CHANGES, SHOWN_SUSPECTS, SHOWN_LINES = 4, 3, 8


def colour(four: Iterable[int]) -> str:
    return " ".join(map(str, four))


def line_of(outcome: Outcome, event: int) -> str:
    told = outcome.events[event - 1]
    return " ".join([told.kind, *told.words])


def lines(frame: CaptureFrame, outcome: Outcome, is_driver: bool = False) -> Iterator[str]:
    """The lines of a report."""
    if not outcome.wrong:
        yield "no pixel differs"
        return
    size = outcome.width * outcome.height
    yield (
        f"{outcome.wrong:,} of {counted(size)} differ{'s' if outcome.wrong == 1 else ''}, in "
        f"{counted(len(outcome.clusters), 'place')}"
    )
    if not outcome.suspects:
        yield "no event touches a pixel that differs: an event is missing, or the picture is of another frame"
        return
    yield ""
    yield from named(frame, outcome, is_driver)
    yield ""
    yield from findings(outcome)
    yield ""
    yield from others(outcome)


def named(frame: CaptureFrame, outcome: Outcome, is_driver: bool) -> Iterator[str]:
    suspect = outcome.suspects[0]
    yield f"who     event {suspect.event}: {line_of(outcome, suspect.event)}"
    found = since(frame, outcome, suspect)
    if found:
        sample, entry = found
        drawn = "" if entry.event == suspect.event else ", which is drawn with it"
        yield (
            f"since   event {entry.event}{drawn}: pixel {sample.x} {sample.y} is {colour(last_colour(sample))} "
            f"in the end, and should be {colour(sample.wanted)}"
        )
    for number, (text, count, asked) in enumerate(reasons(suspect, len(outcome.samples))):
        yield f"{'why' if not number else '':<8}it {text} ({count} of {counted(asked)} asked)"
    if found:
        for number, (kind, said, by) in enumerate(state_lines(frame, outcome.events, found[1].event)):
            yield (
                f"{'state' if not number else '':<8}{kind:<8}"
                f"{said + ', set by event ' + str(by) if by else 'as at the start'}"
            )
    yield from mended(outcome, is_driver)


def mended(outcome: Outcome, is_driver: bool) -> Iterator[str]:
    best = outcome.changes[:1]
    if not best:
        yield "mends   no change that was tried"
        yield "sure    the event is named by evidence alone"
        return
    what = "the driver drew as with" if is_driver else "mends  "
    yield f"{what} event {best[0].change.event}, {best[0].change.says}"
    if best[0].left == 0:
        yield "sure    no pixel differs after it"
    else:
        yield f"sure    fewer differ after it, {best[0].left:,} in place of {outcome.wrong:,}: a hint, and no answer"


def last_colour(sample: Sample) -> Sequence[int]:
    drawn = sample.drawn
    return drawn[-1].after if drawn else (0, 0, 0, 0)


def findings(outcome: Outcome) -> Iterator[str]:
    """The clusters, the largest first; those with one verdict in one line."""
    groups: dict[tuple[Any, ...], list[Verdict]] = {}
    for verdict in verdicts_of(outcome):
        key: tuple[Any, ...] = (
            (id(verdict.change), verdict.left == 0)
            if verdict.change
            else (None, verdict.suspect and verdict.suspect.event)
        )
        groups.setdefault(key, []).append(verdict)
    for group in groups.values():
        places = "; ".join(
            f"{counted(verdict.pixels)} in the box {' '.join(map(str, verdict.box))}" for verdict in group
        )
        yield f"{'finding' if len(group) == 1 else 'findings'} {told_numbers(group)}: {places}"
        yield f"  {told_verdict(group)}"
    rest = outcome.clusters[sum(map(len, groups.values())) :]
    if rest:
        yield f"and {counted(len(rest), 'smaller place')} with {counted(sum(map(len, rest)))}"


def told_numbers(group: Sequence[Verdict]) -> str:
    return f"{group[0].number}" if len(group) == 1 else ", ".join(str(verdict.number) for verdict in group)


def told_verdict(group: Sequence[Verdict]) -> str:
    verdict = group[0]
    if verdict.change is None:
        return (
            f"event {verdict.suspect.event} by evidence; no change that was tried mends it"
            if verdict.suspect
            else "nobody is named"
        )
    left = sum(one.left or 0 for one in group)
    said = f"event {verdict.change.change.event}, {verdict.change.change.says}"
    return f"mended by {said}" if not left else f"{left:,} of these pixels are left by {said}"


def others(outcome: Outcome) -> Iterator[str]:
    yield (
        f"{counted(outcome.count, 'change')} tried{', and then the time was over' if outcome.is_over else ''}; "
        f"the best of them"
    )
    for one in outcome.changes[:SHOWN_CHANGES]:
        yield f"  {counted(one.left)} differ: event {one.change.event}, {one.change.says}"
    yield "suspects"
    for suspect in outcome.suspects[:SHOWN_SUSPECTS]:
        yield f"  event {suspect.event}: {line_of(outcome, suspect.event)}{told_alone(outcome, suspect.event)}"


def told_alone(outcome: Outcome, event: int) -> str:
    alone = outcome.alone.get(event)
    if alone is None or not alone.is_whole:
        return ""
    still = alone.of_clusters[-1]
    return (
        f"; without it {outcome.wrong - still:,} of the {outcome.wrong:,} are right, and {alone.left - still:,} "
        f"others become wrong"
    )
