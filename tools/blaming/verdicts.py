"""What is said of a frame in the end: findings, each of one cluster, with who did it, since when, by which state,
and what mends it."""
from collections.abc import Iterator, Sequence
from dataclasses import dataclass

from framedbg_client import Entry, Event

from .clusters import Box, Cluster
from .evidence import Sample, Suspect
from .frame import CaptureFrame
from .searching import NAMED_CLUSTERS, Outcome
from .trying import Tried

PARTS = {"raster": "cull", "scissor": "scissor", "blend": "blend", "factor": "factor", "depth": "depth"}
MOST_REASONS = 2


@dataclass(frozen=True)
class Verdict:
    """Of one cluster: its best change, and how many of its pixels differ after it. Both are None where no change
    helps it."""

    number: int
    pixels: int
    box: Box
    change: Tried | None
    left: int | None
    suspect: Suspect | None
    place: tuple[int, int]  # a pixel of it


def verdicts_of(outcome: Outcome) -> list[Verdict]:
    """A verdict for each of the largest clusters, in their order."""
    made = []
    for number, cluster in enumerate(outcome.clusters[:NAMED_CLUSTERS]):
        helped = [one for one in outcome.tried if one.left < outcome.wrong and left_of(one, number) < len(cluster)]
        best = min(helped, key=lambda one: (one.left > 0, left_of(one, number), one.left), default=None)
        suspects = [suspect for suspect in outcome.suspects if suspect.clusters[number]]
        of_best = next((suspect for suspect in outcome.suspects if best and suspect.event == best.change.event), None)
        made.append(
            Verdict(
                number + 1,
                len(cluster),
                cluster.box,
                best,
                left_of(best, number) if best else None,
                of_best or next(iter(suspects), None),
                place_in(cluster, outcome.width),
            )
        )
    return made


def place_in(cluster: Cluster, width: int) -> tuple[int, int]:
    """The pixel of a cluster that stands in the middle of their list."""
    return cluster.pixels[len(cluster) // 2] % width, cluster.pixels[len(cluster) // 2] // width


def left_of(tried: Tried, number: int) -> int:
    """How many pixels of a cluster differ after a change; all that are left, where the change was looked at as a
    whole."""
    return tried.of_clusters[number] if number < len(tried.of_clusters) else tried.left


def since(frame: CaptureFrame, outcome: Outcome, suspect: Suspect) -> tuple[Sample, Entry] | None:
    """A pixel at which it shows, and the entry by which."""
    number, kind = suspect.event, frame.kind(suspect.event)
    for sample in outcome.samples:
        for entry in reversed(sample.entries):
            if (
                entry.event == number
                or kind not in ("draw", "clear", "depth_clear")
                and frame.kind(entry.event) == "draw"
                and frame.setter(entry.event, kind) == number
            ):
                return sample, entry
    return None


def state_lines(frame: CaptureFrame, events: Sequence[Event], number: int) -> Iterator[tuple[str, str, int | None]]:
    """The parts of the state with which an event is drawn, each with the event that set it."""
    for kind in frame.states:
        by = frame.setter(number, kind)
        said = " ".join(events[by - 1].words) if by else ""
        yield kind, said, by


def reasons(suspect: Suspect, asked: int) -> list[tuple[str, int, int]]:
    """What the pixels that were asked say of a suspect, the most often said first."""
    return [(text, count, asked) for text, count in suspect.reasons.most_common(MOST_REASONS)]
