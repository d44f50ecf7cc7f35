"""Which part of a large target is looked at while changes are tried: the one with the most pixels that differ."""
from collections.abc import Callable, Sequence

from .clusters import Cluster, thinned
from .comparing import Comparison
from .frame import CaptureFrame
from .painting import Window

SIDE = 144  # pixels of a window's side at most
MARGIN = 24
SMALL = 128 * 128  # pixels of a target that is tried whole
LIGHT = 6000  # vertices and indices of a frame that is tried whole


def is_small(frame: CaptureFrame) -> bool:
    corners = sum(
        len(event["vertices"]) + len(event.get("indices", ())) for event in frame.events if event["kind"] == "draw"
    )
    return frame.width * frame.height <= SMALL and corners <= LIGHT


def window_of(frame: CaptureFrame, clusters: Sequence[Cluster]) -> Window | None:
    """Left, top, right, bottom of the window round what differs, or None where the whole target is as good."""
    if is_small(frame):
        return None
    box = [
        min(cluster.box[0] for cluster in clusters),
        min(cluster.box[1] for cluster in clusters),
        max(cluster.box[2] for cluster in clusters),
        max(cluster.box[3] for cluster in clusters),
    ]
    left, right = side(box[0], box[2], frame.width, lambda: fullest(clusters, 0, frame.width))
    top, bottom = side(box[1], box[3], frame.height, lambda: fullest(clusters, 1, frame.width))
    window = left, top, right, bottom
    return window if frame.can_have(window) else None


def side(low: int, high: int, size: int, middle: Callable[[], int]) -> tuple[int, int]:
    """The ends of a window on one axis."""
    most = SIDE - 2 * MARGIN
    if high - low > most:
        low = max(0, min(middle() - most // 2, size - most))
        high = low + most
    return max(0, low - MARGIN), min(size, high + MARGIN)


def fullest(clusters: Sequence[Cluster], axis: int, width: int) -> int:
    """The middle of the largest cluster's pixels on one axis."""
    pixels = thinned(clusters[0].pixels)
    places = sorted((pixel // width if axis else pixel % width) for pixel in pixels)
    return places[len(places) // 2]


def cut(samples: bytes, width: int, window: Window, depth: int = 4) -> bytes:
    """The samples of a window, row by row."""
    left, top, right, bottom = window
    return b"".join(samples[depth * (y * width + left) : depth * (y * width + right)] for y in range(top, bottom))


def comparison_on(comparison: Comparison, width: int, window: Window | None) -> Comparison:
    return comparison if window is None else Comparison(cut(comparison.wanted, width, window), comparison.tolerance)
