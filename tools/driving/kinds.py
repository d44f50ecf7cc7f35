"""The kinds of differences between what a driver drew and what is right."""
import collections
import enum
from typing import NamedTuple


class Kind(str, enum.Enum):
    """Why a pixel differs. Its text is its name in tables and in JSON."""

    COVERAGE = "coverage"  # a triangle is drawn where it shouldn't be, or isn't where it should
    CULL = "cull"  # the same by culling
    SCISSOR = "scissor"
    DEPTH_TEST = "depth test"
    DEPTH_TIE = "depth tie"  # a test whose two depths are so near that a rounding decides it
    BY_1 = "by 1"  # a colour's byte
    ADDS_UP = "adds up"  # by no more than the triangles that this draw blended there
    BY_2 = "by 2"
    BY_MORE = "by more"
    DEPTH_BY_1 = "depth by 1"  # the depth that is stored
    DEPTH_BY_MORE = "depth by more"

    def __str__(self) -> str:
        return self.value

    @property
    def is_rounding(self) -> bool:
        return self in ROUNDING

    @property
    def is_of_depth(self) -> bool:
        """Whether two depths are told with it, and no colours."""
        return self in (Kind.DEPTH_BY_1, Kind.DEPTH_BY_MORE)


Counts = collections.Counter[Kind]
ROUNDING = frozenset({Kind.BY_1, Kind.ADDS_UP, Kind.DEPTH_BY_1, Kind.DEPTH_TIE})


class Difference(NamedTuple):
    """A pixel that differs: what framedbg has there and what the driver has, colours or depths. OpenGL leaves to its
    drivers which of two triangles has a centre on the edge between them; Direct3D doesn't."""

    x: int
    y: int
    kind: Kind
    exact: tuple[int, ...]
    driver: tuple[int, ...]
    is_left_open: bool = False

    @property
    def is_depth(self) -> bool:
        return len(self.exact) == 1


def is_beyond(kind: Kind, tolerance: int = 0) -> bool:
    """Whether a kind is no rounding, and isn't within a tolerance that was asked for either."""
    return not (kind.is_rounding or kind == Kind.BY_2 and tolerance >= 2)


def is_fault(kind: Kind, tolerance: int) -> bool:
    """Whether a difference makes a picture differ: without a tolerance each does, with one those beyond it."""
    return is_beyond(kind, tolerance) if tolerance else True


def counted(counts: Counts) -> dict[Kind, int]:
    """Counts in the kinds' order, without those of which there are none."""
    return {kind: counts[kind] for kind in Kind if counts.get(kind)}
