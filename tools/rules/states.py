"""The state that draws are drawn with: its parts at the start, and which event set a part, the last one of its kind
of those that are on."""
import bisect
from collections.abc import Callable, Sequence

import captures

AT_START = {
    "raster": captures.raster(),
    "scissor": captures.scissor(0, 0, 0, 0),
    "blend": captures.blend(False),
    "factor": captures.factor(255, 255, 255, 255),
    "depth": captures.depth(False),
}


class Setters:
    """The events of each kind by their numbers, of a list of kinds. A kind is looked for once, when it is asked for."""

    def __init__(self, kinds: Sequence[str]) -> None:
        self.kinds = kinds
        self.numbers: dict[str, list[int]] = {}

    def of(self, kind: str) -> list[int]:
        """The numbers of a kind's events."""
        if kind not in self.numbers:
            self.numbers[kind] = [number for number, other in enumerate(self.kinds, 1) if other == kind]
        return self.numbers[kind]

    def before(self, number: int, kind: str, is_on: Callable[[int], bool] | None = None) -> int | None:
        """The last event of a kind before the event of a number, of those that are on; None where there is none.
        Without `is_on` all are."""
        numbers = self.of(kind)
        for at in range(bisect.bisect_left(numbers, number) - 1, -1, -1):
            if is_on is None or is_on(numbers[at]):
                return numbers[at]
        return None
