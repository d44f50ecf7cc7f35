"""What becomes of a pixel when one of its entries had left another colour."""
from collections.abc import Iterable, Mapping, Sequence

from framedbg_client import Entry
from rules.blending import blended

from .frame import CaptureFrame


class Chain:
    """The entries of a pixel that wrote its colour, each with its blend state and factor."""

    def __init__(self, frame: CaptureFrame, entries: Iterable[Entry]) -> None:
        kinds = {entry.event: frame.kind(entry.event) for entry in entries}
        self.entries = [entry for entry in entries if entry.is_drawn and kinds[entry.event] != "depth_clear"]
        self.states = [
            None
            if kinds[entry.event] == "clear"
            else (frame.state(entry.event, "blend"), frame.state(entry.event, "factor")["color"])
            for entry in self.entries
        ]

    def final(
        self,
        at: int,
        colour: Sequence[int],
        source: Sequence[int] | None = None,
        factors: Mapping[int, Sequence[int]] | None = None,
    ) -> tuple[int, ...]:
        """The pixel's last colour, where before the entry number `at` it had been `colour`. The entry may have
        another source, and events another factor."""
        for number in range(at, len(self.entries)):
            entry = self.entries[number]
            drawn = source if source is not None and number == at else entry.source
            held = self.states[number]
            if held is None:
                colour = drawn
                continue
            state, factor = held
            colour = blended(state, factors.get(entry.event, factor) if factors else factor, drawn, colour)
        return tuple(colour)
