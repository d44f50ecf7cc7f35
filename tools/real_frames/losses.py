"""What a frame has that a capture can't say: counted, told at the end, and kept in the capture."""
from collections import Counter
from collections.abc import Iterator
from typing import Any


class Losses:
    def __init__(self) -> None:
        self.counts: Counter[str] = Counter()
        self.notes: dict[str, str] = {}

    def add(self, what: str, note: str = "", count: int = 1) -> None:
        self.counts[what] += count
        if note:
            self.notes[what] = note

    def entries(self) -> list[dict[str, Any]]:
        """The largest first, as the capture keeps them."""
        order = sorted(self.counts.items(), key=lambda item: (-item[1], item[0]))
        return [
            {"what": what, "count": count, **({"note": self.notes[what]} if what in self.notes else {})}
            for what, count in order
        ]

    def lines(self) -> Iterator[str]:
        for entry in self.entries():
            yield f"{entry['count']:8} {entry['what']}" + (f" ({entry['note']})" if "note" in entry else "")
