"""What a night tells of one capture."""
import os
from dataclasses import dataclass


@dataclass(frozen=True)
class Told:
    """What the reports say of one capture."""

    number: int
    name: str
    verdict: str  # alike, differs, failed, no picture
    headline: str
    lines: tuple[str, ...]
    seconds: float

    @property
    def shown(self) -> str:
        """The name, with what of it is no UTF-8 as \\xff and the like."""
        return os.fsencode(self.name).decode("utf-8", "backslashreplace")
