"""What a pixel has to be after a change, so that a breakpoint stops there: `red > 200`, `depth <= 100`."""
import operator
from collections.abc import Callable
from dataclasses import dataclass

from captures import FARTHEST

from .faults import Slip
from .frame import Change
from .words import number

SIGNS: dict[str, Callable[[int, int], bool]] = {
    "<": operator.lt,
    "<=": operator.le,
    "=": operator.eq,
    "==": operator.eq,
    "!=": operator.ne,
    ">=": operator.ge,
    ">": operator.gt,
}
MOST = {"red": 255, "green": 255, "blue": 255, "alpha": 255, "depth": FARTHEST}


@dataclass(frozen=True)
class Condition:
    channel: str
    sign: str
    value: int

    def __str__(self) -> str:
        return f"{self.channel} {self.sign} {self.value}"

    def holds(self, change: Change) -> bool:
        found = change.depth if self.channel == "depth" else getattr(change.after, self.channel)
        return found is not None and SIGNS[self.sign](found, self.value)


def condition_of(words: list[str]) -> Condition:
    """The condition that words say, which stand behind `if`."""
    if len(words) != 3 or words[0] not in MOST or words[1] not in SIGNS:
        raise Slip(
            "if CHANNEL SIGN VALUE is wanted, as in if red > 200; "
            f"a channel is one of {', '.join(MOST)}, and a sign one of {' '.join(SIGNS)}"
        )
    return Condition(words[0], words[1], number(words[2], words[0], MOST[words[0]]))
