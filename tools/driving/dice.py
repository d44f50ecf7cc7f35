"""Numbers by a seed, the same in every language that has whole numbers of 32 bits: mulberry32, seeded by FNV-1a of a
text."""
from collections.abc import Sequence
from typing import TypeVar

One = TypeVar("One")
MASK = 0xFFFFFFFF


class Dice:
    def __init__(self, seed: str) -> None:
        self.state = 0x811C9DC5
        for byte in seed.encode():
            self.state = (self.state ^ byte) * 0x01000193 & MASK

    def next(self) -> int:
        """A number of 32 bits."""
        self.state = self.state + 0x6D2B79F5 & MASK
        mixed = (self.state ^ self.state >> 15) * (self.state | 1) & MASK
        mixed ^= mixed + ((mixed ^ mixed >> 7) * (mixed | 61) & MASK) & MASK
        return mixed ^ mixed >> 14

    def below(self, end: int) -> int:
        """A whole number from 0 to one less than `end`."""
        return self.next() % end

    def between(self, first: int, end: int) -> int:
        return first + self.below(end - first)

    def choice(self, some: Sequence[One]) -> One:
        return some[self.below(len(some))]

    def is_so(self, tenths: int) -> bool:
        """True in so many of ten."""
        return self.below(10) < tenths
