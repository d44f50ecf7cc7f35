"""Which pixels of an image differ from a picture, with a tolerance for each channel. Whole rows are compared at
once, as numbers of many bytes."""
from collections.abc import Sequence

ONES = bytes([0] + [1] * 255)
CHANNELS = 4


class Comparison:
    """What is wanted of each pixel of a target, or of a window of it: samples of four channels, and how far each
    channel may be from them. A picture without an alpha says nothing about the alpha: its tolerance is 255."""

    def __init__(self, wanted: bytes | bytearray, tolerance: Sequence[int] = (0, 0, 0, 0)) -> None:
        self.wanted, self.tolerance = bytes(wanted), tuple(tolerance)
        self.looked_at = [c for c in range(CHANNELS) if tolerance[c] < 255]
        self.is_exact = all(tolerance[c] == 0 for c in self.looked_at)
        self.is_strict = self.is_exact and len(self.looked_at) == CHANNELS
        self._number = int.from_bytes(self.wanted, "little")
        if not self.is_exact:
            self._bounds = [self._lanes(c) for c in self.looked_at]

    def __len__(self) -> int:
        return len(self.wanted) // CHANNELS

    def _lanes(self, channel: int) -> tuple[int, int, int]:
        """The lowest and the highest sample of a channel that pass, each in sixteen bits, and the bit that tells so."""
        plane, by = self.wanted[channel::CHANNELS], self.tolerance[channel]
        low, high = bytes(max(0, i - by) for i in range(256)), bytes(min(255, i + by) for i in range(256))
        return lanes(plane.translate(low)), lanes(plane.translate(high)), int.from_bytes(b"\0\1" * len(plane), "little")

    def differing(self, samples: bytes) -> bytes:
        """A byte for each pixel: 1 where it differs."""
        if samples == self.wanted or not self.looked_at:
            return bytes(len(self))
        return self._exactly(samples) if self.is_exact else self._nearly(samples)

    def _exactly(self, samples: bytes) -> bytes:
        other = (int.from_bytes(samples, "little") ^ self._number).to_bytes(len(samples), "little").translate(ONES)
        either = 0
        for channel in self.looked_at:
            either |= int.from_bytes(other[channel::CHANNELS], "little")
        return either.to_bytes(len(self), "little")

    def _nearly(self, samples: bytes) -> bytes:
        passed: int | None = None
        bit = 0
        for channel, (low, high, bit) in zip(self.looked_at, self._bounds):
            got = lanes(samples[channel::CHANNELS])
            both = ((high | bit) - got) & ((got | bit) - low) & bit
            passed = both if passed is None else passed & both
        return ((passed or 0) ^ bit).to_bytes(2 * len(self), "little")[1::2]

    def is_near(self, colour: Sequence[int], wanted: Sequence[int]) -> bool:
        return (
            colour == wanted
            or not self.is_strict
            and all(abs(colour[c] - wanted[c]) <= self.tolerance[c] for c in self.looked_at)
        )


def lanes(plane: bytes) -> int:
    """A number with sixteen bits for each byte."""
    wide = bytearray(2 * len(plane))
    wide[0::2] = plane
    return int.from_bytes(wide, "little")


def pixels_of(mask: bytes) -> list[int]:
    """The numbers of the pixels that a mask has."""
    at = mask.find(1)
    found: list[int] = []
    while at >= 0:
        end = mask.find(0, at)
        end = end if end >= 0 else len(mask)
        found.extend(range(at, end))
        at = mask.find(1, end)
    return found


def both(one: bytes, other: bytes) -> int:
    """How many pixels two masks share."""
    return (int.from_bytes(one, "little") & int.from_bytes(other, "little")).to_bytes(len(one), "little").count(1)
