"""Pictures of one size one after another, each kept as what differs from the one before it: a draw changes little."""
import zlib

GRAIN = 4096  # bytes within which it isn't looked where a change begins and ends


class Reel:
    def __init__(self) -> None:
        self.steps: list[tuple[int, bytes]] = []  # (where a change begins, what differs from there on, packed)
        self.last = b""  # the picture that was put last
        self.at, self.content = -1, b""  # the picture that was asked for last

    def put(self, picture: bytes) -> "Kept":
        """Keeps a picture; gives what it is asked for by."""
        start, end = changed(self.last, picture)
        self.steps.append(
            (start, zlib.compress(exchanged(self.last[start:end], picture[start:end]), 1) if start < end else b"")
        )
        self.last = picture
        return Kept(self, len(self.steps) - 1)

    def get(self, number: int) -> bytes:
        if number < self.at:
            self.at, self.content = -1, b""
        while self.at < number:
            self.at += 1
            start, step = self.steps[self.at]
            if step:
                differs = zlib.decompress(step)
                end = start + len(differs)
                self.content = b"".join(
                    (self.content[:start], exchanged(self.content[start:end], differs), self.content[end:])
                )
        return self.content


class Kept:
    """One picture of a reel."""

    def __init__(self, reel: Reel, number: int) -> None:
        self.reel, self.number = reel, number

    def picture(self) -> bytes:
        return self.reel.get(self.number)


def changed(first: bytes, other: bytes) -> tuple[int, int]:
    """Where two pictures begin to differ and where they end to, as (start, end), roughly; all of it where they
    aren't of one size."""
    if len(first) != len(other):
        return 0, len(other)
    if first == other:
        return 0, 0
    low, high = 0, len(other)
    while high - low > GRAIN:
        middle = (low + high) // 2
        low, high = (middle, high) if first[low:middle] == other[low:middle] else (low, middle)
    start, low, high = low, low, len(other)
    while high - low > GRAIN:
        middle = (low + high) // 2
        low, high = (low, middle) if first[middle:high] == other[middle:high] else (middle, high)
    return start, high


def exchanged(first: bytes, other: bytes) -> bytes:
    """What differs of two pictures; of one and what differs, the other."""
    return (int.from_bytes(first, "little") ^ int.from_bytes(other, "little")).to_bytes(len(other), "little")
