"""The filters of a PNG's rows, taken away. A row is one number, where what is added doesn't depend on what comes of
it."""


def unfiltered(data: bytes, channels: int, width: int, height: int) -> bytes | None:
    """The samples of a PNG, whose rows each begin with the number of their filter; None where that isn't so."""
    stride = channels * width
    if len(data) < (stride + 1) * height:
        return None
    above = bytes(stride)
    out: list[bytes] = []
    for start in range(0, (stride + 1) * height, stride + 1):
        if data[start] >= len(FILTERS):
            return None
        above = FILTERS[data[start]](data[start + 1 : start + 1 + stride], above, channels)
        out.append(above)
    return b"".join(out)


def added(one: int, other: int, length: int) -> int:
    """Two rows as numbers, the first byte the lowest, added byte by byte: each byte's highest bit takes no carry on."""
    low = int.from_bytes(b"\x7f" * length, "little")
    return (one & low) + (other & low) ^ (one ^ other) & ~low


def none(row: bytes, _above: bytes, _step: int) -> bytes:
    return row


def left(row: bytes, _above: bytes, step: int) -> bytes:
    """Sums from the start of the row: of two pixels, then of four, and so on."""
    length = len(row)
    total, whole = int.from_bytes(row, "little"), (1 << 8 * length) - 1
    while step < length:
        total = added(total, total << 8 * step & whole, length)
        step *= 2
    return total.to_bytes(length, "little")


def up(row: bytes, above: bytes, _step: int) -> bytes:
    length = len(row)
    return added(int.from_bytes(row, "little"), int.from_bytes(above, "little"), length).to_bytes(length, "little")


def mean(row: bytes, above: bytes, step: int) -> bytes:
    out = bytearray(len(row))
    for channel in range(step):
        before = 0
        found: list[int] = []
        for value, over in zip(row[channel::step], above[channel::step]):
            before = value + (before + over >> 1) & 255
            found.append(before)
        out[channel::step] = bytes(found)
    return bytes(out)


def paeth(row: bytes, above: bytes, step: int) -> bytes:
    """Each byte is added to the nearest to left + above - corner: the one on the left, above, or in the corner."""
    out = bytearray(len(row))
    for channel in range(step):
        before = corner = 0
        found: list[int] = []
        for value, over in zip(row[channel::step], above[channel::step]):
            across, down = over - corner, before - corner
            towards_corner = abs(across + down)
            across, down = abs(across), abs(down)
            is_left = across <= down and across <= towards_corner
            nearest = before if is_left else over if down <= towards_corner else corner
            before, corner = value + nearest & 255, over
            found.append(before)
        out[channel::step] = bytes(found)
    return bytes(out)


FILTERS = (none, left, up, mean, paeth)
