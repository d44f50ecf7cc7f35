"""Changes of a capture as bytes. Each takes the bytes and dice, and gives others."""

PIECES = [
    b"\xc0\x80",
    b"\xc1\xbf",
    b"\xc2\x80",
    b"\xc3\xa9",
    b"\xdf\xbf",
    b"\xe0\x80\x80",
    b"\xe0\x9f\xbf",
    b"\xe0\xa0\x80",
    b"\xed\x9f\xbf",
    b"\xed\xa0\x80",
    b"\xed\xbf\xbf",
    b"\xee\x80\x80",
    b"\xef\xbf\xbf",
    b"\xf0\x80\x80\x80",
    b"\xf0\x8f\xbf\xbf",
    b"\xf0\x90\x80\x80",
    b"\xf4\x8f\xbf\xbf",
    b"\xf4\x90\x80\x80",
    b"\xf5\x80\x80\x80",
    b"\xf8\x88\x80\x80\x80",
    b"\xff",
    b"\xfe",
    b"\x80",
    b"\xbf",
    b"\xc2",
    b"\xe2\x82",
    b"\xf0\x9f\x98",
    b"\xef\xbb\xbf",
    b"\0",
    b"\x0b",
    b"\x0c",
    b"\x1f",
    b"\x7f",
    b"\xc2\xa0",
    b"\xe2\x80\xa8",
    b" ",
    b"\t",
    b"\r\n",
    b"-",
    b"-0",
    b"+",
    b".",
    b"e",
    b"0",
    b"9",
    b"1e400",
    b"null",
    b"true",
    b"tru",
    b"//",
    b",",
    b":",
    b'"',
    b"\\",
    b"\\u",
    b"[",
    b"]",
    b"{",
    b"}",
    b'"kind":"clear",',
    b'"version":1,',
    b"\\ud800",
]


def a_stretch(data, dice):
    """Where a short piece begins and ends."""
    at = dice.randrange(len(data) + 1)
    return at, min(at + dice.choice([1, 1, 1, 2, 3, 8, 40]), len(data))


def flipped(data, dice):
    at, end = a_stretch(data, dice)
    return data[:at] + bytes(byte ^ 1 << dice.randrange(8) for byte in data[at:end][:2]) + data[at:end][2:] + data[end:]


def overwritten(data, dice):
    at, end = a_stretch(data, dice)
    return data[:at] + dice.randbytes(min(end - at, 2)) + data[end:]


def cut(data, dice):
    return data[: dice.randrange(len(data) + 1)]


def beginning_cut(data, dice):
    return data[dice.randrange(len(data) + 1) :]


def taken_out(data, dice):
    at, end = a_stretch(data, dice)
    return data[:at] + data[end:]


def doubled(data, dice):
    at, end = a_stretch(data, dice)
    return data[:end] + data[at:]


def moved(data, dice):
    at, end = a_stretch(data, dice)
    rest, piece, there = data[:at] + data[end:], data[at:end], dice.randrange(len(data) + 1)
    return rest[:there] + piece + rest[there:]


def exchanged(data, dice):
    """Two neighbouring pieces change places."""
    at, end = a_stretch(data, dice)
    after = min(2 * end - at, len(data))
    return data[:at] + data[end:after] + data[at:end] + data[after:]


def put_in(data, dice):
    at = dice.randrange(len(data) + 1)
    return data[:at] + dice.choice(PIECES) + data[at:]


def put_over(data, dice):
    at, end = a_stretch(data, dice)
    return data[:at] + dice.choice(PIECES) + data[end:]


def put_around(data, dice):
    piece = dice.choice(PIECES)
    return piece + data if dice.random() < 0.5 else data + piece


def marked(data, _):
    """With the mark that some editors put before UTF-8, which is no JSON."""
    return b"\xef\xbb\xbf" + data


CHANGES = [
    flipped,
    overwritten,
    cut,
    beginning_cut,
    taken_out,
    doubled,
    moved,
    exchanged,
    put_in,
    put_in,
    put_over,
    put_around,
    marked,
]
