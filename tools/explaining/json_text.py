"""JSON as framedbg reads it (RFC 8259, no deeper than 127), and where in its text a value stands.

Values are Python's, but a number that is no whole one of 64 bits with a sign is an `Other`, which keeps its text.
"""
import re
from collections.abc import Iterable
from typing import Any

Places = dict[str | int, int]  # where members and items begin

MOST_NESTING = 127
SPACE = re.compile(r"[ \t\n\r]*")
NUMBER = re.compile(r"-?(?:0|[1-9][0-9]*)(?:\.[0-9]+)?(?:[eE][+-]?[0-9]+)?")
STRING = re.compile(r'"([^"\\\x00-\x1f]*(?:\\(?:["\\/bfnrt]|u[0-9a-fA-F]{4})[^"\\\x00-\x1f]*)*)"')
ESCAPE = re.compile(r"\\(?:u([0-9a-fA-F]{4})|(.))")
LETTERS = {'"': '"', "\\": "\\", "/": "/", "b": "\b", "f": "\f", "n": "\n", "r": "\r", "t": "\t"}
WORDS = {"true": True, "false": False, "null": None}


class Malformed(Exception):
    """The text is no JSON value; `at` is where, in characters."""

    def __init__(self, at: int, why: str) -> None:
        super().__init__(why)
        self.at = at


class Other:
    """A number that isn't a whole one of 64 bits."""

    def __init__(self, text: str) -> None:
        self.text = text

    def __repr__(self) -> str:
        return self.text if len(self.text) <= 24 else self.text[:20] + " .."


def decoded(data: bytes) -> str:
    try:
        return data.decode("utf-8")
    except UnicodeDecodeError as fault:
        raise Malformed(len(data[: fault.start].decode("utf-8")), "these bytes are no UTF-8") from None


def read(text: str) -> Any:
    """The one value of a text."""
    value, at = read_value(text, space(text, 0), MOST_NESTING)
    if at < len(text):
        raise Malformed(at, "something follows the value")
    return value


def locate(text: str, path: Iterable[str | int]) -> int:
    """Where the value stands that a path of names and numbers leads to, in characters; of equal names the last
    counts."""
    at = space(text, 0)
    for depth, step in enumerate(path):
        places: Places = {}
        read_value(text, at, MOST_NESTING - depth, places)
        at = places[step]
    return at


def line_and_column(text: str, at: int) -> tuple[int, int]:
    """Both from 1, the column in characters."""
    return text.count("\n", 0, at) + 1, at - text.rfind("\n", 0, at)


def space(text: str, at: int) -> int:
    return SPACE.match(text, at).end()  # type: ignore[union-attr]  # no space is a match, too


def read_value(text: str, at: int, depth: int, places: Places | None = None) -> tuple[Any, int]:
    """The value that begins here, and where the next token does. The places of its own members or items are written
    down where asked for."""
    first = text[at : at + 1]
    if first in ("{", "["):
        if depth == 0:
            raise Malformed(at, f"values are nested deeper than {MOST_NESTING}")
        return (read_object if first == "{" else read_array)(text, space(text, at + 1), depth - 1, places)
    if first == '"':
        return read_string(text, at)
    found = NUMBER.match(text, at)
    if found:
        return number(found.group(), at), space(text, found.end())
    for word, value in WORDS.items():
        if text.startswith(word, at):
            return value, space(text, at + len(word))
    raise Malformed(at, "a value is wanted here" if first else "the text ends too early")


def read_object(text: str, at: int, depth: int, places: Places | None) -> tuple[dict[str, Any], int]:
    made: dict[str, Any] = {}
    if text[at : at + 1] == "}":
        return made, space(text, at + 1)
    while True:
        if text[at : at + 1] != '"':
            raise Malformed(at, "a member's name is wanted here")
        name, at = read_string(text, at)
        at = space(text, expect(text, at, ":"))
        if places is not None:
            places[name] = at
        made[name], at = read_value(text, at, depth)
        if text[at : at + 1] == "}":
            return made, space(text, at + 1)
        at = space(text, expect(text, at, ",", "}"))


def read_array(text: str, at: int, depth: int, places: Places | None) -> tuple[list[Any], int]:
    made: list[Any] = []
    if text[at : at + 1] == "]":
        return made, space(text, at + 1)
    while True:
        if places is not None:
            places[len(made)] = at
        item, at = read_value(text, at, depth)
        made.append(item)
        if text[at : at + 1] == "]":
            return made, space(text, at + 1)
        at = space(text, expect(text, at, ",", "]"))


def expect(text: str, at: int, *wanted: str) -> int:
    if text[at : at + 1] != wanted[0]:
        raise Malformed(at, f"{' or '.join(wanted)} is wanted here" if at < len(text) else "the text ends too early")
    return at + 1


def read_string(text: str, at: int) -> tuple[str, int]:
    found = STRING.match(text, at)
    if not found:
        raise Malformed(at, "this text has no end, or a character that must be escaped")
    inside = found.group(1)
    return (unescaped(inside, at + 1) if "\\" in inside else inside), space(text, found.end())


def unescaped(inside: str, at: int) -> str:
    made: list[str] = []
    end = 0
    for found in ESCAPE.finditer(inside):
        made.append(inside[end : found.start()])
        made.append(LETTERS[found.group(2)] if found.group(2) else chr(int(found.group(1), 16)))
        end = found.end()
    joined = "".join(made) + inside[end:]
    try:
        return joined.encode("utf-16", "surrogatepass").decode("utf-16")  # two halves make a character
    except UnicodeDecodeError:
        raise Malformed(at, "half of a surrogate pair") from None


def number(text: str, at: int) -> int | Other:
    if "." not in text and "e" not in text and "E" not in text and len(text) <= 20 and text != "-0":
        value = int(text)
        if -1 << 63 <= value < 1 << 63:
            return value
    if float(text) in (float("inf"), float("-inf")):
        raise Malformed(at, "a number that is too large")
    return Other(text)
