"""JSON as a tree that keeps what a value loses: the order and the doubles of members, and how numbers are written."""
import json


class Written(str):
    """A text that stands in JSON as it is: a number, or what is no JSON at all."""


class Members(list):
    """An object: pairs of a name and a value, as lists of two."""


READER = json.JSONDecoder(
    object_pairs_hook=lambda pairs: Members(map(list, pairs)), parse_int=Written, parse_float=Written
)


def read(text):
    return READER.decode(text)


def copied(value):
    return type(value)(map(copied, value)) if isinstance(value, list) else value


def is_array(value):
    return isinstance(value, list) and not isinstance(value, Members)


def places(owner, first=0, depth=0):
    """Where values stand: a list, the place in it, and how many arrays and objects are around it. A member's value
    stands at 1 of its pair."""
    found = []
    for at in range(first, len(owner)):
        found.append((owner, at, depth))
        value = owner[at]
        if isinstance(value, Members):
            for member in value:
                found += places(member, 1, depth + 1)
        elif isinstance(value, list):
            found += places(value, 0, depth + 1)
    return found


def objects(root):
    return [owner[at] for owner, at, _ in places(root) if isinstance(owner[at], Members)]


def arrays(root):
    return [owner[at] for owner, at, _ in places(root) if is_array(owner[at])]


class Writer:
    """Writes trees: some with white space, and some with escapes that aren't needed."""

    def __init__(self, dice):
        self.dice = dice
        self.space, self.escape = dice.choice([0, 0, 0, 0.1, 0.5]), dice.choice([0, 0, 0, 0.1, 0.9])
        self.plain = json.JSONEncoder(ensure_ascii=dice.random() < 0.3).encode

    def gap(self):
        return (
            self.dice.choice([" ", "\n", "\t", "\r", "\r\n", "  "])
            if self.space and self.dice.random() < self.space
            else ""
        )

    def character(self, character):
        code = ord(character)
        if self.dice.random() >= self.escape or code > 0xFFFF:
            return self.plain(character)[1:-1]
        return "\\/" if character == "/" else self.dice.choice(["\\u%04x", "\\u%04X"]) % code

    def text(self, value):
        return f'"{"".join(map(self.character, value))}"' if self.escape else self.plain(value)

    def bare(self, value):
        if isinstance(value, Written):
            return str(value)
        if isinstance(value, str):
            return self.text(value)
        if isinstance(value, Members):
            return "{" + ",".join([f"{self.written(name)}:{self.written(inner)}" for name, inner in value]) + "}"
        if isinstance(value, list):
            return "[" + ",".join([self.written(inner) for inner in value]) + "]"
        return {None: "null", True: "true", False: "false"}[value]

    def written(self, value):
        return f"{self.gap()}{self.bare(value)}{self.gap()}"
