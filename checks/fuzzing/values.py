"""Changes of a capture as a tree: members, types, numbers, texts, nesting, counts. Each takes a list with the tree
in it, and dice."""
from captures import (
    CULLS,
    FACTORS,
    FARTHEST,
    FUNCTIONS,
    INTERPOLATIONS,
    KINDS,
    LEAST_EDGE,
    MOST_CORNER,
    MOST_CORNERS,
    MOST_EDGE,
    MOST_NAME,
    MOST_POSITION,
    MOST_SIDE,
    OPERATIONS,
    PICTURE,
)

from .trees import Members, Written, arrays, copied, is_array, objects, places

NAMES = [
    "format",
    "version",
    "width",
    "height",
    "events",
    "kind",
    "color",
    "cull",
    "front_ccw",
    "scissor",
    "rect",
    "enable",
    "rgb",
    "alpha",
    "mask",
    "interp",
    "vertices",
    "indices",
    "x",
    "y",
    "z",
    "name",
    "write",
    "func",
    "depth",
    "picture",
    "left",
    "top",
    "texels",
    "holes",
    "new",
]
SPELLED = [*map(list, (KINDS, (*INTERPOLATIONS, PICTURE), CULLS, FACTORS, OPERATIONS, FUNCTIONS)), ["framedbg"]]
WORDS = sum(SPELLED, [])
CHARACTERS = [
    "\0",
    "\x01",
    "\x1f",
    " ",
    "\x7e",
    "\x7f",
    "\x80",
    "\u07ff",
    "\u0800",
    "\ud7ff",
    "\ue000",
    "\ufeff",
    "\uffff",
    "\U00010000",
    "\U0010ffff",
    "\ud800",
    "\udfff",
    "\u2028",
    "\n",
    '"',
    "\\",
    "/",
    "\b",
    "a",
    "\u00e9",
    "\u20ac",
]
LIMITS = [
    0,
    1,
    2,
    3,
    15,
    255,
    MOST_SIDE,
    2048,
    FARTHEST,
    MOST_CORNERS,
    MOST_POSITION,
    2**29,
    2**31 - 1,
    2**31,
    2**32 - 1,
    2**53,
    2**63 - 1,
    2**63,
    2**64 - 1,
]
LEAST_AND_MOST = {
    "version": (1, 2, 3),
    "width": (1, MOST_SIDE),
    "height": (1, MOST_SIDE),
    "left": (0, MOST_CORNER),
    "top": (0, MOST_CORNER),
    "x": (-MOST_POSITION, MOST_POSITION),
    "y": (-MOST_POSITION, MOST_POSITION),
    "z": (0, FARTHEST),
    "mask": (0, 15),
    "depth": (0, FARTHEST),
    "color": (0, 255),
    "rect": (LEAST_EDGE, MOST_EDGE),
}
NUMERALS = [
    "-0",
    "-0",
    "-0.0",
    "0.0",
    "-0e0",
    "0e400",
    "0E-400",
    "-0e99999999999999999999",
    "1e-400",
    "1e308",
    "1.7976931348623157e308",
    "1.7976931348623158e308",
    "1.7976931348623159e308",
    "1e309",
    "-1e400",
    "1e99999999999999999999",
    "-1e-99999999999999999999",
    "1" * 309,
    "-" + "9" * 400,
    "0." + "0" * 400 + "1",
    "4.9e-324",
    "12345678901234567890123",
    "1.0",
    "255.0",
    "1e0",
    "1E+0",
    "10e-1",
]
NO_NUMERALS = [
    "01",
    "-01",
    "00",
    "-00",
    "+1",
    ".5",
    "1.",
    "1.e1",
    "1e",
    "1e+",
    "-",
    "--1",
    "- 1",
    "0x10",
    "1_000",
    "NaN",
    "Infinity",
    "-Infinity",
    "1 2",
    "\u0661",
    "1e1.5",
    "",
]
SPELLINGS = [
    '"\\ud800"',
    '"\\udc00"',
    '"\\ud83d\\ude00"',
    '"\\uD83D\\uDE00"',
    '"\\ud83dx"',
    '"\\ud83d\\u0041"',
    '"\\ud83d\\ud83d\\ude00"',
    '"\\udbff\\udfff"',
    '"\\ude00\\ud83d"',
    '"\\ud83d\\n"',
    '"\\u0000"',
    '"\\u00"',
    '"\\u004"',
    '"\\u00g0"',
    '"\\u+041"',
    '"\\u 041"',
    '"\\U0041"',
    '"\\x41"',
    '"\\u{41}"',
    '"\\a"',
    '"\\\'"',
    '"\t"',
    '"\n"',
    '"\0"',
    "'a'",
    '"a',
    'a"',
    '"\\"',
    '"a"b"',
    "nul",
    "Null",
    "TRUE",
    "true1",
    "undefined",
    "//",
    "/**/1",
    "[1,]",
    "[,1]",
    '{"a":1,}',
    "{a:1}",
    "{1:1}",
    '{"a"}',
    '{"a",1}',
    "[1;2]",
    "[1 2]",
    '["a":1]',
    "\ufeff1",
    "\x0b1",
    "\x0c1",
    "\xa01",
    "\u20281",
    "]",
    "}",
    "[",
    "{",
    ",",
    ":",
]
OTHER_TYPES = [
    None,
    None,
    None,
    True,
    False,
    Written("0"),
    Written("1"),
    Written("2"),
    "",
    "clear",
    *map(Written, ["[]", "{}", "[0,0,0,0]", "0.5", '["ONE","ZERO","ADD"]', '{"kind":"clear"}', "[null]"]),
]


def a_place(root, dice, wanted=lambda value: True):
    return dice.choice([place for place in places(root) if wanted(place[0][place[1]])] or [(root, 0, 0)])


def a_number(dice):
    how = dice.randrange(8)
    if how < 4:
        return Written(dice.choice([1, 1, -1]) * dice.choice(LIMITS) + dice.choice([-1, 0, 0, 1]))
    return Written(dice.choice(NUMERALS if how < 7 else NO_NUMERALS))


def a_name(dice):
    """As many bytes of UTF-8 as a marker's name may have, or one more or less; or a name with one special character."""
    character, most = dice.choice(CHARACTERS), dice.choice([MOST_NAME - 1, MOST_NAME, MOST_NAME + 1])
    if dice.random() < 0.5:
        return f"a{character}b"
    size = len(character.encode("utf-8", "surrogatepass"))
    return character * (most // size) + "a" * (most % size)


def nearly_base64(text, dice):
    """A text in base64 of another length, without its padding, with bits behind its last byte, or with characters
    that are none of its own."""
    at = dice.randrange(len(text) + 1)
    how = dice.randrange(10)
    if how < 5:
        return [text + "AAAA", text[:-4], text[4:], text.rstrip("="), ""][how]
    if how == 5:
        return text[:at] + dice.choice("AAAA - _ = \n é ~".split(" ")) + text[at:]
    if how == 6:
        return text[:at] + dice.choice(["-", "_", "=", "\n", " ", "/", "+", "\0", "\u00c1"]) + text[at + 1 :]
    if how == 7:
        return text[:-2] + dice.choice(["==", "A=", "AA", "B=", "g=", "Q="])
    stem, padding = text.rstrip("="), "=" * text.count("=")
    return (
        stem[:-1] + dice.choice("ABCDEQgw/+") + padding
        if how == 8
        else Written('"' + "".join(f"\\u{ord(character):04x}" for character in text) + '"')
    )


def a_text(dice):
    how = dice.randrange(4)
    if how == 0:
        return dice.choice(WORDS)
    if how == 1:
        return a_name(dice)
    if how == 2:
        word, at = dice.choice(WORDS), dice.randrange(4)
        return dice.choice(
            [
                word.lower(),
                word.upper(),
                word[:at] + word[at + 1 :],
                word[:at] + dice.choice(CHARACTERS) + word[at:],
                word + " ",
                "",
            ]
        )
    return Written(dice.choice(SPELLINGS))


def a_value(root, dice):
    how = dice.randrange(4)
    if how == 0:
        return dice.choice(OTHER_TYPES)
    if how == 1:
        return a_number(dice)
    if how == 2:
        return a_text(dice)
    owner, at, _ = a_place(root, dice)
    return copied(owner[at])


def other_value(root, dice):
    owner, at, _ = a_place(root, dice)
    owner[at] = a_value(root, dice)


def other_root(root, dice):
    root[0] = dice.choice([a_value(root, dice), [a_value(root, dice), root[0]]])


def other_number(root, dice):
    owner, at, _ = a_place(root, dice, lambda value: isinstance(value, Written))
    owner[at] = a_number(dice)


def fraction(root, dice):
    owner, at, _ = a_place(root, dice, lambda value: isinstance(value, Written))
    owner[at] = Written(f"{owner[at]}{dice.choice(['.0', '.5', 'e0', 'E-0', '0', 'e1'])}")


def other_text(root, dice):
    owner, at, _ = a_place(root, dice, lambda value: isinstance(value, str) and not isinstance(value, Written))
    owner[at] = a_text(dice)


def swapped(root, dice):
    (owner, at, _), (other, there, _) = a_place(root, dice), a_place(root, dice)
    owner[at], other[there] = other[there], owner[at]


def member_renamed(root, dice):
    for members in an_object(root, dice):
        dice.choice(members)[0] = dice.choice([dice.choice(NAMES), dice.choice(NAMES), a_text(dice)])


def member_dropped(root, dice):
    for members in an_object(root, dice):
        del members[dice.randrange(len(members))]


def member_doubled(root, dice):
    for members in an_object(root, dice):
        members.insert(dice.randint(0, len(members)), [dice.choice(members)[0], a_value(root, dice)])


def member_added(root, dice):
    for members in an_object(root, dice):
        members.insert(dice.randint(0, len(members)), [dice.choice(NAMES), a_value(root, dice)])


def members_shuffled(root, dice):
    for members in an_object(root, dice):
        dice.shuffle(members)


def an_object(root, dice):
    """One of the objects that have a member, in a list; an empty list where there is none."""
    found = [members for members in objects(root) if members]
    return [dice.choice(found)] if found else []


def count_changed(root, dice):
    """An array with an element more, fewer, doubled, moved, or with none."""
    found = [array for array in arrays(root) if array]
    if not found:
        return
    array = dice.choice(found)
    at, how = dice.randrange(len(array)), dice.randrange(5)
    if how == 0:
        del array[at]
    elif how == 1:
        array.insert(dice.randint(0, len(array)), copied(array[at]))
    elif how == 2:
        array.insert(at, a_value(root, dice))
    elif how == 3:
        array.append(array.pop(at))
    else:
        array.clear()


def nested(root, dice):
    """A value that nests as deep as JSON may, or a little less or more; half of them where nobody looks."""
    owner, at, depth = a_place(root, dice)
    if dice.random() < 0.5 and isinstance(root[0], Members):
        owner, at, depth = ["deep", None], 1, 1
        root[0].insert(dice.randint(0, len(root[0])), owner)
    kinds = dice.sample([("[", "]"), ('{"a":', "}"), ("[0,", "]")], dice.randint(1, 3))
    around = dice.choices(kinds, k=dice.randint(126, 129) - depth)
    inner = dice.choice(["0", '"["', '"\\"]"', '"]\\\\"'])
    owner[at] = Written("".join(first for first, _ in around) + inner + "".join(last for _, last in reversed(around)))


def by_name(root, dice):
    """What a name stands for, each name as likely as another: the value or one in it becomes one of its kind that is
    nearly right."""
    members = [member for members in objects(root) for member in members if isinstance(member[0], str)]
    if not members:
        return
    name = dice.choice(sorted({str(name) for name, _ in members}))
    owner = dice.choice([member for member in members if member[0] == name])
    at = 1
    if is_array(owner[1]) and owner[1] and dice.random() < 0.6:
        owner, at = owner[1], dice.randrange(len(owner[1]))
    owner[at] = nearly(name, owner[at], dice)


def alike(word):
    """The words that stand where this one may."""
    return next((words for words in SPELLED if word in words), WORDS)


def nearly(name, value, dice):
    if isinstance(value, Written):
        return (
            Written(dice.choice(LEAST_AND_MOST.get(name, LIMITS)) + dice.choice([-1, 0, 1]))
            if dice.random() < 0.7
            else a_number(dice)
        )
    if isinstance(value, str):
        if name in ("texels", "holes"):
            return nearly_base64(value, dice) if dice.random() < 0.8 else dice.choice(OTHER_TYPES)
        return a_name(dice) if name == "name" else dice.choice(alike(value)) if dice.random() < 0.5 else a_text(dice)
    if is_array(value) and value and dice.random() < 0.7:
        return dice.choice([value[1:], value[:-1], value + value[:1], value + [copied(dice.choice(value))], []])
    return dice.choice(OTHER_TYPES)


def index_at_its_limit(root, dice):
    """Indices that name the last vertex, or one beside it."""
    for members in objects(root):
        vertices = next((value for name, value in members if name == "vertices"), None)
        if isinstance(vertices, list):
            last = len(vertices) - 1
            numbers = [dice.choice([0, last]) for _ in range(dice.randint(0, 3))] + [last + dice.choice([-1, 0, 0, 1])]
            members.append(["indices", [Written(number) for number in numbers]])


def other_version(root, dice):
    for members in objects(root):
        for member in members:
            if member[0] == "version":
                member[1] = Written(dice.choice(["1", "2", "2", "3", "3", "4", "0"]))


CHANGES = [
    *[by_name] * 14,
    other_root,
    other_value,
    other_number,
    fraction,
    other_text,
    swapped,
    member_renamed,
    member_dropped,
    member_doubled,
    member_added,
    members_shuffled,
    count_changed,
    nested,
    index_at_its_limit,
    other_version,
]
