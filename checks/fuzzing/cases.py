"""The captures of a run: each is the same whenever its seed and its number are, whatever was made before."""
import json
import pathlib
import random

import captures
from captures import FARTHEST, MOST_EDGE, PIXEL

from . import limits, texts, trees, values
from .trees import Members

EXAMPLES = pathlib.Path(__file__).resolve().parent.parent.parent / "examples"
LONG = 4000  # one case of so many is a long one
CORNER = captures.vertex(PIXEL, -PIXEL, (1, 2, 3, 4), 9)
EVERY_KIND = captures.frame(
    4,
    4,
    [
        captures.clear(1, 2, 3, 4),
        captures.raster("none", scissor=True),
        captures.scissor(0, -1, 2, MOST_EDGE),
        captures.blend(True, ("ONE", "SRC_COLOR", "ADD"), ("ONE", "ZERO", "MIN")),
        captures.factor(0, 255, 0, 0),
        captures.draw([CORNER] * 3, "flat", [0, 1, 2]),
        captures.draw([], "linear"),
        captures.marker("a name"),
        captures.depth(),
        captures.depth_clear(FARTHEST),
    ],
)
OF_VERSION_1 = EVERY_KIND | {"version": 1, "events": EVERY_KIND["events"][:8]}
PICTURES = [
    captures.picture(1, 0, 3, 3, bytes(range(36)), [1, 0, 0, 0, 1, 0, 0, 0, 1]),
    captures.picture(0, 3, 2, 1, bytes(range(248, 256))),
]
OF_VERSION_3 = EVERY_KIND | {
    "version": 3,
    "events": [captures.picture_draw([captures.corner(PIXEL, -PIXEL, 9)] * 3, box, [0, 2, 1]) for box in PICTURES]
    + EVERY_KIND["events"][5:],
}
MOST_EVENTS, MOST_CORNERS, MOST_TEXELS = 10, 4, 200


def member(members, name):
    return next((value for known, value in members if known == name), [])


def has_large_picture(event):
    picture = member(event, "picture")
    return isinstance(picture, Members) and len(member(picture, "texels")) > MOST_TEXELS


def thinned(tree):
    """A capture with no more than a few events, vertices and indices, and with small pictures alone."""
    events = member(tree, "events")
    events[:] = [event for event in events if not has_large_picture(event)][:MOST_EVENTS]
    for event in events:
        vertices, indices = member(event, "vertices"), member(event, "indices")
        del vertices[MOST_CORNERS:]
        indices[:] = [index for index in indices if int(index) < len(vertices)][:MOST_CORNERS]
    return tree


def seeds():
    """Captures that are accepted, to be changed: the examples, and one of each version with every kind of event."""
    plain = trees.Writer(random.Random(0))
    plain.space = plain.escape = 0
    examples = [plain.written(thinned(trees.read(path.read_text()))) for path in sorted(EXAMPLES.glob("**/*.json"))]
    return list(dict.fromkeys(examples)) + [
        json.dumps(frame) for frame in (EVERY_KIND, OF_VERSION_1, OF_VERSION_3, OF_VERSION_3) for _ in range(16)
    ]


SEEDS = seeds()


def event_of_another(root, dice):
    """An event of another seed among the events."""
    events = member(root[0], "events") if isinstance(root[0], Members) else None
    others = member(trees.read(dice.choice(SEEDS)), "events")
    if trees.is_array(events) and others:
        events.insert(dice.randint(0, len(events)), dice.choice(others))


CHANGES = [*values.CHANGES, event_of_another]


def case(seed, number):
    if number % LONG == LONG - 1:
        return limits.case(number // LONG)
    dice = random.Random(f"{seed} {number}")
    root = [trees.read(dice.choice(SEEDS))]
    for _ in range(dice.choice([0, 1, 1, 1, 1, 1, 2, 3])):
        dice.choice(CHANGES)(root, dice)
    data = trees.Writer(dice).written(root[0]).encode("utf-8", "surrogatepass")
    for _ in range(dice.choice([0, 0, 0, 0, 0, 0, 0, 1, 2])):
        data = dice.choice(texts.CHANGES)(data, dice)
    return data
