"""One bug of each kind, planted by a seed: the events with it, and the events by whose number it may be named."""
from blaming.frame import order_of
from blaming.kinds import inserted, replaced
from captures import ALPHA_FACTORS, FACTORS, FUNCTIONS, OPERATIONS

PLANTS = {}  # by the name of the kind of change that mends it


def plant(name):
    """Puts a bug into the table. It takes a random source and a frame, and gives (events, numbers of events), or
    None where the frame has no room for it."""

    def add(make):
        PLANTS[name] = make
        return make

    return add


def others(values, was):
    return [value for value in values if value != was]


def some(rng, frame, *kinds):
    """The number of an event of some kinds, by chance."""
    numbers = [i for i, event in enumerate(frame.events, 1) if event["kind"] in kinds]
    return rng.choice(numbers) if numbers else None


def a_draw(rng, frame, least=1):
    numbers = [
        i for i, event in enumerate(frame.events, 1) if event["kind"] == "draw" and len(order_of(event)) >= 3 * least
    ]
    return rng.choice(numbers) if numbers else None


def of_state(name, kind, members):
    """A bug in a state event: one of the frame, or where it has none another one before a draw that is never taken
    back."""

    @plant(name)
    def make(rng, frame):
        if kind not in frame.states:
            return None
        number = some(rng, frame, kind)
        if number:
            event = frame.events[number - 1]
            return replaced(frame.events, number, event | members(rng, event)), {number}
        before = a_draw(rng, frame)
        if not before:
            return None
        event = frame.state(before, kind)
        return inserted(frame.events, before, event | members(rng, event)), {before}

    return make


def factor_of(rng, event):
    part, at = rng.choice(["rgb", "alpha"]), rng.choice([0, 1])
    three = list(event[part])
    three[at] = rng.choice(others(FACTORS if part == "rgb" else ALPHA_FACTORS, three[at]))
    return {part: three, "enable": True}


def operation_of(rng, event):
    return {"rgb": [*event["rgb"][:2], rng.choice(others(OPERATIONS, event["rgb"][2]))], "enable": True}


of_state("write mask", "blend", lambda rng, event: {"mask": rng.choice(others(range(16), event["mask"]))})
of_state("blending on or off", "blend", lambda rng, event: {"enable": not event["enable"]})
of_state("factor of blending", "blend", factor_of)
of_state("operation of blending", "blend", operation_of)
of_state("cull", "raster", lambda rng, event: {"cull": rng.choice(others(("none", "front", "back"), event["cull"]))})
of_state("front face", "raster", lambda rng, event: {"front_ccw": not event["front_ccw"]})
of_state("scissor on or off", "raster", lambda rng, event: {"scissor": not event["scissor"]})
of_state("depth test on or off", "depth", lambda rng, event: {"enable": not event["enable"]})
of_state("depth writes", "depth", lambda rng, event: {"write": not event["write"]})
of_state(
    "depth function", "depth", lambda rng, event: {"func": rng.choice(others(FUNCTIONS, event["func"])), "enable": True}
)


@plant("rectangle of the scissor")
def rectangle(rng, frame):
    """A rectangle that is too small by one edge; where the frame has none, one before a draw that is for the whole
    target, and then not."""
    number = some(rng, frame, "scissor")
    if number:
        rect = list(frame.events[number - 1]["rect"])
        at = rng.randrange(4)
        rect[at] += (1 if at < 2 else -1) * rng.randrange(1, 1 + max(1, (rect[at % 2 + 2] - rect[at % 2]) // 2))
        return replaced(frame.events, number, frame.events[number - 1] | {"rect": rect}), {number}
    before = a_draw(rng, frame)
    if not before:
        return None
    rect = [0, 0, frame.width, frame.height]
    at = rng.randrange(4)
    rect[at] += (1 if at < 2 else -1) * rng.randrange(1, 1 + max(1, frame.width // 2))
    events = inserted(frame.events, before, {"kind": "scissor", "rect": rect})
    return inserted(events, before, frame.state(before, "raster") | {"scissor": True}), {before, before + 1}


@plant("interpolation")
def interpolation(rng, frame):
    number = a_draw(rng, frame)
    return number and (
        replaced(
            frame.events,
            number,
            frame.events[number - 1]
            | {"interp": "flat" if frame.events[number - 1]["interp"] == "linear" else "linear"},
        ),
        {number},
    )


@plant("colour of a clear")
def clear(rng, frame):
    number = some(rng, frame, "clear")
    return number and (
        replaced(frame.events, number, frame.events[number - 1] | {"color": [rng.randrange(256) for _ in range(4)]}),
        {number},
    )


@plant("value of a depth clear")
def depth_clear(rng, frame):
    number = some(rng, frame, "depth_clear")
    return number and (
        replaced(frame.events, number, frame.events[number - 1] | {"depth": rng.randrange(65536)}),
        {number},
    )


@plant("blend factor")
def blend_factor(rng, frame):
    number = some(rng, frame, "factor")
    if number:
        return replaced(
            frame.events, number, frame.events[number - 1] | {"color": [rng.randrange(256) for _ in range(4)]}
        ), {number}
    return None


@plant("a part of the state before a draw")
def not_taken_back(rng, frame):
    """A state event is missing: named are those whose draws have another state then, and the event that sets it."""
    number = some(rng, frame, *frame.states)
    if not number:
        return None
    kind = frame.events[number - 1]["kind"]
    draws = [
        i for i, event in enumerate(frame.events, 1) if event["kind"] == "draw" and frame.setter(i, kind) == number
    ]
    if not draws:
        return None
    left = frame.setter(number, kind)
    return frame.events[: number - 1] + frame.events[number:], {*(i - 1 for i in draws), *([left] if left else [])}


@plant("without an event")
def one_too_many(rng, frame):
    """A draw that is drawn twice, the second time later."""
    number = a_draw(rng, frame)
    if not number:
        return None
    before = rng.randrange(number + 1, len(frame.events) + 2)
    return inserted(frame.events, before, frame.events[number - 1]), {before}


@plant("an event once more")
def one_less(rng, frame):
    """A clear or a draw that the frame has twice, and now once."""
    texts = [str(event) for event in frame.events]
    numbers = [
        i
        for i, event in enumerate(frame.events, 1)
        if event["kind"] in ("draw", "clear", "depth_clear") and texts.count(texts[i - 1]) > 1
    ]
    if not numbers:
        return None
    number = rng.choice(numbers)
    return frame.events[: number - 1] + frame.events[number:], {
        i
        for i in range(1, len(texts))
        if str((frame.events[: number - 1] + frame.events[number:])[i - 1]) == texts[number - 1]
    }


@plant("order of draws")
def order(rng, frame):
    number = a_draw(rng, frame)
    draws = [i for i in frame.draws() if i != number]
    if not number or not draws:
        return None
    near = sorted(draws, key=lambda i: abs(i - number))[:6]
    to = rng.choice(near)
    rest = frame.events[: number - 1] + frame.events[number:]
    passed = {i if i < number else i - 1 for i in range(min(to, number), max(to, number) + 1) if i != number} | {to}
    return rest[: to - 1] + [frame.events[number - 1]] + rest[to - 1 :], passed


@plant("direction of triangles")
def direction(rng, frame):
    """Of a whole draw, or of one triangle."""
    number = a_draw(rng, frame)
    if not number:
        return None
    order = list(order_of(frame.events[number - 1]))
    which = range(len(order) // 3) if rng.random() < 0.5 else [rng.randrange(len(order) // 3)]
    for triangle in which:
        order[3 * triangle + 1], order[3 * triangle + 2] = order[3 * triangle + 2], order[3 * triangle + 1]
    return replaced(frame.events, number, frame.events[number - 1] | {"indices": order}), {number}


def slipped(name, change, least=4):
    @plant(name)
    def make(rng, frame):
        number = a_draw(rng, frame, least)
        if not number:
            return None
        order = change(rng, list(order_of(frame.events[number - 1])))
        return replaced(frame.events, number, frame.events[number - 1] | {"indices": order}), {number}

    return make


def leave_out(rng, order):
    at, slip = rng.randrange(len(order) - 3), rng.choice((1, 2, 3))
    return order[:at] + order[at + slip :]


def double(rng, order):
    at, slip = rng.randrange(len(order) - 3), rng.choice((1, 2, 3))
    return order[: at + slip] + order[at:]


def exchange(rng, order):
    i = rng.randrange(len(order) - 4)
    j = i + rng.randrange(1, 5)
    order[i], order[j] = order[j], order[i]
    return order


def mistake(rng, order):
    order[rng.randrange(len(order))] = rng.choice(order)
    return order


slipped("indices left out", leave_out)
slipped("indices doubled", double)
slipped("indices exchanged", exchange)
slipped("an index that is wrong", mistake)
slipped(
    "a triangle that is missing",
    lambda rng, order: (lambda t: order[: 3 * t] + order[3 * t + 3 :])(rng.randrange(len(order) // 3)),
)


def of_vertex(name, members):
    @plant(name)
    def make(rng, frame):
        number = a_draw(rng, frame)
        if not number or name.startswith("depth") and frame.version < 2:
            return None
        event = frame.events[number - 1]
        at, vertices = rng.choice(order_of(event)), list(event["vertices"])
        vertices[at] = vertices[at] | members(rng, vertices[at])
        return replaced(frame.events, number, event | {"vertices": vertices}), {number}

    return make


of_vertex(
    "colour of a vertex",
    lambda rng, vertex: {"color": [rng.randrange(256), rng.randrange(256), rng.randrange(256), vertex["color"][3]]},
)
of_vertex(
    "place of a vertex",
    lambda rng, vertex: {name: vertex[name] + rng.choice((-1, 1)) * rng.randrange(2 << 16, 24 << 16) for name in "xy"},
)
of_vertex("depth of a vertex", lambda rng, vertex: {"z": rng.randrange(65536)})


@plant("two at once")
def two(rng, frame):
    """Two bugs of simple kinds in different events."""
    simple = (
        "write mask",
        "factor of blending",
        "interpolation",
        "colour of a clear",
        "cull",
        "direction of triangles",
        "depth function",
    )
    first = PLANTS[rng.choice(simple)](rng, frame)
    if not first or len(first[0]) != len(frame.events):
        return None
    second = PLANTS[rng.choice(simple)](rng, frame.with_events(first[0]))
    if not second or len(second[0]) != len(frame.events) or second[1] & first[1]:
        return None
    return second[0], first[1] | second[1]
