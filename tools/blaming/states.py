"""Kinds of change: parts of the state, clears, and how a draw is shaded. One thing of one event, by the values that
it can have."""
import collections
from collections.abc import Callable, Iterable, Iterator, Sequence
from typing import Any, TypeVar

from captures import ALPHA_FACTORS, CULLS, FACTORS, FARTHEST, FUNCTIONS, INTERPOLATIONS, OPERATIONS, Event
from captures import depth, scissor
from rules.states import AT_START

from .blending import Chain
from .evidence import Sample
from .everywhere import last_corner
from .frame import key_of
from .kinds import Case, Made, inserted, kind, replaced

Held = TypeVar("Held")  # what is known of a pixel
MOST_VALUES = 4  # of several values that all pixels allow
MOST_HELD = 48  # states that other events set, of those that differ the nearest


def with_members(case: Case, number: int, says: str, **members: Any) -> Made:
    event = case.frame.events[number - 1]
    if any(event.get(name) != value for name, value in members.items()):
        yield says, replaced(case.frame.events, number, event | members)


@kind("write mask", "blend")
def masks(case: Case, number: int) -> Made:
    was = case.frame.events[number - 1]["mask"]
    for mask in sorted(range(16), key=lambda mask: (mask != 15, (mask ^ was).bit_count())):
        yield from with_members(case, number, f"mask {mask} in place of {was}", mask=mask)


@kind("blending on or off", "blend")
def enables(case: Case, number: int) -> Made:
    enable = not case.frame.events[number - 1]["enable"]
    yield from with_members(case, number, f"blending {'on' if enable else 'off'}", enable=enable)


@kind("factor of blending", "blend")
def factors(case: Case, number: int) -> Made:
    event = case.frame.events[number - 1]
    for part, names, word in (("rgb", FACTORS, "colour"), ("alpha", ALPHA_FACTORS, "alpha")):
        for at, side in ((0, "source"), (1, "destination")):
            for name in names:
                three = [name if i == at else was for i, was in enumerate(event[part])]
                yield from with_members(
                    case,
                    number,
                    f"the {side} factor of {word} {name} in place of {event[part][at]}",
                    **{part: three, "enable": True},
                )
    alike = [name.replace("_COLOR", "_ALPHA") for name in event["rgb"]]
    yield from with_members(
        case,
        number,
        f"the alpha part like the colour part, {' '.join(alike)} in place of {' '.join(event['alpha'])}",
        alpha=alike,
        enable=True,
    )


@kind("operation of blending", "blend")
def operations(case: Case, number: int) -> Made:
    event = case.frame.events[number - 1]
    for part, word in (("rgb", "colour"), ("alpha", "alpha")):
        for name in OPERATIONS:
            yield from with_members(
                case,
                number,
                f"the operation of {word} {name} in place of {event[part][2]}",
                **{part: [*event[part][:2], name], "enable": True},
            )


@kind("cull", "raster")
def culls(case: Case, number: int) -> Made:
    was = case.frame.events[number - 1]["cull"]
    for cull in CULLS:
        yield from with_members(case, number, f"cull {cull} in place of {was}", cull=cull)


@kind("front face", "raster")
def fronts(case: Case, number: int) -> Made:
    ccw = not case.frame.events[number - 1]["front_ccw"]
    yield from with_members(case, number, f"front faces {'counter-clockwise' if ccw else 'clockwise'}", front_ccw=ccw)


@kind("scissor on or off", "raster")
def scissors(case: Case, number: int) -> Made:
    scissor = not case.frame.events[number - 1]["scissor"]
    yield from with_members(case, number, f"scissor {'on' if scissor else 'off'}", scissor=scissor)


@kind("rectangle of the scissor", "scissor")
def rectangles(case: Case, number: int) -> Made:
    """One edge, or two, where a cluster of wrong pixels ends, or where the target does."""
    was = case.frame.events[number - 1]["rect"]
    whole = [0, 0, case.frame.width, case.frame.height]
    yield from with_members(case, number, "the whole target as its rectangle", rect=whole)
    boxes = [cluster.box for cluster in case.clusters[:6]]
    ends = [
        sorted({box[at % 2] for box in boxes} | {box[at % 2 + 2] for box in boxes} | {whole[at]}) for at in range(4)
    ]
    single = [(at, end) for at in range(4) for end in ends[at] if end != was[at]]
    for at, end in single:
        rect = [end if i == at else edge for i, edge in enumerate(was)]
        yield from with_members(
            case, number, f"{('left', 'top', 'right', 'bottom')[at]} {end} in place of {was[at]}", rect=rect
        )
    for box in boxes[:2]:
        rect = [min(was[0], box[0]), min(was[1], box[1]), max(was[2], box[2]), max(was[3], box[3])]
        yield from with_members(case, number, f"the rectangle {' '.join(map(str, rect))}", rect=rect)


@kind("depth test on or off", "depth")
def tests(case: Case, number: int) -> Made:
    enable = not case.frame.events[number - 1]["enable"]
    yield from with_members(case, number, f"depth test {'on' if enable else 'off'}", enable=enable)


@kind("depth writes", "depth")
def writes(case: Case, number: int) -> Made:
    write = not case.frame.events[number - 1]["write"]
    yield from with_members(case, number, f"depth writes {'on' if write else 'off'}", write=write)


@kind("depth function", "depth")
def functions(case: Case, number: int) -> Made:
    was = case.frame.events[number - 1]["func"]
    for func in sorted(FUNCTIONS, key=lambda func: func not in ("LESS", "LESS_EQUAL")):
        yield from with_members(case, number, f"depth function {func} in place of {was}", func=func)


@kind("value of a depth clear", "depth_clear")
def depths(case: Case, number: int) -> Made:
    """The two ends, and values between the depths that the wrong pixels' entries have."""
    was = case.frame.events[number - 1]["depth"]
    met = sorted(
        {
            entry.depths.source
            for sample in case.samples
            for entry in sample.entries
            if entry.event > number and entry.depths
        }
    )
    between = [met[round(i * (len(met) - 1) / 15)] for i in range(16)] if met else []
    for value in dict.fromkeys([FARTHEST, 0, *(near for least in between for near in (least, least + 1)), 32768]):
        if value <= FARTHEST:
            yield from with_members(case, number, f"depth {value} in place of {was}", depth=value)


@kind("interpolation", "draw")
def interpolations(case: Case, number: int) -> Made:
    was = case.frame.events[number - 1]["interp"]
    for other in [other for other in INTERPOLATIONS if was in INTERPOLATIONS and other != was]:
        yield from with_members(case, number, f"{other} in place of {was}", interp=other)


@kind("corner of the flat colour", "draw")
def flat_corners(case: Case, number: int) -> Made:
    """A flat triangle has its first corner's colour; OpenGL's has its last one's, unless it is told otherwise."""
    yield from with_members(
        case, number, "the last corner's colour in flat triangles", **last_corner(case.frame.events[number - 1])
    )


# ---- Values that are worked out from the pixels
def allowed(
    case: Case, chains: Sequence[tuple[Sample, Held]], finals: Callable[[Held, int, int], Sequence[int]]
) -> Iterator[tuple[int, list[int]]]:
    """For each channel that is looked at the values with which every pixel comes out as wanted; `finals` gives a
    pixel's colour by chain, channel and value."""
    for channel in case.looked_at:
        values: Sequence[int] = range(256)
        for sample, chain in chains:
            values = [
                value
                for value in values
                if case.is_near(only(finals(chain, channel, value), sample.wanted, channel), sample.wanted)
            ]
            if not values:
                break
        yield channel, list(values)


def only(colour: Sequence[int], wanted: Sequence[int], channel: int) -> tuple[int, ...]:
    """A colour that is as wanted but in one channel."""
    return tuple(colour[i] if i == channel else value for i, value in enumerate(wanted))


def filled(was: Sequence[int], found: Iterable[tuple[int, list[int]]]) -> Iterator[list[int]]:
    """The colours that the values found allow, the nearest to what it was first."""
    colour = list(was)
    for channel, values in found:
        if not values:
            return
        colour[channel] = min(values, key=lambda value: abs(value - was[channel]))
    yield colour


@kind("colour of a clear", "clear")
def clears(case: Case, number: int) -> Made:
    was = case.frame.events[number - 1]["color"]
    says = lambda colour: f"clear {' '.join(map(str, colour))} in place of {' '.join(map(str, was))}"
    seen = collections.Counter(
        sample.wanted for sample in case.samples if sample.drawn and sample.drawn[-1].event == number
    )
    for wanted, _ in seen.most_common(MOST_VALUES):
        colour = [value if channel in case.looked_at else was[channel] for channel, value in enumerate(wanted)]
        yield from with_members(case, number, says(colour), color=colour)
    chains = [
        (sample, chain, at)
        for sample in case.samples[:24]
        for chain in [Chain(case.frame, sample.entries)]
        for at, entry in enumerate(chain.entries)
        if entry.event == number
    ]
    if chains:
        finals = lambda held, channel, value: held[0].final(
            held[1] + 1, tuple(value if i == channel else byte for i, byte in enumerate(was))
        )
        for colour in filled(was, allowed(case, [(sample, (chain, at)) for sample, chain, at in chains], finals)):
            yield from with_members(case, number, says(colour), color=colour)


@kind("blend factor", "factor")
def factor_values(case: Case, number: int) -> Made:
    was = case.frame.events[number - 1]["color"]
    by = {event for event in case.touched() if case.frame.setter(event, "factor") == number}
    chains = [
        (sample, Chain(case.frame, sample.entries))
        for sample in case.samples[:24]
        if any(entry.event in by for entry in sample.entries)
    ]
    if chains:

        def finals(chain: Chain, channel: int, value: int) -> Sequence[int]:
            colour = [value if i == channel else byte for i, byte in enumerate(was)]
            return chain.final(0, (0, 0, 0, 0), factors=dict.fromkeys(by, colour))

        for colour in filled(was, allowed(case, chains, finals)):
            yield from with_members(
                case, number, f"factor {' '.join(map(str, colour))} in place of {' '.join(map(str, was))}", color=colour
            )


# ---- What is missing before a draw
def blends(*parts: str) -> list[Event]:
    return [
        AT_START["blend"] | {"enable": True, "rgb": part.split(), "alpha": ["ONE", "INV_SRC_ALPHA", "ADD"]}
        for part in parts
    ]


# states that a program often sets, for where the one that is wanted is nowhere in the frame
USUAL: dict[str, list[Event]] = {
    "blend": blends(
        "SRC_ALPHA INV_SRC_ALPHA ADD",
        "ONE INV_SRC_ALPHA ADD",
        "SRC_ALPHA ONE ADD",
        "ONE ONE ADD",
        "DEST_COLOR ZERO ADD",
        "ZERO SRC_COLOR ADD",
    ),
    "raster": [AT_START["raster"] | {"cull": cull, "front_ccw": ccw} for ccw in (False, True) for cull in CULLS],
    "depth": [depth(write=write, func=func) for write in (True, False) for func in ("LESS", "LESS_EQUAL", "ALWAYS")],
}


@kind("a part of the state before a draw", "draw")
def before(case: Case, number: int) -> Made:
    """As at the start, as another event sets it, or as is usual: a state that was never set, or never taken back.
    Before a draw that covers no point it does what it does before the next one that covers some."""
    if not case.points.covering(case.frame.events[number - 1]):
        return
    for part in case.frame.states:
        by = case.frame.setter(number, part)
        held = [
            ("as at the start", AT_START[part]),
            *(
                (f"as event {i} sets it", case.frame.events[i - 1])
                for i in case.frame.settings(number, part, MOST_HELD)
            ),
            *((told(event), event) for event in (round_clusters(case) if part == "scissor" else USUAL.get(part, []))),
        ]
        seen = {key_of(case.frame.state(number, part))}
        for says, event in held:
            if key_of(event) not in seen:
                seen.add(key_of(event))
                yield f"with {part} {says}", inserted(case.frame.events, number, event), *([by] if by else [])


def round_clusters(case: Case) -> list[Event]:
    """Scissors round what differs: round all of it, and round each of the largest clusters."""
    boxes = [cluster.box for cluster in case.clusters]
    all_ = [end(box[at] for box in boxes) for at, end in enumerate((min, min, max, max))] if boxes else []
    return [scissor(*rect) for rect in ([all_, *boxes[:MOST_VALUES]] if boxes else [])]


def told(event: Event) -> str:
    """A state in framedbg's own words."""
    flat = [part for value in list(event.values())[1:] for part in (value if isinstance(value, list) else [value])]
    return " ".join(str(int(part)) if isinstance(part, bool) else str(part) for part in flat)


@kind("both factors of blending", "blend", searches=True)
def both_factors(case: Case, number: int) -> Made:
    """Two at once: one writes them together."""
    event = case.frame.events[number - 1]
    for first in FACTORS:
        for second in FACTORS:
            yield from with_members(
                case,
                number,
                f"the factors of colour {first} {second} in place of {event['rgb'][0]} {event['rgb'][1]}",
                rgb=[first, second, event["rgb"][2]],
                enable=True,
            )


@kind("both factors of alpha", "blend", searches=True)
def both_alpha_factors(case: Case, number: int) -> Made:
    event = case.frame.events[number - 1]
    was, operation = " ".join(event["alpha"][:2]), event["alpha"][2]
    for first in ALPHA_FACTORS:
        for second in ALPHA_FACTORS:
            says = f"the factors of alpha {first} {second} in place of {was}"
            yield from with_members(case, number, says, alpha=[first, second, operation], enable=True)
