"""The features that a driver is tried on, by name. scene(feature, seed) is the same capture everywhere."""
from collections.abc import Callable, Sequence
from typing import Any

import captures
from captures import ALPHA_FACTORS, FACTORS, FUNCTIONS, OPERATIONS, PIXEL

from .scenes import HALF, SIDE, Point, Scene, Triangle, box

Feature = Callable[[Scene], None]

OVER = ("SRC_ALPHA", "INV_SRC_ALPHA", "ADD")
SUM = ("ONE", "ONE", "ADD")
NEAR_TIES = (-128, 128, -129, 127, 129, -127, 0, 384, -384)  # 1/512 pixel from a centre, or nearly so
DEEP = 65535
UNSNAPPED = ("snapping",)  # what the driver itself has to snap
WHOLE = "every "  # features that begin so have one scene


# ---- Coverage
def snapping(scene: Scene) -> None:
    """Corners that snap so that edges run through centres, or just don't."""
    for _ in range(4):
        triangles = []
        for _ in range(10):
            corners = [
                tuple(scene.dice.below(SIDE) * PIXEL + HALF + scene.dice.choice(NEAR_TIES) for _ in "xy")
                for _ in range(3)
            ]
            if scene.dice.is_so(6):  # edges along the axes
                (left, top), (right, bottom), _ = corners
                corners = [(left, top), (right, top), (left, bottom)]
            triangles.append(corners)
        scene.flat(triangles)


def subpixels(scene: Scene) -> None:
    """Corners anywhere in 1/256 pixel, or on the driver's own grid."""
    for _ in range(4):
        scene.flat(scene.soup(8))


def shared_edges(scene: Scene) -> None:
    """Each pixel is covered once: added up, a hole or a pixel that is drawn twice shows."""
    scene.blend(SUM, SUM)
    columns, rows = scene.dice.between(3, 12), scene.dice.between(3, 12)
    push = SIDE * PIXEL // max(columns, rows) // 4
    triangles = list(scene.mesh(columns, rows, scene.dice.choice((scene.step, 4096, HALF)), push))
    scene.draw(triangles, [[40] * 4] * 3 * len(triangles))


def top_left_rule(scene: Scene) -> None:
    """Corners on centres, and edges through many of them."""
    for _ in range(4):
        triangles = []
        for _ in range(8):
            (x, y), size = (scene.dice.below(SIDE) * PIXEL + HALF for _ in "xy"), scene.dice.between(1, 24) * PIXEL
            first = scene.dice.choice(((1, 1), (1, 2), (2, 1), (1, 0), (0, 1), (1, 3)))
            second = scene.dice.choice(((1, -1), (0, 1), (-1, 0), (-1, 1), (2, -1)))
            corners = [(x + i * size, y + j * size) for i, j in ((0, 0), first, second)]
            triangles.append(corners if scene.dice.is_so(5) else corners[::-1])
        scene.flat(triangles)


def slivers(scene: Scene, is_linear: bool = False) -> None:
    draw = drawn(scene, is_linear)
    for _ in range(4):
        triangles = []
        for _ in range(60):
            start, end = scene.place(), scene.place()
            triangles.append((start, end, tuple(part + scene.dice.between(-96, 97) * scene.step for part in end)))
        draw(triangles)


def drawn(scene: Scene, is_linear: bool) -> Callable[[Sequence[Triangle]], None]:
    if is_linear:
        return scene.linear
    return scene.flat


def small_triangles(scene: Scene) -> None:
    """Smaller than a pixel, or little larger."""
    for _ in range(4):
        places = [scene.place(fifths=0) for _ in range(120)]
        scene.flat([(place, scene.near(place, 3 * HALF), scene.near(place, 3 * HALF)) for place in places])


def huge(reach: int, is_linear: bool = False) -> Feature:
    """Corners up to so many pixels away."""

    def made(scene: Scene) -> None:
        draw = drawn(scene, is_linear)

        def far() -> Point:
            return tuple(scene.dice.between(-reach, reach) * PIXEL for _ in "xy")

        for _ in range(4):
            triangles = [(far(), far(), scene.place() if scene.dice.is_so(4) else far()) for _ in range(4)]
            draw(triangles)

    return made


# ---- Colours
def flat(scene: Scene) -> None:
    """Corners of different colours, with and without indices."""
    for number in range(4):
        triangles = scene.soup(6)
        count = 3 * len(triangles)
        indices = None if number % 2 else [scene.dice.below(count) for _ in range(count)]
        scene.draw(triangles, [scene.any() for _ in range(count)], indices=indices)


def linear(scene: Scene) -> None:
    for _ in range(4):
        scene.linear(scene.soup(3))


def linear_halfway(scene: Scene) -> None:
    """Means that lie halfway between two bytes, of which the larger is right."""
    for _ in range(3):
        triangles: list[Triangle] = []
        colours: list[list[int]] = []
        for pair in scene.cells(16):
            first, second, third = scene.any(), scene.any(), scene.any()
            triangles += pair
            colours += [first, second, third, second, third, third]
        scene.draw(triangles, colours, interp="linear")


def factor(name: str, is_source: bool) -> Feature:
    def made(scene: Scene) -> None:
        scene.mosaic()
        scene.add(captures.factor(*scene.any()))
        part = [name, "ZERO", "ADD"] if is_source else ["ZERO", name, "ADD"]
        scene.blend(part, part if name in ALPHA_FACTORS else captures.REPLACE)
        scene.mosaic()

    return made


def operation(name: str) -> Feature:
    def made(scene: Scene) -> None:
        scene.mosaic()
        scene.blend(("ONE", "ONE", name), ("ONE", "ONE", name))
        scene.mosaic()

    return made


def alpha_over(scene: Scene) -> None:
    """What programs do: the source's alpha over, and alphas added up."""
    scene.mosaic()
    scene.blend(OVER, ("ONE", "INV_SRC_ALPHA", "ADD"))
    scene.mosaic()


def any_blending(scene: Scene) -> None:
    scene.mosaic()
    for _ in range(4):
        scene.add(captures.factor(*scene.any()))
        rgb, alpha = (
            [scene.dice.choice(names), scene.dice.choice(names), scene.dice.choice(OPERATIONS)]
            for names in (FACTORS, ALPHA_FACTORS)
        )
        scene.blend(rgb, alpha)
        scene.mosaic()


def every_pair(rgb: Sequence[str], alpha: int | None = 255) -> Feature:
    """All pairs of a source's byte (its column) and a destination's (its row)."""

    def made(scene: Scene) -> None:
        scene.side = 256
        for is_row in (True, False):
            triangles: list[Triangle] = []
            colours: list[list[int]] = []
            for byte in range(256):
                triangles += box(0, byte, 256, byte + 1) if is_row else box(byte, 0, byte + 1, 256)
                colours += [[byte, byte, 255 - byte, byte if alpha is None else alpha]] * 6
            scene.draw(triangles, colours)
            scene.blend(rgb)

    return made


# ---- State
def mask(scene: Scene) -> None:
    scene.mosaic(8)
    for bits in range(16):
        scene.blend(captures.REPLACE if bits % 2 else SUM, mask=bits, enable=scene.dice.is_so(5))
        scene.flat(scene.soup(3))


def scissor(scene: Scene) -> None:
    """Rectangles that are empty, turned, outside, or as far as a capture can say."""

    def edge() -> int:
        return scene.dice.choice(
            (0, SIDE, scene.dice.between(-9, SIDE + 9), scene.dice.below(SIDE), captures.LEAST_EDGE, captures.MOST_EDGE)
        )

    for _ in range(10):
        scene.add(captures.scissor(*(edge() for _ in range(4))))
        scene.add(captures.raster("none", scissor=scene.dice.is_so(8)))
        scene.flat(scene.soup(4))


def culling(scene: Scene) -> None:
    for _ in range(3):
        for cull in captures.CULLS:
            for front_ccw in (False, True):
                scene.add(captures.raster(cull, front_ccw))
                places = [scene.place(fifths=0) for _ in range(10)]
                scene.flat(
                    scene.soup(3)
                    + [(place, scene.near(place, 3 * PIXEL), scene.near(place, 3 * PIXEL)) for place in places]
                )


def clears(scene: Scene) -> None:
    """Under a scissor and masks, which don't matter to them."""
    for _ in range(8):
        scene.add(captures.scissor(*(scene.dice.below(SIDE) for _ in range(4))))
        scene.add(captures.raster("none", scissor=True))
        scene.blend(SUM, mask=scene.dice.below(16))
        scene.add(captures.depth(scene.dice.is_so(5), scene.dice.is_so(5), scene.dice.choice(FUNCTIONS)))
        scene.add(captures.clear(*(scene.dice.below(256) for _ in range(4))))
        scene.add(captures.depth_clear(scene.dice.below(DEEP + 1)))


def odd_lists(scene: Scene) -> None:
    """Triangles of no area, corners that are left over, nothing at all, an index twice."""
    for _ in range(4):
        p, q = scene.place(), scene.place()
        triangles = [(p, p, q), (p, q, q), (p, q, tuple(2 * b - a for a, b in zip(p, q))), (p, p, p), *scene.soup(2)]
        scene.flat(triangles)
        vertices = scene.events[-1]["vertices"]
        vertices += vertices[: scene.dice.below(3)]
        scene.add(captures.draw([]))
        scene.add(
            captures.draw(vertices, indices=[scene.dice.below(len(vertices)) for _ in range(scene.dice.below(12))])
        )


def order(scene: Scene) -> None:
    """Triangles on one another in one draw, blended in turn."""
    scene.blend(OVER)
    for _ in range(3):
        triangles = scene.soup(20)
        colours = [[scene.dice.choice((0, 255)) for _ in range(4)] for _ in triangles]
        scene.draw(triangles, [colour for colour in colours for _ in range(3)])


# ---- Depth
def depth_function(name: str) -> Feature:
    """Depths that are the same all over a triangle, with neighbours by 1: nothing is interpolated."""

    def made(scene: Scene) -> None:
        scene.add(captures.depth_clear(scene.dice.choice((0, DEEP, scene.dice.below(DEEP + 1)))))
        scene.depth("ALWAYS")
        levels = [0, DEEP] + [scene.dice.below(DEEP + 1) for _ in range(4)]
        levels += [min(DEEP, level + 1) for level in levels]
        for _ in range(4):
            scene.flat(scene.soup(8), [depth for _ in range(8) for depth in [scene.dice.choice(levels)] * 3])
            scene.depth(name, write=scene.dice.is_so(8))

    return made


def any_depths(scene: Scene, count: int) -> list[int]:
    return [
        scene.dice.choice((0, DEEP, scene.dice.below(DEEP + 1), scene.dice.below(DEEP + 1))) for _ in range(3 * count)
    ]


def depth_values(scene: Scene) -> None:
    scene.depth("ALWAYS")
    for _ in range(3):
        scene.flat(scene.soup(3), any_depths(scene, 3))


def depth_crossing(scene: Scene) -> None:
    scene.depth("LESS")
    for _ in range(4):
        scene.flat(scene.soup(4), [scene.dice.below(DEEP + 1) for _ in range(12)])


def depth_again(scene: Scene) -> None:
    """The same triangles a second time, EQUAL: each passes where it was in front."""
    scene.depth("LESS_EQUAL")
    scene.flat(scene.soup(6), [scene.dice.below(DEEP + 1) for _ in range(18)])
    first = scene.events[-1]["vertices"]
    scene.depth("EQUAL", write=False)
    scene.add(
        captures.draw([vertex | {"color": [255 - byte for byte in vertex["color"][:3]] + [255]} for vertex in first])
    )


FEATURES: dict[str, Feature] = {
    "snapping": snapping,
    "subpixels": subpixels,
    "shared edges": shared_edges,
    "top-left rule": top_left_rule,
    "slivers": slivers,
    "small triangles": small_triangles,
    "huge, to 1,000": huge(1000),
    "huge, to 8,000": huge(8000),
    "huge, to 16,000": huge(16000),
    "flat": flat,
    "linear": linear,
    "linear, halfway": linear_halfway,
    "linear, slivers": lambda scene: slivers(scene, is_linear=True),
    "linear, huge": huge(4000, is_linear=True),
    **{f"source factor {name}": factor(name, True) for name in FACTORS},
    **{f"destination factor {name}": factor(name, False) for name in FACTORS},
    **{f"operation {name}": operation(name) for name in OPERATIONS},
    "alpha over": alpha_over,
    "any blending": any_blending,
    "mask": mask,
    "scissor": scissor,
    "culling": culling,
    "clears": clears,
    "odd lists": odd_lists,
    "order": order,
    **{f"depth {name}": depth_function(name) for name in FUNCTIONS},
    "depth values": depth_values,
    "depth, crossing": depth_crossing,
    "depth, again EQUAL": depth_again,
    "every product": every_pair(("DEST_COLOR", "ZERO", "ADD")),
    "every sum": every_pair(SUM),
    "every difference": every_pair(("ONE", "ONE", "SUBTRACT")),
    "every half over": every_pair(OVER, 128),
    "every own alpha over": every_pair(OVER, None),
    "every third over": every_pair(OVER, 85),
}


def scene(feature: str, seed: int, bits: int = 8) -> dict[str, Any]:
    """A capture of a feature, with corners on so many bits of a pixel's fraction."""
    made = Scene(feature, seed, bits)
    FEATURES[feature](made)
    version = 2 if feature.startswith(("depth", "clears")) else 1
    return captures.frame(made.side, made.side, made.events, version)


def coarse(capture: dict[str, Any], bits: int) -> dict[str, Any]:
    """A capture with its corners moved to the nearest places that so many bits of a pixel's fraction hold."""
    step = 1 << 16 - bits
    if bits >= 8:
        return capture

    def moved(vertex: dict[str, Any]) -> dict[str, Any]:
        return vertex | {name: (vertex[name] + step // 2) // step * step for name in "xy"}

    events = [
        event | {"vertices": list(map(moved, event["vertices"]))} if event["kind"] == "draw" else event
        for event in capture["events"]
    ]
    return capture | {"events": events}
