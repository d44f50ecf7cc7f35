"""The frames. Each has its events, with the bug planted or mended, and the session that finds it.

A session's lines may name an event by what stands in braces: {wall} is the number of the event that was labelled so.
"""
import math
from dataclasses import dataclass, field

from . import shapes
from captures import draw, marker, scissor

from .stage import ADDED, HEIGHT, OVER, WIDTH, band, blend, clear, depth, disc, flat_body, raster, shape, smooth_body
from .stage import textured
from .textures import BRICKS, SAIL, SHINGLES

SEA, SAND = (38, 92, 128), (206, 178, 122)


@dataclass
class Hunt:
    """A frame with its bug planted or mended, and the session that finds it."""

    name: str
    bug: str  # what was planted, in a few words
    events: list = field(default_factory=list)
    labels: dict = field(default_factory=dict)
    session: list = field(default_factory=list)
    version: int = 1

    def add(self, *events, label=None):
        self.events += events
        if label:
            self.labels[label] = len(self.events)


def lantern(planted):
    """A lantern of glass before a window at night, and two books that aren't of glass."""
    frame = Hunt("lantern", "a blend state never taken back")
    frame.add(
        marker("room"),
        clear(24, 26, 38),
        band(0, 64, (30, 34, 60), (66, 56, 74)),
        band(64, HEIGHT, (96, 64, 42), (52, 34, 24)),
    )
    frame.add(marker("lantern"))
    frame.add(blend(True, OVER), disc(44, 44, 34, 24, (255, 190, 90, 230), (255, 150, 70, 0)), blend(False))
    frame.add(flame())
    frame.add(blend(True, OVER), label="glass state")
    frame.add(smooth_body(lantern_part([(0.34, 0.55), (0.42, 0.1), (0.34, -0.5)], (150, 200, 226)), alpha=70))
    if not planted:
        frame.add(blend(False))
    for profile in ([(0.05, 0.92), (0.48, 0.6), (0.48, 0.54), (0.3, 0.5)], [(0.36, -0.5), (0.5, -0.6), (0.5, -0.72)]):
        frame.add(flat_body(lantern_part(profile, (92, 84, 78)), 200))
    frame.add(marker("books"))
    frame.add(
        flat_body(shapes.leant(shapes.box(0.15, -0.86, -0.4, 1.55, -0.5, 0.4, (176, 44, 52)), 12, 1), 120), label="book"
    )
    frame.add(flat_body(shapes.leant(shapes.box(0.3, -0.5, -0.35, 1.4, -0.22, 0.35, (44, 104, 148)), -8, 1), 120))
    frame.session = [
        "events",
        "goto {end}",
        "pixel 78 66",
        "history 78 66",
        "goto {before book}",
        "state",
        "goto {end}",
        "off {glass state}",
        "pixel 78 66",
        "on {glass state}",
    ]
    return frame


def flame():
    return shape(
        [(44, 32), (48, 44), (44, 52), (40, 44)],
        [(255, 246, 190, 255), (255, 200, 90, 255), (250, 160, 60, 255), (255, 200, 90, 255)],
        "linear",
    )


def lantern_part(profile, colour):
    return shapes.moved(shapes.turned(profile, 12, lambda r, i: colour), -0.62, 0, 0)


def balloons(planted):
    """Three balloons over hills in haze; the haze is drawn into blue and alpha alone, and so are the balloons after
    it."""
    frame = Hunt("balloons", "a mask left on")
    frame.add(marker("morning"), clear(0, 0, 0), band(0, HEIGHT, (92, 150, 214), (252, 222, 184)))
    for at, tall, colour in ((20, 26, (86, 118, 92)), (74, 20, (70, 104, 84)), (112, 30, (60, 92, 74))):
        frame.add(shape([(at - 62, HEIGHT), (at, HEIGHT - tall), (at + 62, HEIGHT)], (*colour, 255)))
    frame.add(balloon(-1.15, 0.45, 0.42, (206, 62, 48), (240, 226, 200)))
    frame.add(marker("haze"), blend(True, ADDED, mask=12), label="haze state")
    frame.add(band(56, HEIGHT, (0, 0, 200, 0), (0, 0, 220, 130)))
    frame.add(blend(False, mask=12 if planted else 15), label="after haze")
    frame.add(marker("near balloons"))
    frame.add(balloon(0.2, 0.25, 0.72, (232, 168, 40), (250, 240, 214)), label="balloon")
    frame.add(basket(0.2, 0.25, 0.72), balloon(1.45, 0.75, 0.36, (52, 120, 186), (236, 240, 240)))
    frame.session = [
        "goto {end}",
        "pixel 65 30",
        "history 65 30",
        "goto {before balloon}",
        "state",
        "goto {end}",
        "off {after haze}",
        "off {haze state}",
        "pixel 65 30",
        "on {haze state}",
        "on {after haze}",
    ]
    return frame


def balloon(x, y, size, stripe, other):
    profile = [(0.03, 1.0), (0.6, 0.82), (0.86, 0.4), (0.8, 0.0), (0.5, -0.45), (0.2, -0.8)]
    body = shapes.turned([(size * r, size * h) for r, h in profile], 12, lambda row, i: stripe if i % 2 else other)
    return flat_body(shapes.moved(body, x, y, 0))


def basket(x, y, size):
    return flat_body(
        shapes.moved(
            shapes.box(-0.14 * size, -1.16 * size, -0.1, 0.14 * size, -0.92 * size, 0.1, (112, 74, 40)), x, y, 0
        )
    )


def island(planted):
    """A sea with an island, a map of it in the corner, and a boat that should sail across."""
    frame = Hunt("island", "a scissor left on")
    frame.add(
        marker("sea"),
        clear(0, 0, 0),
        band(0, 40, (250, 214, 160), (252, 240, 214)),
        band(40, HEIGHT, (62, 130, 160), SEA),
    )
    frame.add(disc(30, 38, 13, 14, (255, 250, 220, 255), (252, 222, 150, 255)), band(40, HEIGHT, (62, 130, 160), SEA))
    frame.add(
        shape([(68, 44), (84, 34), (98, 36), (118, 46)], (*SAND, 255)),
        shape([(80, 38), (90, 22), (100, 37)], (74, 116, 70, 255)),
    )
    frame.add(marker("map"), scissor(82, 4, 116, 30), raster("none", True), label="map state")
    frame.add(
        band(0, HEIGHT, (226, 214, 180), (206, 188, 150)),
        disc(100, 18, 12, 9, (150, 170, 110, 255), (186, 180, 120, 255)),
    )
    frame.add(shape([(96, 10), (98, 10), (106, 32), (104, 32)], (170, 60, 50, 255)))
    if not planted:
        frame.add(raster("none", False))
    frame.add(marker("boat"))
    frame.add(shape([(20, 66), (62, 66), (54, 76), (27, 76)], (112, 58, 40, 255)), label="hull")
    frame.add(*mast_and_sails())
    frame.session = [
        "goto {end}",
        "pixel 40 70",
        "history 40 70",
        "goto {before hull}",
        "state",
        "goto {end}",
        "off {map state}",
        "pixel 40 70",
        "on {map state}",
    ]
    return frame


def mast_and_sails():
    yield shape([(40, 22), (42, 22), (42, 66), (40, 66)], (80, 50, 34, 255))
    yield shape([(43, 24), (62, 60), (43, 62)], (250, 246, 236, 255))
    yield shape([(39, 28), (39, 62), (22, 60)], (238, 226, 204, 255))


def fish(planted):
    """A fish whose lower half is the mirror of its upper one; where the corners aren't taken in turn, the mirror
    runs the other way round."""
    frame = Hunt("fish", "a wrong winding")
    frame.add(marker("water"), clear(0, 0, 0), band(0, HEIGHT, (64, 168, 190), (14, 58, 96)))
    for x, tall in ((12, 30), (22, 44), (104, 36), (114, 24)):
        frame.add(shape([(x - 3, HEIGHT), (x + 1, HEIGHT - tall), (x + 4, HEIGHT)], (24, 110, 84, 255)))
    upper = [(20, 45), (26, 34), (40, 26), (58, 24), (74, 30), (88, 42), (88, 45)]
    belly, back = (250, 196, 84, 255), (226, 96, 40, 255)
    frame.add(marker("fish"), shape([(78, 45), (106, 26), (100, 45)], [back, (250, 150, 60, 255), back], "linear"))
    frame.add(shape([(42, 28), (60, 10), (70, 29)], [back, (196, 66, 40, 255), back], "linear"))
    frame.add(shape([(54, 45), *upper], [belly] + [back] * len(upper), "linear"), label="upper half")
    mirrored = [(x, 90 - y) for x, y in upper]
    mirrored = mirrored if planted else mirrored[::-1]
    frame.add(shape([(54, 45), *mirrored], [belly] + [(238, 150, 70, 255)] * len(upper), "linear"), label="lower half")
    tail = [(78, 45), (106, 64), (100, 45)]
    frame.add(shape(tail if planted else tail[::-1], [back, (250, 150, 60, 255), back], "linear"))
    frame.add(
        disc(33, 40, 5, 10, (255, 255, 255, 255), (240, 240, 230, 255)),
        disc(32, 40, 2.4, 8, (20, 20, 30, 255), (20, 20, 30, 255)),
    )
    frame.session = ["goto {end}", "pixel 54 55", "history 54 55", "history 54 35", "goto {before lower half}", "state"]
    return frame


def planet(planted):
    """A planet with a ring: the far half of the ring comes before the planet, and the near half after it."""
    frame = Hunt("planet", "a wrong order of draws")
    frame.add(marker("space"), clear(8, 8, 18))
    stars = [((37 * i) % WIDTH, (53 * i + 11 * (i % 7)) % HEIGHT) for i in range(24)]
    frame.add(
        draw(
            [
                v
                for i, (x, y) in enumerate(stars)
                for v in shape([(x, y), (x + 1 + i % 2, y), (x, y + 1 + i % 2)], (200 + i, 200 + i, 220, 255))[
                    "vertices"
                ]
            ]
        )
    )
    far, near = (disc_ring(half) for half in (1, -1))
    frame.add(marker("ring, far half"), raster("none"), flat_body(far))
    halves = [(marker("ring, near half"), flat_body(near), "near half"), (marker("planet"), planet_body(), "planet")]
    for mark, body, label in halves if planted else halves[::-1]:
        frame.add(mark, body, label=label)
    frame.session = [
        "goto {end}",
        "pixel 60 65",
        "history 60 65",
        "off {planet}",
        "pixel 60 65",
        "on {planet}",
        "goto {near half}",
        "pixel 60 65",
    ]
    return frame


def planet_body():
    bands = [
        (214, 178, 130),
        (232, 204, 160),
        (196, 150, 108),
        (226, 190, 146),
        (240, 216, 178),
        (204, 160, 116),
        (220, 186, 140),
        (190, 146, 106),
    ]
    return flat_body(shapes.leant(shapes.ball(0.95, 8, 16, lambda row, i: bands[row]), 22, 0))


def disc_ring(half):
    """Half of a flat ring, seen from above: the far half for 1, the near one for -1."""
    points, faces = [], []
    for i in range(15):
        u = math.pi * i / 14
        for r in (1.25, 1.55, 2.0):
            points.append((r * math.cos(u), 0.0, -half * r * math.sin(u)))
    for i in range(14):
        for k, colour in ((0, (176, 158, 130)), (1, (224, 206, 170))):
            a, b, c, d = 3 * i + k, 3 * i + 3 + k, 3 * i + 4 + k, 3 * i + 1 + k
            faces += [((a, b, c), colour), ((a, c, d), colour)]
    return shapes.leant(shapes.leant(shapes.upward((points, faces)), 22, 0), 8, 2)


def lighthouse(planted):
    """A lighthouse at dusk; its beam is laid over the sky by its alpha."""
    frame = Hunt("lighthouse", "a wrong blend factor")
    frame.add(
        marker("dusk"),
        clear(0, 0, 0),
        band(0, 62, (40, 44, 92), (214, 128, 104)),
        band(62, HEIGHT, (70, 66, 100), (22, 30, 58)),
    )
    frame.add(shape([(66, HEIGHT), (76, 66), (96, 60), (120, 72), (120, HEIGHT)], (38, 34, 44, 255)))
    frame.add(marker("tower"), tower())
    frame.add(lamp())
    wrong = ["ONE", "INV_SRC_ALPHA", "ADD"]
    frame.add(marker("beam"), blend(True, wrong if planted else OVER), label="beam state")
    frame.add(
        shape(
            [(86, 23), (86, 26), (-4, 40), (-4, 4)],
            [(255, 244, 190, 190), (255, 244, 190, 190), (255, 240, 170, 30), (255, 240, 170, 30)],
            "linear",
        ),
        label="beam",
    )
    frame.add(disc(88, 24, 9, 12, (255, 250, 220, 230), (255, 236, 160, 0)), blend(False))
    frame.session = [
        "goto {end}",
        "pixel 30 22",
        "history 30 22",
        "goto {before beam}",
        "state",
        "goto {end}",
        "off {beam state}",
        "pixel 30 22",
        "on {beam state}",
    ]
    return frame


def tower():
    profile = [(0.16, 0.62), (0.19, 0.3), (0.22, 0.0), (0.25, -0.35), (0.29, -0.75)]
    body = shapes.turned(profile, 10, lambda row, i: (206, 60, 52) if row % 2 else (240, 236, 226))
    return flat_body(shapes.moved(body, 1.1, 0.1, 0))


def lamp():
    profile = [(0.02, 0.95), (0.2, 0.78), (0.13, 0.76), (0.13, 0.62), (0.2, 0.6)]
    body = shapes.turned(profile, 10, lambda row, i: (255, 236, 150) if row == 2 else (70, 60, 60))
    return flat_body(shapes.moved(body, 1.1, 0.1, 0))


def vase(planted):
    """A vase in three parts, each shaded smoothly but one."""
    frame = Hunt("vase", "flat for linear")
    frame.add(
        marker("table"),
        clear(0, 0, 0),
        band(0, 66, (120, 132, 138), (196, 198, 190)),
        band(66, HEIGHT, (132, 96, 70), (90, 62, 46)),
    )
    frame.add(disc(64, 79, 26, 18, (78, 54, 42, 255), (112, 81, 60, 255), 0.35))
    colour = lambda row, i: (60, 132, 150)
    parts = [
        ("foot", [(0.3, -0.62), (0.22, -0.78), (0.5, -0.98)]),
        ("body", [(0.22, 0.36), (0.52, 0.16), (0.74, -0.12), (0.66, -0.4), (0.3, -0.62)]),
        ("neck", [(0.42, 0.98), (0.25, 0.8), (0.18, 0.56), (0.22, 0.36)]),
    ]
    for name, profile in parts:
        frame.add(
            marker(name),
            smooth_body(shapes.turned(profile, 14, colour, 0.2), "flat" if planted and name == "body" else "linear"),
            label=name,
        )
    frame.session = ["events", "goto {end}", "history 52 48", "history 53 48", "history 61 30", "history 62 30"]
    return frame


def doughnut(planted):
    """A ring by indices. One index is missing, and all after it slip."""
    frame = Hunt("doughnut", "an index slip")
    frame.add(marker("plate"), clear(0, 0, 0), band(0, HEIGHT, (206, 226, 226), (160, 190, 196)))
    frame.add(
        disc(60, 54, 47, 22, (250, 250, 246, 255), (226, 228, 226, 255)),
        disc(60, 54, 34, 20, (240, 241, 238, 255), (248, 248, 245, 255)),
    )
    body = shapes.leant(shapes.ring(0.8, 0.36, 16, 8, lambda i, j: (214, 148, 84)), -58, 0)
    icing = shapes.leant(shapes.moved(shapes.ring(0.8, 0.3, 16, 8, lambda i, j: (236, 120, 160)), 0, 0.12, 0), -58, 0)
    frame.add(marker("doughnut"), smooth_body(body), label="body")
    slipped = smooth_body(icing)
    if planted:
        some = slipped["indices"]
        del some[len(some) // 2]
    frame.add(marker("icing"), slipped, label="icing")
    frame.session = ["goto {end}", "pixel 60 52", "history 60 52", "off {icing}", "pixel 60 52", "on {icing}"]
    return frame


def chain(planted):
    """Two links of a chain, tested by depth; of one of them the test is turned round."""
    frame = Hunt("chain", "a wrong depth function", version=2)
    frame.add(marker("ground"), clear(0, 0, 0), band(0, HEIGHT, (96, 104, 112), (40, 44, 50)), depth(True, "LESS"))
    first = shapes.moved(shapes.leant(shapes.ring(0.78, 0.22, 14, 6, lambda i, j: (220, 176, 70)), 62, 0), -0.42, 0, 0)
    second = shapes.moved(
        shapes.leant(shapes.ring(0.78, 0.22, 14, 6, lambda i, j: (150, 170, 190)), -35, 0), 0.52, 0, 0
    )
    frame.add(marker("golden link"), smooth_body(first, deep=True), label="golden link")
    frame.add(marker("steel link"))
    if planted:
        frame.add(depth(True, "GREATER"), label="test")
    frame.add(smooth_body(second, deep=True), label="steel link")
    frame.session = [
        "events",
        "goto {end}",
        "pixel 95 40",
        "history 95 40",
        "goto {before steel link}",
        "state",
        "goto {end}",
        "off {test}",
        "pixel 95 40",
        "on {test}",
    ]
    return frame


def windmill(planted):
    """A windmill whose sails are laths and cloth; each of its draws reads a texture."""
    frame = Hunt("windmill", "a wrong texture", version=3)
    frame.add(
        marker("fields"),
        clear(0, 0, 0),
        band(0, 70, (120, 176, 222), (224, 232, 222)),
        band(70, HEIGHT, (146, 168, 82), (90, 124, 58)),
    )
    straight = lambda x, y: (x, y)
    frame.add(marker("mill"), textured([(48, 82), (54, 34), (68, 34), (74, 82)], BRICKS, straight), label="tower")
    frame.add(textured([(51, 35), (54, 26), (61, 21), (68, 26), (71, 35)], SHINGLES, straight))
    frame.add(shape([(57, 82), (57, 68), (65, 68), (65, 82)], (70, 48, 36, 255)))
    frame.add(marker("sails"))
    for turn, label in enumerate(("first sail", "second sail", "third sail", "last sail")):
        corners, texel_of = sail(20 + 90 * turn)
        frame.add(textured(corners, BRICKS if planted and turn == 1 else SAIL, texel_of), label=label)
    frame.add(disc(61, 29, 3, 10, (90, 70, 56, 255), (60, 46, 38, 255)))
    frame.session = [
        "events",
        "goto {end}",
        "pixel 47 47",
        "history 47 47",
        "history 42 15",
        "history 61 60",
        "off {second sail}",
        "pixel 47 47",
        "on {second sail}",
    ]
    return frame


def sail(degrees):
    """The corners of a sail of the mill, turned about its axle, and the texel on a pixel: along it, and across."""
    right, down = math.cos(math.radians(degrees)), math.sin(math.radians(degrees))
    corners = [(61 + a * right - c * down, 29 + a * down + c * right) for a, c in ((4, 0), (28, 0), (28, 8), (4, 8))]
    return corners, lambda x, y: ((x - 61) * right + (y - 29) * down, (y - 29) * right - (x - 61) * down)


FRAMES = (lantern, balloons, island, fish, planet, lighthouse, vase, doughnut, chain, windmill)
