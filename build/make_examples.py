#!/usr/bin/env python3
"""make_examples.py: writes the captures and sessions of examples/, and by reference.py what each session must be
answered with.

Run it at the repository's root after an edit here. Nothing of the program's own output goes into these files.
"""
import argparse
import math
import pathlib
import subprocess
import sys

import folders

import captures
from captures import FUNCTIONS, PIXEL, REPLACE, blend, clear, compact, depth, depth_clear, marker, raster, scissor
from framedbg_client.replies import images_of

EXAMPLES = pathlib.Path("examples")
TRIANGLE = [(0, 0), (2, 0), (0, 2)]
SUM, KEEP = ["ONE", "ONE", "ADD"], ["ZERO", "ONE", "ADD"]
sessions = {}


def vertex(x, y, colour, z=None):
    """A corner, of version 2 where it has a depth."""
    return captures.vertex(int(x * PIXEL), int(y * PIXEL), colour, z)


def draw(triangles, colour=None, interp="flat", z=None):
    """Triangles in pixels, in one colour and at one depth, or with a colour as the third part of each corner and a
    depth as the fourth."""
    corners = [(p[0], p[1], colour or p[2], p[3] if len(p) > 3 else z) for t in triangles for p in t]
    return captures.draw([vertex(*corner) for corner in corners], interp)


def quad(left, top, right, bottom, upper, lower=None, interp="flat", z=None):
    lower = lower or upper
    a, b, c, d = (left, top, upper), (right, top, upper), (right, bottom, lower), (left, bottom, lower)
    return draw([[a, b, d], [b, c, d]], interp=interp, z=z)


def painted(triangles, box, texels, holes=None, z=0):
    """Triangles in pixels at one depth, and what is put out over a box: a colour a pixel, and the pixels of it that
    are holes, rows from the top."""
    left, top, width, height = box
    rgba = bytes(byte for texel in texels for byte in texel)
    truths = holes and [(left + n % width, top + n // width) in holes for n in range(width * height)]
    corners = [captures.corner(int(x * PIXEL), int(y * PIXEL), z) for t in triangles for x, y in t]
    return captures.picture_draw(corners, captures.picture(left, top, width, height, rgba, truths))


def fan(x, y, radius, corners, centre, rim, z=None, z_rim=None):
    """A disc as triangles round its centre, by indices; rim is a colour for each corner in turn. With z_rim it is a
    cone in depth."""
    around = [
        (x + radius * math.cos(2 * math.pi * i / corners), y + radius * math.sin(2 * math.pi * i / corners))
        for i in range(corners)
    ]
    vertices = [vertex(x, y, centre, z)] + [
        vertex(px, py, rim[i % len(rim)], z if z_rim is None else z_rim) for i, (px, py) in enumerate(around)
    ]
    return captures.draw(vertices, "linear", [k for i in range(corners) for k in (0, 1 + i, 1 + (i + 1) % corners)])


def capture(name, width, height, events, version=1):
    made = captures.frame(width, height, events, version)
    (EXAMPLES / f"{name}.json").write_text(captures.text(made) if len(events) > 1 else compact(made) + "\n")


def session(name, of, *lines):
    """The lines of a session over a capture, each by itself or several in a text, with `; ` between them."""
    (EXAMPLES / f"{name}.session").write_text("; ".join(lines).replace("; ", "\n") + "\n")
    sessions[name] = of


def small_captures():
    capture("row01", 1, 1, [clear(10, 20, 30, 40)])
    capture("no_events", 1, 1, [])
    red, green = (255, 0, 0, 255), (0, 255, 0, 255)
    capture(
        "two_triangles",
        2,
        2,
        [draw([[(0, 0, red), (2, 0, red), (0, 2, red)], [(2, 0, green), (2, 2, green), (0, 2, green)]])],
    )
    capture("across_two_tiles", 33, 1, [clear(1, 2, 3, 4)])
    black = (0, 0, 0, 255)
    capture("linear_red", 1, 1, [draw([[(0, 0, black), (2, 0, black), (0, 2, red)]], interp="linear")])
    indexed = draw([[(0, 0, red), (2, 0, green), (0, 2, red)]])
    indexed["vertices"].append(vertex(2, 2, red))
    indexed["indices"] = [0, 1, 2, 1, 3, 2]
    capture("indexed", 2, 2, [indexed])
    capture("widest_target", 16384, 1, [draw([[(0, 0), (16384, 0), (0, 16384)]], (7, 7, 7, 7))])


def state_captures():
    capture(
        "masked_and_scissored",
        2,
        2,
        [
            raster("none", 0, 1),
            scissor(0, 0, 1, 1),
            blend(0, REPLACE, REPLACE, 5),
            clear(9, 9, 9, 9),
            draw([[(0, 0), (4, 0), (0, 4)]], (200, 201, 202, 203)),
        ],
    )
    capture(
        "alpha_scaled",
        1,
        1,
        [blend(1, ["SRC_ALPHA", "ZERO", "ADD"], REPLACE, 15), draw([TRIANGLE], (200, 100, 50, 128))],
    )
    capture("added_twice", 1, 1, [blend(1, SUM, SUM, 15), draw([TRIANGLE, TRIANGLE], (10, 10, 10, 10))])
    capture(
        "culled_then_scissored",
        1,
        1,
        [
            draw([[(0, 0), (0, 2), (2, 0)]], (1, 1, 1, 1)),
            raster("back", 0, 1),
            draw([TRIANGLE], (2, 2, 2, 2)),
            scissor(0, 0, 1, 1),
            draw([TRIANGLE], (3, 4, 5, 6)),
        ],
    )


def small_sessions():
    session("row01", "row01", "step", "show", "quit")
    session("no_events", "no_events", "step", "back", "goto 0", "goto 1", "on 1", "show")
    session("there_and_back", "row01", "step", "back", "show")
    session(
        "two_triangles", "two_triangles", "goto 1; pixel 0 0; pixel 1 0; pixel 0 1; pixel 1 1; pixel 2 0; history 1 0"
    )
    session(
        "masked_and_scissored",
        "masked_and_scissored",
        "goto 5; show; goto 4; pixel 0 0; pixel 1 1; goto 5; pixel 0 0; pixel 1 1; state; goto 0; goto 5; show; off 3",
        "events",
    )
    session("alpha_scaled", "alpha_scaled", "goto 2", "pixel 0 0", "off 1", "pixel 0 0", "on 1", "pixel 0 0", "on 1")
    session("added_twice", "added_twice", "goto 2", "history 0 0", "back", "pixel 0 0")
    session("across_two_tiles", "across_two_tiles", "step", "pixel 32 0", "show")
    session("culled_then_scissored", "culled_then_scissored", "goto 5", "history 0 0", "off 5", "history 0 0")
    session("linear_red", "linear_red", "goto 1", "pixel 0 0", "history 0 0")
    session(
        "widest_target",
        "widest_target",
        "goto 1; pixel 16382 0; pixel 16383 0; history 16382 0; history 16383 0; pixel 16384 0",
    )
    session("indexed", "indexed", "goto 1", "pixel 0 0", "pixel 1 0", "pixel 0 1", "pixel 1 1", "events")


def depth_captures():
    """Captures of version 2: depth tested, hidden whatever the order, crossing, by each function, not written, not
    cleared."""
    capture("row01_version_2", 1, 1, [clear(10, 20, 30, 40)], version=2)
    farther = draw([TRIANGLE], (2, 2, 2, 2), z=2000)
    capture(
        "depth_test",
        1,
        1,
        [depth(1, 1, "LESS"), draw([TRIANGLE], (1, 1, 1, 1), z=1000), farther, depth_clear(65535), farther],
        version=2,
    )
    capture("hidden_in_any_order", 32, 24, hill_and_tower(), version=2)
    red, blue = (220, 30, 20, 255), (30, 60, 230, 255)
    capture(
        "crossing",
        16,
        16,
        [
            depth(1, 1, "LESS_EQUAL"),
            draw([[(0, 0, red, 0), (16, 0, red, 60000), (0, 16, red, 20000)]]),
            draw([[(0, 0, blue, 40000), (16, 0, blue, 1000), (0, 16, blue, 20000)]], interp="linear"),
        ],
        version=2,
    )
    black = (0, 0, 0, 255)
    capture(
        "depth_rounded",
        1,
        1,
        [depth(1, 1, "ALWAYS"), draw([[(0, 0, black, 0), (2, 0, black, 0), (0, 2, black, 65535)]])],
        version=2,
    )
    capture("each_depth_function", 3, 9, each_function(), version=2)
    capture("writes_off", 4, 4, not_written(), version=2)
    capture("depth_left_alone", 2, 2, left_alone(), version=2)


def hill_and_tower():
    """The hill is drawn before and after the tower: where one is off the other hides as much."""
    hill = fan(11, 13, 11, 7, (250, 230, 90, 255), [(120, 60, 10, 255), (160, 90, 20, 255)], z=42000, z_rim=50000)
    tower = fan(20, 11, 9, 5, (240, 240, 255, 255), [(20, 60, 160, 255)], z=9000, z_rim=30000)
    return [
        clear(20, 30, 40, 255),
        depth(1, 1, "LESS"),
        hill,
        tower,
        hill,
        marker("the hill is drawn before and after the tower"),
    ]


def each_function():
    """A row for each function, with depths before, at and behind the one that is there; then one without the test."""
    rows = [depth_clear(1000)]
    for row, func in enumerate(FUNCTIONS):
        rows += [depth(1, 1, func)] + [
            quad(column, row, column + 1, row + 1, (10 * row, column, 7, 255), z=999 + column) for column in range(3)
        ]
    rows += [depth(0, 1, "NEVER"), quad(0, 8, 3, 9, (80, 9, 9, 255), z=999)]
    return rows


def not_written():
    """Two panes of glass, which let each other's colours through, and one behind the wall."""
    glass = (200, 200, 255, 128)
    return [
        depth(1, 1, "LESS"),
        quad(0, 0, 4, 4, (90, 60, 30, 255), z=30000),
        blend(1, ["SRC_ALPHA", "INV_SRC_ALPHA", "ADD"], REPLACE, 15),
        depth(1, 0, "LESS"),
        quad(0, 0, 2, 4, glass, z=10000),
        quad(0, 0, 4, 2, glass, z=20000),
        quad(0, 0, 4, 4, glass, z=40000),
    ]


def left_alone():
    """Draws that are masked, culled, scissored or not tested, and clears: some of them leave the depths alone."""
    return [
        depth(1, 1, "LESS_EQUAL"),
        quad(0, 0, 2, 2, (1, 1, 1, 1), z=500),
        clear(5, 6, 7, 8),
        blend(0, REPLACE, REPLACE, 0),
        quad(0, 0, 2, 2, (2, 2, 2, 2), z=400),
        blend(0, REPLACE, REPLACE, 15),
        raster("back", 0, 1),
        scissor(0, 0, 1, 2),
        quad(0, 0, 2, 2, (3, 3, 3, 3), z=300),
        raster("front", 0, 0),
        quad(0, 0, 2, 2, (4, 4, 4, 4), z=200),
        depth(0, 1, "LESS"),
        raster("none", 0, 0),
        quad(0, 0, 2, 1, (6, 6, 6, 6), z=100),
        depth_clear(600),
        depth_clear(0),
    ]


def depth_sessions():
    session("row01_version_2", "row01_version_2", "step", "show", "pixel 0 0", "state", "quit")
    session(
        "depth_test",
        "depth_test",
        "goto 3; pixel 0 0; goto 5; pixel 0 0; goto 3; pixel 0 0; off 2; pixel 0 0; on 2; goto 5; history 0 0; state",
        "events",
    )
    session(
        "depth_clear_switched_off",
        "depth_test",
        "goto 5; off 4; pixel 0 0; history 0 0; back; pixel 0 0; back; back; back; pixel 0 0; on 4; goto 4; pixel 0 0",
        "step; pixel 0 0; events",
    )
    session(
        "hidden_in_any_order",
        "hidden_in_any_order",
        "goto 6; off 5; show; on 5; off 3; show; history 16 12; on 3; history 16 12; quit",
    )
    session(
        "crossing",
        "crossing",
        "goto 3; show; pixel 2 2; pixel 10 2; history 2 5; history 3 5; history 4 5; history 5 5; back; pixel 4 5",
        "pixel 5 5",
    )
    session("depth_rounded", "depth_rounded", "goto 2", "pixel 0 0")


def depth_state_sessions():
    everywhere = [f"pixel {column} {row}" for row in range(9) for column in range(3)]
    session(
        "each_depth_function",
        "each_depth_function",
        "goto 100; goto 35",
        *everywhere,
        "show; history 1 4; events; goto 30; state; back; pixel 0 7",
    )
    session(
        "writes_off",
        "writes_off",
        "goto 7; show; history 0 0; history 3 0; history 3 3; off 4; history 0 0; show; state",
    )
    session(
        "depth_left_alone",
        "depth_left_alone",
        "goto 15",
        *[f"history {x} {y}" for y in (0, 1) for x in (0, 1)],
        "off 1; history 0 0; goto 14; pixel 1 1; on 1; pixel 1 1; off 14; pixel 1 0",
    )


def picture_captures():
    """Captures of version 3: a picture with a hole blended and tested by depth, one that is smaller than its
    triangle, one that reaches beyond the target, pictures that are culled, scissored and drawn twice, and large
    ones. tests/test_pictures.py has the small ones worked out by hand.
    """
    whole = [[(0, 0), (4, 0), (0, 4)]]
    four = [(200, 100, 0, 255), (255, 0, 10, 51), (40, 80, 120, 0), (7, 7, 7, 255)]
    capture("row01_version_3", 1, 1, [clear(10, 20, 30, 40)], version=3)
    capture(
        "picture_blended",
        2,
        2,
        [
            clear(100, 100, 100, 100),
            blend(1, ["SRC_ALPHA", "INV_SRC_ALPHA", "ADD"], REPLACE, 15),
            painted(whole, (0, 0, 2, 2), four, [(1, 1)], z=500),
        ],
        version=3,
    )
    capture(
        "picture_tested",
        2,
        2,
        [
            depth(1, 1, "LESS"),
            quad(0, 0, 1, 2, (9, 9, 9, 9), z=1000),
            painted(whole, (0, 0, 2, 2), four, [(0, 1), (1, 1)], z=2000),
            draw(whole, (3, 3, 3, 3), z=3000),
        ],
        version=3,
    )
    everywhere = [[(0, 0), (8, 0), (0, 8)]]
    capture("picture_smaller", 4, 4, [clear(1, 1, 1, 1), painted(everywhere, (1, 1, 2, 2), four)], version=3)
    capture(
        "picture_beyond", 4, 4, [painted(everywhere, (2, 3, 3, 2), [(n, n, n, 255) for n in range(10, 16)])], version=3
    )
    capture("picture_passed_over", 2, 1, passed_over(whole), version=3)
    capture("pictures", 72, 48, large_pictures(), version=3)


def passed_over(whole):
    """Pictures that are culled, scissored and drawn twice, and members that are passed over."""
    two, turned = [(5, 6, 7, 8), (250, 0, 0, 9)], [[(0, 0), (0, 4), (4, 0)]]
    twice = painted(whole, (0, 0, 2, 1), two)
    twice["indices"] = [0, 1, 2, 2, 0, 1]
    twice["vertices"][1]["color"] = "none"  # a colour is passed over in a draw with a picture
    plain = draw([[(0, 0), (2, 0), (0, 2)]], (1, 1, 1, 1), z=0)
    plain["picture"] = "none"  # and a picture in any other
    return [
        painted(turned, (0, 0, 2, 1), two, [(1, 0)]),
        raster("none", 0, 1),
        painted(turned, (0, 0, 2, 1), two, [(1, 0)]),
        raster("none", 0, 0),
        blend(1, SUM, SUM, 7),
        twice,
        plain,
    ]


def large_pictures():
    """Over six tiles: a backdrop, a disc whose outside is holes behind a wall and before it, and a pane that is
    blended."""
    backdrop = [(3 * x % 256, 5 * y % 256, (x * y) % 256, 255) for y in range(48) for x in range(72)]
    disc = [(255 - 6 * x, 6 * x, 5 * y, 40 + 4 * y) for y in range(40) for x in range(40)]
    outside = [
        (x + 16, y + 4)
        for y in range(40)
        for x in range(40)
        if (x - 20) ** 2 + (y - 20) ** 2 > 361 or (x - 14) ** 2 + (y - 12) ** 2 < 16
    ]
    sheet = [[(0, 0), (72, 0), (0, 48)], [(72, 0), (72, 48), (0, 48)]]
    square = [[(10, 0), (70, 0), (10, 48)], [(70, 0), (70, 48), (10, 48)]]
    pane = [(9 * (x % 5), 200, 255 - 3 * y, 16 * (x % 16)) for y in range(20) for x in range(50)]
    box, wall = (16, 4, 40, 40), quad(30, 0, 44, 48, (120, 120, 130, 255), z=20000)
    return [
        marker("a backdrop, and a disc that is cut out"),
        painted(sheet, (0, 0, 72, 48), backdrop, z=60000),
        depth(1, 1, "LESS"),
        depth_clear(65535),
        wall,
        painted(square, box, disc, outside, z=30000),
        blend(1, ["SRC_ALPHA", "INV_SRC_ALPHA", "ADD"], SUM, 15),
        raster("none", 0, 1),
        scissor(20, 20, 68, 44),
        painted(square, (40, 14, 50, 20), pane, z=10000),
        depth(1, 1, "GREATER_EQUAL"),
        painted(square, box, disc[::-1], outside, z=20000),
    ]


def picture_sessions():
    all_four = [f"{ask} {x} {y}" for ask in ("pixel", "history") for y in (0, 1) for x in (0, 1)]
    session("row01_version_3", "row01_version_3", "step", "show", "pixel 0 0", "state", "events", "quit")
    session(
        "picture_blended",
        "picture_blended",
        "goto 3",
        *all_four,
        "show; events; off 3; pixel 0 0; on 3; back; pixel 1 0; step; pixel 1 0; pixel 1 1",
    )
    session(
        "picture_tested",
        "picture_tested",
        "goto 4",
        *all_four,
        "back",
        *all_four[:4],
        "off 2",
        *all_four,
        "step; pixel 0 0; pixel 0 1; back; back; pixel 1 0",
    )
    session(
        "picture_smaller",
        "picture_smaller",
        "goto 2; show; history 0 0; history 1 1; history 2 2; history 3 2; back; pixel 1 1",
    )
    session("picture_beyond", "picture_beyond", "goto 1; show; history 2 3; history 3 3; history 2 2; history 1 3")
    session(
        "picture_passed_over",
        "picture_passed_over",
        "goto 7; history 0 0; history 1 0; events; off 1; off 3; history 1 0",
    )


def large_pictures_session():
    asked = [f"history {x} {y}" for x, y in ((0, 0), (16, 4), (36, 24), (30, 16), (44, 20), (60, 30), (36, 34))]
    session(
        "pictures",
        "pictures",
        "goto 12; show; events",
        *asked,
        "off 5; show; goto 6; show; back; pixel 36 24; step; pixel 50 30; on 5; pixel 36 24; goto 11; back; back",
        "pixel 50 30; show; goto 2; pixel 71 47",
    )


def crowd():
    """Frames upon frames on a target of 64 tiles: enough to draw for a crew of 64 workers to start them all."""
    events = [marker("a crowd of discs, tested by depth")]
    for turn in range(12):
        events += [
            clear(8 * turn, 20, 40, 255),
            depth_clear(65535 - 500 * turn),
            clear(20, 40, 8 * turn, 255),
            depth(1, turn % 5 != 4, ("LESS", "LESS_EQUAL", "NOT_EQUAL")[turn % 3]),
        ]
        for i in range(3):
            x, y = 128 + 40 * math.cos(turn + 1.6 * i), 128 + 40 * math.sin(turn + 1.6 * i)
            rim = [(50 * i, 20 * turn, 255 - 20 * turn, 255), (255 - 60 * i, 90, 20 * turn, 160)]
            events.append(
                fan(x, y, 118, 4, (255, 250, 200, 255), rim, z=8000 + 9000 * i, z_rim=60000 - 6000 * i - 900 * turn)
            )
            if i == 1:
                events.append(blend(turn % 2, ["SRC_ALPHA", "INV_SRC_ALPHA", "ADD"], SUM, 15))
    capture("crowd", 256, 256, events, version=2)
    last = len(events)
    session(
        "crowd",
        "crowd",
        f"goto {last}; pixel 128 128; pixel 40 200; history 100 140; show; back; step; goto {last - 20}; pixel 128 128",
        f"pixel 255 255; goto {last}; off {last - 5}; pixel 3 3; pixel 128 128; on {last - 5}; pixel 3 3; goto 0",
        f"goto 20; off 3; pixel 128 128; on 3; pixel 40 200; off 2; goto 4; pixel 200 20; goto {last - 1}",
        "history 30 128",
    )


def hides_in_any_order():
    """The two images of the session hidden_in_any_order are one: the order of drawing makes no difference."""
    first, second = images_of((EXAMPLES / "hidden_in_any_order.expected").read_bytes())
    assert first == second


def house():
    """A house whose walls let the hill through: the blend state of the greenhouse is still on when they are drawn."""
    capture(
        "house",
        96,
        64,
        [
            marker("sky"),
            clear(0, 0, 0, 255),
            quad(0, 0, 96, 64, (60, 110, 200, 255), (205, 230, 245, 255), "linear"),
            marker("sun and hills"),
            fan(78, 13, 9, 16, (255, 250, 210, 255), [(255, 200, 60, 255)]),
            draw([[(-10, 64), (20, 26), (60, 64)], [(30, 64), (70, 30), (120, 64)]], (60, 130, 60, 255)),
            marker("greenhouse"),
            blend(1, ["SRC_ALPHA", "INV_SRC_ALPHA", "ADD"], REPLACE, 15),
            quad(24, 36, 36, 50, (120, 170, 255, 96)),
            marker("house"),
            quad(44, 36, 76, 60, (190, 60, 50, 128)),
            draw([[(40, 36), (60, 20), (80, 36)]], (110, 40, 30, 255)),
            quad(56, 46, 64, 60, (70, 45, 25, 255)),
        ],
    )
    session(
        "house_find",
        "house",
        "events; goto 13; pixel 50 50; history 50 50; goto 10; state; goto 13; off 8; pixel 50 50; on 8; quit",
    )
    session("house_show", "house", "goto 13", "show", "off 8", "show", "quit")


def gallery():
    """Linear shading by indices, and a glow that is added on top."""
    wheel = [
        (255, 0, 0, 255),
        (255, 255, 0, 255),
        (0, 255, 0, 255),
        (0, 255, 255, 255),
        (0, 0, 255, 255),
        (255, 0, 255, 255),
    ]
    glows = [fan(x, y, 22, 24, (90, 80, 60, 0), [(0, 0, 0, 0)]) for x, y in ((32, 32), (96, 32), (64, 110))]
    capture(
        "gallery",
        128,
        128,
        [
            clear(0, 0, 0, 255),
            quad(0, 0, 128, 128, (20, 20, 30, 255), (90, 90, 120, 255), "linear"),
            fan(64, 64, 58, 6, (255, 255, 255, 255), wheel),
            marker("glow, added"),
            blend(1, SUM, KEEP, 7),
            *glows,
        ],
    )
    session("gallery", "gallery", "goto 8", "show", "history 64 20", "events")


def main():
    argparse.ArgumentParser(description=__doc__).parse_args()
    small_captures()
    state_captures()
    small_sessions()
    depth_captures()
    depth_sessions()
    depth_state_sessions()
    picture_captures()
    picture_sessions()
    large_pictures_session()
    crowd()
    house()
    gallery()
    (EXAMPLES / "sessions.txt").write_text("".join(f"{name} {of}\n" for name, of in sessions.items()))
    pathlib.Path("crates/worked_sessions/stdout").write_text("".join(f"{name}: as expected\n" for name in sessions))
    for name, of in sessions.items():
        with open(EXAMPLES / f"{name}.session", "rb") as lines, open(EXAMPLES / f"{name}.expected", "wb") as expected:
            subprocess.run(
                [sys.executable, "build/reference.py", EXAMPLES / f"{of}.json"],
                stdin=lines,
                stdout=expected,
                check=True,
            )
    hides_in_any_order()


if __name__ == "__main__":
    main()
