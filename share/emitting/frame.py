#!/usr/bin/env python3
"""The frame of frame.c from Python: PYTHONPATH=tools share/emitting/frame.py > frame.json"""
import math
import sys

from captures import Capture, place

WIDTH, HEIGHT = 320, 240


def quad(capture, turn, depth, colour, source):
    red, green, blue, alpha = colour
    corners = []
    for i in range(4):
        angle, w = turn + i * math.pi / 2, 2.0
        x, y, z = place((math.cos(angle) * 1.2, math.sin(angle) * 1.2, (depth * 2 - 1) * w, w), (0, 0, WIDTH, HEIGHT))
        corners.append((x, y, z, (red * (i + 4) // 7, green, blue, alpha)))
    capture.draw(corners, indices=[0, 1, 2, 0, 2, 3], source={"event": source})


def decal(capture, source):
    places = [(x, y) for y in range(5) for x in range(8)]
    rgba = bytes(byte for x, y in places for byte in (30 * x, 40 * y, 255 - 30 * x, 255))
    capture.draw_picture(
        [(90, 50, 0.2), (90, 90, 0.2), (130, 50, 0.2)],
        (100, 60, 8, 5),
        rgba,
        [(x + y) % 4 == 0 for x, y in places],
        source={"event": source},
    )


capture = Capture(WIDTH, HEIGHT)
capture.marker('the "frame" begins')
capture.clear(20, 24, 40, 255)
capture.depth_clear(1.0)
capture.raster("back", True, False)
capture.depth(True, True, "LESS")
quad(capture, 0.3, 0.5, (255, 80, 40, 255), 1)
quad(capture, 0.9, 0.4, (60, 200, 90, 255), 2)
capture.blend(True, "SRC_ALPHA INV_SRC_ALPHA ADD", "ONE ZERO ADD")
capture.scissor(60, 40, 260, 130)
capture.raster("back", True, True)
quad(capture, 0.6, 0.3, (90, 120, 255, 128), 3)
decal(capture, 4)
capture.write(sys.stdout)
