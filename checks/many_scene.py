#!/usr/bin/env python3
"""many_scene.py [SECONDS]: draws a frame of 300 draws over and over in a window of 1280 by 800, by OpenGL ES 3,
to measure how long it takes to be converted.

A third of the draws are tested by depth and replace, a third are glass, and a third read a texture and are blended by
its alpha. Each is some two hundred pixels wide, so that the capture is no larger than one may be.
"""
import ctypes
import sys
import time
from ctypes import byref, c_int, c_uint

import frame_scene
from frame_scene import BLEND, DEPTH_TEST, FUNC_ADD, INV_SRC_ALPHA, SECONDS, SRC_ALPHA, STRIP, Pen, corners, window

WIDE, HIGH, DRAWS, SIDE = 1280, 800, 300, 64
TEXTURED = b"""#version 300 es
precision highp float;
uniform sampler2D leaves;
in vec4 shade;
out vec4 seen;
void main() { seen = shade * texture(leaves, gl_FragCoord.xy / 97.0); }"""
TEXTURE, RGBA, RGBA8, BYTE, NEAREST = 0xDE1, 0x1908, 0x8058, 0x1401, 0x2600


def leaves(gl):
    """A texture of specks, some of which can be seen through."""
    texels = bytes(
        (x * 37 + y * 91 + channel * 53 + x * y * 7) % 256
        for y in range(SIDE)
        for x in range(SIDE)
        for channel in range(4)
    )
    texture = c_uint()
    gl.glGenTextures(1, byref(texture))
    gl.glBindTexture(TEXTURE, texture)
    gl.glTexImage2D(TEXTURE, 0, RGBA8, SIDE, SIDE, 0, RGBA, BYTE, ctypes.c_char_p(texels))
    for name in (0x2800, 0x2801):
        gl.glTexParameteri(TEXTURE, name, c_int(NEAREST))


def draw(pen, textured, number):
    kind, left, low = number % 3, -1 + 0.0053 * (number * 61 % 300), -1 + 0.0047 * (number * 97 % 300)
    pen.turn(kind == 0, DEPTH_TEST)
    pen.turn(kind > 0, BLEND)
    pen.gl.glUseProgram(textured if kind == 2 else pen.whole)
    pen.draw(
        STRIP,
        corners(
            (left, low),
            (left + 0.28, low + 0.04),
            (left + 0.04, low + 0.38),
            (left + 0.32, low + 0.42),
            z=0.9 - 0.005 * (number * 29 % 300),
        ),
        (0.2 + number % 7 / 9, 0.9 - number % 5 / 7, 0.5, 0.6 if kind else 1),
    )


def main():
    if sys.argv[1:2] in (["--help"], ["-h"]):
        print(__doc__)
        return
    end = time.monotonic() + (float(sys.argv[1]) if sys.argv[1:] else SECONDS)
    frame_scene.WIDTH, frame_scene.HEIGHT = WIDE, HIGH
    show, pen = window(), Pen()
    leaves(pen.gl)
    textured = pen.program(TEXTURED)
    while time.monotonic() < end:
        pen.gl.glViewport(0, 0, WIDE, HIGH)
        pen.clear((0.15, 0.17, 0.25, 1), 1.0)
        pen.gl.glBlendFunc(SRC_ALPHA, INV_SRC_ALPHA)
        pen.gl.glBlendEquation(FUNC_ADD)
        for number in range(DRAWS):
            draw(pen, textured, number)
        show()


if __name__ == "__main__":
    main()
