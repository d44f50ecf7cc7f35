#!/usr/bin/env python3
"""frame_scene.py [SECONDS]: draws one and the same frame over and over in a window of its own, by OpenGL ES 3, for
checks/check_frames.

In it is what other programs seldom have together: strips with restarts, fans, instances, both windings with each
cull mode, a viewport smaller than the target, scissors, clears of a rectangle and of some channels, each comparison
of depths, depth bias, blending, a shader that discards, lines, points, and triangles that reach behind the eye. Only
libX11, libEGL and libGLESv2 are called.
"""
import ctypes
import struct
import sys
import time
from ctypes import byref, c_char_p, c_float, c_int, c_uint, c_void_p

WIDTH, HEIGHT = 320, 240
SECONDS = 60
VERTEX = b"""#version 300 es
layout(location = 0) in vec4 place;
layout(location = 1) in vec4 colour;
out vec4 shade;
void main() {
    gl_Position = place + vec4(0.11 * float(gl_InstanceID), -0.07 * float(gl_InstanceID), 0.0, 0.0);
    gl_PointSize = 1.0;
    shade = colour;
}"""
PIXEL = b"""#version 300 es
precision highp float;
in vec4 shade;
out vec4 seen;
void main() { seen = shade; }"""
HOLED = PIXEL.replace(
    b"seen = shade;",
    b"if (mod(floor(gl_FragCoord.x / 9.0) + floor(gl_FragCoord.y / 7.0), 2.0) < 0.5) discard; seen = shade;",
)
# OpenGL's and EGL's numbers
COLOR_BIT, DEPTH_BIT, FLOAT, UNSIGNED_SHORT, ARRAY, ELEMENTS, STATIC = (
    0x4000,
    0x100,
    0x1406,
    0x1403,
    0x8892,
    0x8893,
    0x88E4,
)
POINTS, LINES, LINE_LOOP, TRIANGLES, STRIP, FAN = 0, 1, 2, 4, 5, 6
BLEND, CULL_FACE, DEPTH_TEST, SCISSOR_TEST, OFFSET_FILL, RESTART = 0xBE2, 0xB44, 0xB71, 0xC11, 0x8037, 0x8D69
FRONT, BACK, CW, CCW, NEVER = 0x404, 0x405, 0x900, 0x901, 0x200
ONE, SRC_ALPHA, INV_SRC_ALPHA, FUNC_ADD, MAX = 1, 0x302, 0x303, 0x8006, 0x8008
CONFIG = [
    0x3040,
    0x40,
    0x3033,
    4,
    0x3024,
    8,
    0x3023,
    8,
    0x3022,
    8,
    0x3021,
    8,
    0x3025,
    24,
    0x3038,
]  # ES 3, a window, 8 bits a channel, depth of 24


GLASS = (0.6, 0.3, 0.2, 0.5)
GLASSES = ((SRC_ALPHA, INV_SRC_ALPHA, FUNC_ADD), (ONE, ONE, FUNC_ADD), (ONE, ONE, MAX))


def library(name, **results):
    made = ctypes.CDLL(name)
    for call, kind in results.items():
        getattr(made, call).restype = kind
    return made


def window():
    """Opens the window, and gives the call that shows what was drawn."""
    x11 = library(
        "libX11.so.6", XOpenDisplay=c_void_p, XCreateSimpleWindow=ctypes.c_ulong, XDefaultRootWindow=ctypes.c_ulong
    )
    egl = library("libEGL.so.1", eglGetDisplay=c_void_p, eglCreateWindowSurface=c_void_p, eglCreateContext=c_void_p)
    screen = c_void_p(x11.XOpenDisplay(None))
    if not screen.value:
        sys.exit("frame_scene: there is no screen (DISPLAY)")
    root = ctypes.c_ulong(x11.XDefaultRootWindow(screen))
    own = ctypes.c_ulong(
        x11.XCreateSimpleWindow(screen, root, 0, 0, WIDTH, HEIGHT, 0, ctypes.c_ulong(0), ctypes.c_ulong(0))
    )
    x11.XMapWindow(screen, own)
    x11.XSync(screen, 0)
    display = c_void_p(egl.eglGetDisplay(screen))
    config, count = c_void_p(), c_int()
    ready = egl.eglInitialize(display, None, None) and egl.eglBindAPI(0x30A0)
    if (
        not ready
        or not egl.eglChooseConfig(display, (c_int * len(CONFIG))(*CONFIG), byref(config), 1, byref(count))
        or not count.value
    ):
        sys.exit("frame_scene: EGL has no such window")
    surface = c_void_p(egl.eglCreateWindowSurface(display, config, own, None))
    context = c_void_p(egl.eglCreateContext(display, config, None, (c_int * 3)(0x3098, 3, 0x3038)))
    if not egl.eglMakeCurrent(display, surface, surface, context):
        sys.exit("frame_scene: EGL gives no context of OpenGL ES 3")
    return lambda: egl.eglSwapBuffers(display, surface)


class Pen:
    """Draws with one program: places are x, y, z, w of clip space, a colour for each corner."""

    def __init__(self):
        self.gl = library("libGLESv2.so.2", glCreateShader=c_uint, glCreateProgram=c_uint)
        self.whole, self.holed = self.program(PIXEL), self.program(HOLED)
        self.gl.glUseProgram(self.whole)
        self.buffers = {}

    def program(self, pixel, vertex=VERTEX):
        program = self.gl.glCreateProgram()
        for kind, text in ((0x8B31, vertex), (0x8B30, pixel)):
            shader = self.gl.glCreateShader(kind)
            self.gl.glShaderSource(shader, 1, byref(c_char_p(text)), None)
            self.gl.glCompileShader(shader)
            self.gl.glAttachShader(program, shader)
        self.gl.glLinkProgram(program)
        return program

    def buffer(self, kind, content):
        """A buffer of these bytes, bound; the same for the same bytes."""
        made = self.buffers.setdefault((kind, content), c_uint())
        new = not made.value
        if new:
            self.gl.glGenBuffers(1, byref(made))
        self.gl.glBindBuffer(kind, made)
        if new:
            self.gl.glBufferData(kind, ctypes.c_ssize_t(len(content)), content, STATIC)

    def draw(self, mode, places, colour, indices=None, instances=1):
        content = b"".join(struct.pack("<8f", *place, *shaded(colour, number)) for number, place in enumerate(places))
        self.buffer(ARRAY, content)
        for slot in (0, 1):
            self.gl.glEnableVertexAttribArray(slot)
            self.gl.glVertexAttribPointer(slot, 4, FLOAT, 0, 32, c_void_p(16 * slot))
        if indices:
            self.buffer(ELEMENTS, struct.pack(f"<{len(indices)}H", *indices))
            self.gl.glDrawElementsInstanced(mode, len(indices), UNSIGNED_SHORT, None, instances)
        else:
            self.gl.glDrawArraysInstanced(mode, 0, len(places), instances)

    def turn(self, on, *what):
        for one in what:
            (self.gl.glEnable if on else self.gl.glDisable)(one)

    def clear(self, colour, depth=None):
        self.gl.glClearColor(*map(c_float, colour))
        self.gl.glClearDepthf(c_float(1.0 if depth is None else depth))
        self.gl.glClear(COLOR_BIT | (0 if depth is None else DEPTH_BIT))


def shaded(colour, number):
    """The colour of a corner: each the darker the later it comes."""
    return tuple(channel * (1 - 0.1 * (number % 4)) for channel in colour[:3]) + (colour[3],)


def corners(*points, z=0.0, w=1.0):
    return [(x * w, y * w, z * w, w) for x, y in points]


def opaque(pen):
    """Strips, fans and instances, with both windings and each cull mode; a small viewport; clears of parts."""
    gl = pen.gl
    zigzag = corners(*((-0.95 + 0.13 * i, 0.9 - 0.23 * (i % 2)) for i in range(12)), w=2.0)
    pen.turn(True, RESTART)
    pen.draw(STRIP, zigzag, (0.9, 0.3, 0.2, 1), [0, 1, 2, 3, 4, 5, 0xFFFF, 6, 7, 8, 9, 0xFFFF, 9, 10, 11])
    pen.turn(False, RESTART)
    pen.draw(
        FAN,
        corners((0.2, 0.2), (0.5, 0.1), (0.63, 0.33), (0.41, 0.57), (0.13, 0.49), (-0.03, 0.21)),
        (0.2, 0.7, 0.4, 1),
    )
    pen.turn(True, CULL_FACE)
    for number, (face, front) in enumerate(((BACK, CCW), (BACK, CW), (FRONT, CCW), (FRONT, CW))):
        gl.glCullFace(face)
        gl.glFrontFace(front)
        left = -0.9 + 0.45 * number
        upper = corners((left, -0.1), (left + 0.3, -0.13), (left + 0.11, 0.13))
        lower = corners((left, -0.2), (left + 0.13, -0.43), (left + 0.31, -0.21))
        pen.draw(TRIANGLES, upper + lower, (0.3, 0.4, 0.9, 1))
    pen.turn(False, CULL_FACE)
    pen.draw(TRIANGLES, corners((-0.9, -0.9), (-0.61, -0.87), (-0.77, -0.53)), (0.8, 0.8, 0.2, 1), instances=3)
    gl.glViewport(170, 20, 90, 70)
    pen.draw(TRIANGLES, corners((-1.5, -1.3), (1.7, -0.2), (-0.3, 1.9)), (0.6, 0.2, 0.7, 1))
    gl.glViewport(0, 0, WIDTH, HEIGHT)
    pen.turn(True, SCISSOR_TEST)
    gl.glScissor(250, 150, 50, 70)
    pen.clear((0.1, 0.5, 0.5, 1))
    pen.draw(TRIANGLES, corners((0.3, 0.1), (0.99, 0.4), (0.6, 0.95)), (0.9, 0.6, 0.1, 1))
    pen.turn(False, SCISSOR_TEST)
    gl.glColorMask(0, 0, 1, 0)
    pen.draw(TRIANGLES, corners((-0.4, 0.1), (0.3, 0.3), (-0.1, 0.8)), (1, 1, 1, 1))
    gl.glColorMask(1, 1, 1, 1)


def deep(pen):
    """Slopes in depth that cut each other, by each comparison; bias; what reaches behind the eye."""
    gl = pen.gl
    pen.turn(True, DEPTH_TEST)
    for number in range(8):
        gl.glDepthFunc(NEVER + number)
        gl.glDepthMask(number % 3 > 0)
        left, turn = -1 + 0.24 * number, 1 if number % 2 else -1
        pen.draw(
            TRIANGLES,
            [(left, -0.9, 0.7 * turn, 1), (left + 0.4, -0.8, -0.6 * turn, 1), (left + 0.1, -0.05, 0.1, 1)],
            (0.2 + 0.1 * number, 0.5, 0.9 - 0.1 * number, 1),
        )
    gl.glDepthMask(1)
    gl.glDepthFunc(NEVER + 3)
    wall = [(-0.2, -0.2, -0.85, 1), (0.9, -0.3, -0.5, 1), (0.4, 0.6, -0.7, 1)]
    pen.draw(TRIANGLES, wall, (0.5, 0.5, 0.5, 1))
    pen.turn(True, OFFSET_FILL)
    gl.glPolygonOffset(c_float(1.5), c_float(4e5))
    pen.draw(TRIANGLES, [(x, y + 0.2, z, w) for x, y, z, w in wall], (0.9, 0.1, 0.1, 1))
    pen.turn(False, OFFSET_FILL)
    pen.draw(TRIANGLES, [(-0.9, 0.2, 0.2, 1.0), (0.1, 2.0, 1.1, 2.2), (0.2, -0.4, -1.5, -0.6)], (0.1, 0.8, 0.8, 1))
    pen.turn(False, DEPTH_TEST)


def holed(pen):
    """Squares that a shader discards, and what lies deeper, seen through them."""
    pen.turn(True, DEPTH_TEST)
    pen.gl.glUseProgram(pen.holed)
    pen.draw(STRIP, corners((0.53, -0.95), (0.97, -0.93), (0.51, -0.55), (0.95, -0.51), z=-0.95), (0.9, 0.9, 0.3, 1))
    pen.gl.glUseProgram(pen.whole)
    pen.draw(STRIP, corners((0.55, -0.9), (0.99, -0.97), (0.57, -0.6), (0.93, -0.4), z=-0.9), (0.2, 0.1, 0.5, 1))
    pen.turn(False, DEPTH_TEST)


def blended(pen):
    """Glass over it, something added, the brighter of two; lines and points."""
    gl = pen.gl
    pen.turn(True, BLEND)
    for number, (source, destination, operation) in enumerate(GLASSES):
        gl.glBlendFunc(source, destination)
        gl.glBlendEquation(operation)
        left = -0.8 + 0.5 * number
        pen.draw(STRIP, corners((left, -0.6), (left + 0.4, -0.63), (left + 0.03, 0.7), (left + 0.45, 0.61)), GLASS)
    pen.turn(False, BLEND)
    pen.draw(
        LINES,
        corners((-0.93, -0.97), (0.87, -0.31), (0.71, -0.93), (0.83, 0.77), (-0.61, 0.13), (-0.11, 0.13)),
        (1, 1, 1, 1),
    )
    pen.draw(LINE_LOOP, corners((-0.71, 0.41), (-0.23, 0.93), (0.11, 0.37)), (1, 0.9, 0.2, 1))
    pen.draw(POINTS, corners(*((-0.97 + 0.101 * i, 0.97) for i in range(19))), (1, 0.2, 0.9, 1))


def main():
    if sys.argv[1:2] in (["--help"], ["-h"]):
        print(__doc__)
        return
    end = time.monotonic() + (float(sys.argv[1]) if sys.argv[1:] else SECONDS)
    show, pen = window(), Pen()
    while time.monotonic() < end:
        pen.clear((0.15, 0.17, 0.25, 1), 0.98)
        opaque(pen)
        deep(pen)
        holed(pen)
        blended(pen)
        show()


if __name__ == "__main__":
    main()
