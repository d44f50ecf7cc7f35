#!/usr/bin/env python3
"""passes_scene.py [SECONDS]: draws one and the same frame of two passes over and over in a window of its own, by
OpenGL ES 3, for checks/check_frames.

The first pass draws a lamp over a wall onto a texture that is called "lit": its glow, which is added, is green and
should be orange. The second lays that texture over the whole window through a shader that turns it grey toward the
edges, and puts a bar below it.
"""
import sys
import time
from ctypes import byref, c_int, c_uint

from frame_scene import BLEND, FAN, FUNC_ADD, HEIGHT, ONE, SECONDS, STRIP, WIDTH, Pen, corners, window

LIT = b"lit"
WHOLE = b"""#version 300 es
layout(location = 0) in vec4 place;
out vec2 at;
void main() { gl_Position = place; at = place.xy * 0.5 + 0.5; }"""
GREYED = b"""#version 300 es
precision highp float;
uniform sampler2D lit;
in vec2 at;
out vec4 seen;
void main() {
    vec3 found = texture(lit, at).rgb;
    float grey = dot(found, vec3(0.3, 0.6, 0.1)), far = clamp(2.0 * distance(at, vec2(0.5)), 0.0, 1.0);
    seen = vec4(mix(found, vec3(grey), 0.8 * far * far), 1.0);
}"""
WALL, LAMP, GLOW, BAR = (0.25, 0.2, 0.3, 1), (0.7, 0.7, 0.6, 1), (0.1, 0.5, 0.05, 0), (0.2, 0.3, 0.5, 1)
TEXTURE, RGBA, RGBA8, BYTE, NEAREST, LEAST, MOST = 0xDE1, 0x1908, 0x8058, 0x1401, 0x2600, 0x2801, 0x2800
WRAPS, CLAMP = (0x2802, 0x2803), 0x812F
FRAMEBUFFER, ATTACHED, OF_TEXTURE = 0x8D40, 0x8CE0, 0x1702


class Passes(Pen):
    """Draws onto a texture, and from that onto the window."""

    def __init__(self):
        super().__init__()
        self.greyed = self.program(GREYED, WHOLE)
        self.texture, self.framebuffer = c_uint(), c_uint()
        gl = self.gl
        gl.glGenTextures(1, byref(self.texture))
        gl.glBindTexture(TEXTURE, self.texture)
        gl.glTexImage2D(TEXTURE, 0, RGBA8, WIDTH, HEIGHT, 0, RGBA, BYTE, None)
        for name, value in ((LEAST, NEAREST), (MOST, NEAREST), *((wrap, CLAMP) for wrap in WRAPS)):
            gl.glTexParameteri(TEXTURE, name, c_int(value))
        gl.glObjectLabel(OF_TEXTURE, self.texture, len(LIT), LIT)
        gl.glGenFramebuffers(1, byref(self.framebuffer))
        gl.glBindFramebuffer(FRAMEBUFFER, self.framebuffer)
        gl.glFramebufferTexture2D(FRAMEBUFFER, ATTACHED, TEXTURE, self.texture, 0)
        gl.glBindTexture(TEXTURE, 0)

    def lit(self):
        gl = self.gl
        gl.glBindFramebuffer(FRAMEBUFFER, self.framebuffer)
        gl.glUseProgram(self.whole)
        self.clear(WALL)
        self.draw(STRIP, corners((-0.1, -0.9), (0.1, -0.9), (-0.2, 0.2), (0.2, 0.2)), LAMP)
        self.turn(True, BLEND)
        gl.glBlendFunc(ONE, ONE)
        gl.glBlendEquation(FUNC_ADD)
        self.draw(FAN, corners((0, 0.3), (0.6, 0.1), (0.4, 0.8), (-0.4, 0.8), (-0.6, 0.1), (0, -0.5)), GLOW)
        self.turn(False, BLEND)

    def shown(self):
        gl = self.gl
        gl.glBindFramebuffer(FRAMEBUFFER, 0)
        gl.glUseProgram(self.greyed)
        gl.glBindTexture(TEXTURE, self.texture)
        self.draw(STRIP, corners((-1, -1), (1, -1), (-1, 1), (1, 1)), WALL)
        gl.glBindTexture(TEXTURE, 0)
        gl.glUseProgram(self.whole)
        self.draw(STRIP, corners((-0.8, -0.95), (0.3, -0.95), (-0.8, -0.8), (0.3, -0.8)), BAR)


def main():
    if sys.argv[1:2] in (["--help"], ["-h"]):
        print(__doc__)
        return
    end = time.monotonic() + (float(sys.argv[1]) if sys.argv[1:] else SECONDS)
    show, pen = window(), Passes()
    while time.monotonic() < end:
        pen.lit()
        pen.shown()
        show()


if __name__ == "__main__":
    main()
