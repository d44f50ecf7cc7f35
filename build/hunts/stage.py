"""From meshes to events: one camera, one light, and the events of a capture."""
import math

import captures
from captures import FARTHEST, PIXEL, REPLACE, draw

WIDTH, HEIGHT = 120, 90
LIGHT = (-0.45, 0.75, 0.55)
OVER, ADDED = ["SRC_ALPHA", "INV_SRC_ALPHA", "ADD"], ["SRC_ALPHA", "ONE", "ADD"]
KEEP = ["ZERO", "ONE", "ADD"]
NEAR, FAR = 3.0, 9.0  # of the depth, in the meshes' units from the eye


def clear(*colour):
    return captures.clear(*colour, 255)


def blend(enable, rgb=REPLACE, alpha=KEEP, mask=15):
    return captures.blend(enable, rgb, alpha if enable else REPLACE, mask)


def raster(cull="back", scissor=False):
    return captures.raster(cull, scissor=scissor)


def depth(enable, func, write=True):
    return captures.depth(enable, write, func)


def vertex(x, y, colour, z=None):
    return captures.vertex(round(x * PIXEL), round(y * PIXEL), list(colour) + [255] * (4 - len(colour)), z)


def shape(corners, colour, interp="flat"):
    """A flat figure as a fan round its first corner; colour is one, or one for each corner."""
    colours = colour if isinstance(colour, list) else [colour] * len(corners)
    vertices = [vertex(*corner, c) for corner, c in zip(corners, colours)]
    return draw(vertices, interp, [k for i in range(1, len(corners) - 1) for k in (0, i, i + 1)])


def band(top, bottom, upper, lower, left=0, right=WIDTH):
    """A rectangle that shades from its upper colour to its lower one."""
    return shape([(left, top), (right, top), (right, bottom), (left, bottom)], [upper, upper, lower, lower], "linear")


def disc(x, y, radius, corners, centre, rim, tall=1.0):
    """A disc, or an ellipse that is so many times as tall as it is wide, shaded from its centre to its rim."""
    turns = [2 * math.pi * i / corners for i in range(corners)]
    around = [(x + radius * math.cos(turn), y + tall * radius * math.sin(turn)) for turn in turns]
    return shape([(x, y), *around, around[0]], [centre] + [rim] * (corners + 1), "linear")


def textured(corners, texture, texel_of):
    """A flat figure as a fan round its first corner, that reads a texture: texel_of gives the texel (u, v) on which a
    pixel's centre lies. A texel of alpha 0 is discarded."""
    columns, rows = zip(*corners)
    left, top, right, bottom = int(min(columns)), int(min(rows)), math.ceil(max(columns)), math.ceil(max(rows))
    texels = [texture.at(*texel_of(x + 0.5, y + 0.5)) for y in range(top, bottom) for x in range(left, right)]
    holes = [not texel[3] for texel in texels]
    rgba = bytes(value for texel in texels for value in texel)
    box = captures.picture(left, top, right - left, bottom - top, rgba, holes if any(holes) else None)
    fan = [k for i in range(1, len(corners) - 1) for k in (0, i, i + 1)]
    places = [captures.corner(round(x * PIXEL), round(y * PIXEL), FARTHEST) for x, y in corners]
    made = captures.picture_draw(places, box, fan)
    return {**made, "source": {"textures": [texture.told()]}}


# ---- Bodies, seen from the front: x to the right, y up, z towards the eye ------------------------------------


def seen(point, eye=6.0, scale=150.0, middle=(WIDTH / 2, HEIGHT / 2)):
    x, y, z = point
    return middle[0] + scale * x / (eye - z), middle[1] - scale * y / (eye - z)


def depth_of(point, eye=6.0):
    """As a projection has it: the nearer, the finer."""
    far = (1 / NEAR - 1 / max(NEAR, min(FAR, eye - point[2]))) / (1 / NEAR - 1 / FAR)
    return round(FARTHEST * far)


def normal(a, b, c):
    u, v = [q - p for p, q in zip(a, b)], [q - p for p, q in zip(a, c)]
    return (u[2] * v[1] - u[1] * v[2], u[0] * v[2] - u[2] * v[0], u[1] * v[0] - u[0] * v[1])


def lit(colour, n, alpha=255):
    length = math.hypot(*n) or 1
    light = 0.35 + 0.75 * max(0.0, sum(a * b for a, b in zip(n, LIGHT)) / (length * math.hypot(*LIGHT)))
    return [round(min(255, c * light)) for c in colour] + [alpha]


def facing(mesh):
    """The faces that look at the eye, farthest first."""
    points, faces = mesh
    flat = [seen(p) for p in points]
    cross = lambda a, b, c: (b[0] - a[0]) * (c[1] - a[1]) - (b[1] - a[1]) * (c[0] - a[0])
    kept = [face for face in faces if cross(*(flat[c] for c in face[0])) > 0.05]
    return sorted(kept, key=lambda face: sum(points[c][2] for c in face[0]))


def flat_body(mesh, alpha=255, deep=False):
    """A draw with one colour for each face."""
    points, vertices = mesh[0], []
    for corners, colour in facing(mesh):
        shade = lit(colour, normal(*(points[c] for c in corners)), alpha)
        vertices += [vertex(*seen(points[c]), shade, depth_of(points[c]) if deep else None) for c in corners]
    return draw(vertices)


def smooth_body(mesh, interp="linear", alpha=255, deep=False):
    """A draw by indices, with a normal for each corner."""
    points, faces = mesh
    normals, colours = {}, {}
    for corners, colour in faces:
        n = normal(*(points[c] for c in corners))
        for c in corners:
            normals[c] = [a + b for a, b in zip(normals.get(c, (0, 0, 0)), n)]
            colours.setdefault(c, colour)
    kept = facing(mesh)
    named = sorted({c for corners, _ in kept for c in corners})
    place = {c: i for i, c in enumerate(named)}
    vertices = [
        vertex(*seen(points[c]), lit(colours[c], normals[c], alpha), depth_of(points[c]) if deep else None)
        for c in named
    ]
    return draw(vertices, interp, [place[c] for corners, _ in kept for c in corners])
