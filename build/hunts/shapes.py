"""Meshes made by rule: points, and faces as (three corners, colour) that run clockwise seen from outside on a target
whose y grows down."""
import math


def turned(profile, around, colour, start=0.0):
    """A body of revolution round the y axis; profile is a list of (radius, height) from the top, colour a function
    of (row, column)."""
    points = [
        (r * math.cos(start + 2 * math.pi * i / around), y, r * math.sin(start + 2 * math.pi * i / around))
        for r, y in profile
        for i in range(around)
    ]
    faces = []
    for row in range(len(profile) - 1):
        for i in range(around):
            a, b = row * around + i, row * around + (i + 1) % around
            c, d = a + around, b + around
            faces += [((a, d, b), colour(row, i)), ((a, c, d), colour(row, i))]
    return points, faces


def ball(radius, rows, around, colour, middle=(0, 0, 0)):
    profile = [
        (max(1e-6, radius * math.sin(math.pi * row / rows)), radius * math.cos(math.pi * row / rows))
        for row in range(rows + 1)
    ]
    return moved(turned(profile, around, colour), *middle)


def ring(radius, thick, around, across, colour):
    """A torus round the y axis."""
    points = []
    for i in range(around):
        for j in range(across):
            u, v = 2 * math.pi * i / around, 2 * math.pi * j / across
            r = radius + thick * math.cos(v)
            points.append((r * math.cos(u), thick * math.sin(v), r * math.sin(u)))
    faces = []
    for i in range(around):
        for j in range(across):
            a, b = i * across + j, (i + 1) % around * across + j
            c, d = i * across + (j + 1) % across, (i + 1) % around * across + (j + 1) % across
            faces += [((a, b, d), colour(i, j)), ((a, d, c), colour(i, j))]
    return points, faces


def box(left, bottom, back, right, top, front, colour):
    points = [(x, y, z) for z in (back, front) for y in (bottom, top) for x in (left, right)]
    sides = [(0, 2, 3, 1), (4, 5, 7, 6), (0, 4, 6, 2), (1, 3, 7, 5), (2, 6, 7, 3), (0, 1, 5, 4)]
    return points, [(corners, colour) for a, b, c, d in sides for corners in ((a, c, b), (a, d, c))]


def moved(mesh, x, y, z):
    return [(px + x, py + y, pz + z) for px, py, pz in mesh[0]], mesh[1]


def leant(mesh, degrees, axis):
    """Turned about the axis x (0), y (1) or z (2)."""
    c, s = math.cos(math.radians(degrees)), math.sin(math.radians(degrees))
    i, j = [k for k in range(3) if k != axis]
    made = []
    for p in mesh[0]:
        q = list(p)
        q[i], q[j] = c * p[i] - s * p[j], s * p[i] + c * p[j]
        made.append(tuple(q))
    return made, mesh[1]


def joined(*meshes):
    points, faces = [], []
    for some, more in meshes:
        faces += [(tuple(c + len(points) for c in corners), colour) for corners, colour in more]
        points += some
    return points, faces


def upward(mesh):
    """A flat mesh with each face turned so that it is seen from above."""
    points, faces = mesh
    up = lambda a, b, c: (points[c][0] - points[a][0]) * (points[b][2] - points[a][2]) - (
        points[b][0] - points[a][0]
    ) * (points[c][2] - points[a][2])
    return points, [((a, b, c) if up(a, b, c) < 0 else (a, c, b), colour) for (a, b, c), colour in faces]
