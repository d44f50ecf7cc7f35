"""OpenGL's matrices: sixteen numbers, column by column."""
import math
from collections.abc import Sequence

Matrix = tuple[float, ...]
Vertex = tuple[float, ...]  # x, y, z and w

IDENTITY: Matrix = (1.0, 0.0, 0.0, 0.0, 0.0, 1.0, 0.0, 0.0, 0.0, 0.0, 1.0, 0.0, 0.0, 0.0, 0.0, 1.0)


def multiplied(first: Matrix, second: Matrix) -> Matrix:
    return tuple(
        sum(first[4 * k + row] * second[4 * column + k] for k in range(4)) for column in range(4) for row in range(4)
    )


def applied(matrix: Matrix, vertex: Sequence[float]) -> Vertex:
    x, y, z, w = vertex
    return tuple(matrix[row] * x + matrix[4 + row] * y + matrix[8 + row] * z + matrix[12 + row] * w for row in range(4))


def transposed(matrix: Sequence[float]) -> Matrix:
    return tuple(matrix[4 * row + column] for column in range(4) for row in range(4))


def translation(x: float, y: float, z: float) -> Matrix:
    return IDENTITY[:12] + (x, y, z, 1.0)


def scaling(x: float, y: float, z: float) -> Matrix:
    return (x, 0.0, 0.0, 0.0, 0.0, y, 0.0, 0.0, 0.0, 0.0, z, 0.0, 0.0, 0.0, 0.0, 1.0)


def rotation(angle: float, x: float, y: float, z: float) -> Matrix:
    length = math.sqrt(x * x + y * y + z * z)
    if not length:
        return IDENTITY
    x, y, z = x / length, y / length, z / length
    c, s = math.cos(math.radians(angle)), math.sin(math.radians(angle))
    rest = 1 - c
    return (
        x * x * rest + c,
        y * x * rest + z * s,
        z * x * rest - y * s,
        0.0,
        x * y * rest - z * s,
        y * y * rest + c,
        z * y * rest + x * s,
        0.0,
        x * z * rest + y * s,
        y * z * rest - x * s,
        z * z * rest + c,
        0.0,
        0.0,
        0.0,
        0.0,
        1.0,
    )


def frustum(left: float, right: float, bottom: float, top: float, near: float, far: float) -> Matrix:
    if left == right or bottom == top or near == far or near <= 0 or far <= 0:
        return IDENTITY  # OpenGL passes over such a call
    return (
        2 * near / (right - left),
        0.0,
        0.0,
        0.0,
        0.0,
        2 * near / (top - bottom),
        0.0,
        0.0,
        (right + left) / (right - left),
        (top + bottom) / (top - bottom),
        -(far + near) / (far - near),
        -1.0,
        0.0,
        0.0,
        -2 * far * near / (far - near),
        0.0,
    )


def ortho(left: float, right: float, bottom: float, top: float, near: float, far: float) -> Matrix:
    if left == right or bottom == top or near == far:
        return IDENTITY
    return (
        2 / (right - left),
        0.0,
        0.0,
        0.0,
        0.0,
        2 / (top - bottom),
        0.0,
        0.0,
        0.0,
        0.0,
        -2 / (far - near),
        0.0,
        -(right + left) / (right - left),
        -(top + bottom) / (top - bottom),
        -(far + near) / (far - near),
        1.0,
    )


def inverse(matrix: Matrix) -> Matrix:
    """By Gauss and Jordan, or the identity where there is none."""
    rows = [
        [matrix[4 * column + row] for column in range(4)] + [float(row == column) for column in range(4)]
        for row in range(4)
    ]
    for column in range(4):
        best = max(range(column, 4), key=lambda row: abs(rows[row][column]))
        if abs(rows[best][column]) < 1e-30:
            return IDENTITY
        rows[column], rows[best] = rows[best], rows[column]
        rows[column] = [value / rows[column][column] for value in rows[column]]
        for row in range(4):
            if row != column:
                part = rows[row][column]
                rows[row] = [value - part * own for value, own in zip(rows[row], rows[column])]
    return tuple(rows[row][4 + column] for column in range(4) for row in range(4))
