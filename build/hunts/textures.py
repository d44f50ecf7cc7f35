"""Textures made by rule: a colour for each texel, over and over to all sides."""
import math
from dataclasses import dataclass


@dataclass(frozen=True)
class Texture:
    number: int
    name: str
    width: int
    height: int
    colour: object  # a function of (u, v), whole numbers within the texture

    def at(self, u, v):
        return self.colour(math.floor(u) % self.width, math.floor(v) % self.height)

    def told(self):
        """As a converter tells of a texture that a draw reads."""
        return {"id": self.number, "name": self.name, "width": self.width, "height": self.height}


def brick(u, v):
    """Two rows of bricks in mortar, the lower one shifted by half of one."""
    if v % 4 == 3 or (u + 4 * (v // 4)) % 8 == 7:
        return 190, 178, 160, 255
    return 150 + 12 * ((u // 8 + v // 4) % 2), 70 + 4 * (u % 3), 52, 255


def shingle(u, v):
    if (u + 2 * (v // 3)) % 4 == 0:
        return 40, 42, 52, 255
    return 70 - 14 * (v % 3), 74 - 12 * (v % 3), 88 - 10 * (v % 3), 255


def lattice(u, v):
    """Laths with a hole between each four of them, and a strip of cloth."""
    if v < 4:
        return 236 - 6 * (u % 2), 226 - 6 * (v % 2), 200, 255
    return (112, 82, 54, 255) if u % 4 == 0 or v in (4, 7) else (0, 0, 0, 0)


BRICKS, SHINGLES = Texture(31, "bricks", 16, 8, brick), Texture(32, "shingles", 4, 6, shingle)
SAIL = Texture(34, "sail", 8, 8, lattice)
