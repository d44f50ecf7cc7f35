"""What is kept of a frame's actions, between the reading by RenderDoc and the writing of events."""
from dataclasses import dataclass, field
from typing import Any

from .reel import Kept
from .states import State
from .viewport import Rectangle

Shape = tuple[tuple[int, int], list[tuple[int, int, float]]]  # instance and primitive; x and y in 1/65536 pixel, depth
Colour = tuple[int, ...]


@dataclass
class DrawRecord:
    event: int
    name: str
    state: State
    shapes: list[Shape] = field(default_factory=list)
    after: Kept | None = None  # none where colours aren't wanted
    alone: bytes = b""  # a picture, packed by zlib
    own: Kept | None = None  # a picture with the draw's own colours in the place of blended ones
    # by pixel and primitive what the shader gave, where that was asked
    known: dict[tuple[int, int], dict[int, Colour]] = field(default_factory=dict)
    depth_alone: bool = False  # it is there for its depths
    left_out: int = 0  # pixels that were taken for discarded
    # members for its `source`: textures, shaders and whatever else RenderDoc tells
    told: dict[str, Any] = field(default_factory=dict)
    # by the kind of a state the calls that set it, each its event and its text
    set_by: dict[str, list[list[Any]]] = field(default_factory=dict)

    def source_of(self, kind: str, source: dict[str, Any]) -> dict[str, Any]:
        """The source of an event that sets a part of its state."""
        return {**source, "set_by": self.set_by[kind]} if kind in self.set_by else source


@dataclass
class ClearRecord:
    event: int
    name: str
    colour: Colour | None = None
    depth: float | None = None
    rectangle: Rectangle | None = None  # None: the whole target
    mask: int = 15


@dataclass
class MarkerRecord:
    event: int
    name: str
    until: int | None = None  # the last event of a debug group


@dataclass
class PictureRecord:
    """What lies on the target after an event: one before the first that is carried over, or a copy onto it."""

    event: int
    name: str
    picture: bytes  # packed by zlib
    label: str  # of its marker


Record = DrawRecord | ClearRecord | MarkerRecord | PictureRecord
