"""Vertices from arrays of the program's own or in buffers."""
import struct
from collections.abc import Iterable
from dataclasses import dataclass

from . import numbers as gl
from .calls import Call
from .matrices import Vertex

Place = bytes | int | None  # bytes of the program's own, or a place in a buffer


@dataclass(frozen=True)
class Pointer:
    """Where glVertexPointer says that vertices are."""

    size: int = 4
    kind: int = 0x1406
    stride: int = 0
    place: Place = 0
    buffer: int = 0


class Buffers:
    """Contents by name; contexts share them."""

    def __init__(self) -> None:
        self.contents: dict[int, bytes] = {}
        self.mapped: dict[int, tuple[int, int]] = {}  # (address, offset)

    def data(self, name: int, size: int, content: bytes | None) -> None:
        self.contents[name] = (bytes(content) if content else b"").ljust(size, b"\0")[:size]

    def write(self, name: int, offset: int, content: bytes) -> None:
        old = self.contents.get(name, b"")
        self.contents[name] = old[:offset] + content + old[offset + len(content) :]

    def copied(self, address: int, content: bytes) -> None:
        """The program wrote to an address: it is a buffer's where one is mapped there."""
        for name, (start, offset) in self.mapped.items():
            within = address - start + offset
            if 0 <= address - start and within + len(content) <= len(self.contents.get(name, b"")):
                self.write(name, within, content)
                return


class Arrays:
    """The arrays of one context."""

    def __init__(self, buffers: Buffers) -> None:
        self.buffers = buffers
        self.bound: dict[int | None, int] = {}
        self.pointer, self.is_on = Pointer(), False
        self.kept: list[tuple[int, dict[int | None, int], Pointer, bool]] = []  # of glPushClientAttrib

    def do(self, call: Call) -> bool:
        """Does a call on arrays or buffers; whether it was one."""
        words = call.words
        target = words.get("target")
        name = self.bound.get(target, 0)
        if call.name == "glBindBuffer":
            self.bound[target] = words["buffer"]
        elif call.name == "glBufferData":
            self.buffers.data(name, words["size"], words["data"])
        elif call.name == "glBufferSubData":
            self.buffers.write(name, words["offset"], words["data"] or b"")
        elif call.name in ("glMapBuffer", "glMapBufferRange"):
            self.buffers.mapped[name] = call.result or 0, words.get("offset", 0)
        elif call.name == "glUnmapBuffer":
            self.buffers.mapped.pop(name, None)
        elif call.name == "memcpy":
            self.buffers.copied(words["dest"], words["src"])
        elif call.name == "glVertexPointer":
            self.pointer = Pointer(
                words["size"], words["type"], words["stride"], words["pointer"], self.bound.get(gl.ARRAY_BUFFER, 0)
            )
        elif call.name in ("glEnableClientState", "glDisableClientState"):
            if words["array"] == gl.VERTEX_ARRAY:
                self.is_on = call.name == "glEnableClientState"
        elif call.name == "glPushClientAttrib":
            self.kept.append((words["mask"], dict(self.bound), self.pointer, self.is_on))
        elif call.name == "glPopClientAttrib":
            self.pop()
        else:
            return False
        return True

    def pop(self) -> None:
        if not self.kept:
            return
        mask, bound, pointer, is_on = self.kept.pop()
        if mask & 2:
            self.bound, self.pointer, self.is_on = bound, pointer, is_on

    def vertices(self, numbers: Iterable[int]) -> list[Vertex] | None:
        """The vertices of these numbers as (x, y, z, w), or None where the arrays have no such."""
        pointer = self.pointer
        letter = gl.TYPES.get(pointer.kind)
        if not self.is_on or letter is None:
            return None
        content, start = (
            (pointer.place, 0)
            if isinstance(pointer.place, bytes)
            else (self.buffers.contents.get(pointer.buffer, b""), pointer.place or 0)
        )
        form = struct.Struct(f"<{pointer.size}{letter}")
        stride = pointer.stride or form.size
        rest = (0.0, 0.0, 0.0, 1.0)[pointer.size :]
        try:
            return [form.unpack_from(content, start + number * stride) + rest for number in numbers]
        except struct.error:
            return None

    def indices(self, count: int, kind: int, place: Place) -> list[int] | None:
        """The numbers of a draw, or None."""
        content, start = (
            (place, 0)
            if isinstance(place, bytes)
            else (self.buffers.contents.get(self.bound.get(gl.ELEMENT_BUFFER, 0), b""), place or 0)
        )
        try:
            return list(struct.unpack_from(f"<{count}{gl.TYPES[kind]}", content, start))
        except (struct.error, KeyError):
            return None
