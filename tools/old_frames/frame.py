"""One frame of a trace, for real_frames.gather: what replay.ReplayedFrame is for RenderDoc's."""
import pathlib
import struct
from collections.abc import Iterable, Iterator
from contextlib import contextmanager
from types import SimpleNamespace
from typing import Any

from real_frames.fault import Fault
from real_frames.losses import Losses
from real_frames.names import printable
from real_frames.records import DrawRecord
from real_frames.states import State
from real_frames.viewport import meet

from . import numbers as gl
from .calls import ENDS_FRAME, Call, calls, described
from .draws import Done, Primitive
from .machine import Machine, Shared
from .retrace import Say, Snapshots, otherwise, state_at
from .unblending import Changes, is_blended, noted, without_blending
from .words import mask, scissor, state_of

WINDOW = 0  # the target of a window's own
MAKES_CURRENT = {
    "glXMakeCurrent": "ctx",
    "glXMakeContextCurrent": "ctx",
    "wglMakeCurrent": "hglrc",
    "eglMakeCurrent": "ctx",
    "CGLSetCurrentContext": "ctx",
}


@contextmanager
def understood(call: Call | Done) -> Iterator[None]:
    """A call whose words aren't those that OpenGL's has is a fault of the trace."""
    try:
        yield
    except (
        KeyError,
        TypeError,
        ValueError,
        IndexError,
        AttributeError,
        ArithmeticError,
        MemoryError,
        struct.error,
    ) as fault:
        raise Fault(
            f"call {call.number}, {printable(call.name)}: its words can't be understood ({type(fault).__name__} "
            f"{printable(fault)})"
        ) from None


def done_in(some: Iterable[Call], frame: int) -> list[Done]:
    """What the calls of a frame do, given all calls of a trace from its beginning."""
    shared, at = Shared(), 0
    machines: dict[Any, Machine] = {}
    machine = Machine(shared)
    done: list[Done] = []
    for call in some:
        if call.name in MAKES_CURRENT:
            machine = machines.setdefault(
                call.words.get(MAKES_CURRENT[call.name], 0), machine if not machines else Machine(shared)
            )
        machine.done, machine.is_kept = done, at == frame
        with understood(call):
            machine.do(call)
        if call.flags & ENDS_FRAME:
            at += 1
            if at > frame:
                return done
    return done if at == frame else []


def leave_alpha(records: Iterable[object], losses: Losses) -> None:
    """Of records whose pictures have an alpha of 255 everywhere, as glretrace tells none: no draw writes it."""
    for record in records:
        if isinstance(record, DrawRecord) and record.state.blend["mask"] & 8:
            record.state.blend = {**record.state.blend, "mask": record.state.blend["mask"] & 7}
            losses.add("draws that write alpha", "the target's own isn't told, so their mask leaves it out")


def list_frames(path: str | pathlib.Path) -> Iterator[str]:
    """A line for each frame of a trace that draws."""
    first, draws, at = 0, 0, 0
    for call in calls(path):
        draws += call.name in ("glEnd", "glCallList", "glCallLists", "glClear") or call.name.startswith(
            ("glDraw", "glMultiDraw", "glRect")
        )
        if call.flags & ENDS_FRAME:
            if draws:
                told = "1 draw or clear" if draws == 1 else f"{draws} draws and clears"
                yield f"frame {at}: calls {first} to {call.number}, {told}"
            first, draws, at = call.number + 1, 0, at + 1


def chosen(path: str | pathlib.Path, frame: int | None) -> tuple[int, str]:
    """The number of the frame that is wanted, else of the last that is whole; and the program that replays it."""
    count, retracer = described(path)
    if not count:
        raise Fault(f"{path}: no frame of it ends (no swap of buffers is in the trace)")
    if frame is None:
        frame = count - 1
    if frame >= count:
        raise Fault(f"{path}: it has frames 0 to {count - 1}, and no {frame}")
    return frame, retracer


def wanted_in(numbers: list[int], span: tuple[int, int]) -> list[int]:
    """The calls after which a picture is wanted: those of the span, and the one before."""
    first, last = span
    before = max((number for number in numbers if number < first), default=min(numbers) - 1)
    return [before, *(number for number in numbers if first <= number <= last)]


class TracedFrame:
    """Actions have the number of their call. One call may do several: a list of draws in several states."""

    def __init__(
        self,
        path: pathlib.Path,
        frame: int | None = None,
        span: tuple[int, int] = (0, 1 << 62),
        with_own: bool = True,
        say: Say = lambda line: None,
    ) -> None:
        number, retracer = chosen(path, frame)
        say(f"reading frame {number}")
        changes: Changes = {}
        done = done_in(noted(calls(path), changes), number)
        self.actions = [SimpleNamespace(eventId=one.number, done=one) for one in done]
        if not any(one.kind == "draw" and one.target == WINDOW for one in done):
            raise Fault(f"{path}: frame {number} draws nothing on its window")
        self.snapshots = Snapshots(retracer, path, wanted_in([one.number for one in done], span), say)
        self.own: Snapshots | None = None  # pictures with draws' own colours in the place of blended ones
        blended = [
            one.number
            for one in done
            if one.kind == "draw" and one.target == WINDOW and span[0] <= one.number <= span[1] and is_blended(one)
        ]
        if blended and with_own:
            with without_blending(path, changes) as changed:
                self.own = Snapshots(retracer, changed, blended, say)
        self.here = 0
        last = [one for one in done if one.kind == "draw"][-1]
        self.otherwise = otherwise(last, state_at(retracer, path, last.number))

    # What gather asks of a frame.

    @staticmethod
    def kind(action: SimpleNamespace) -> str:
        return action.done.kind

    @staticmethod
    def name(action: SimpleNamespace) -> str:
        return printable(action.done.name)

    @staticmethod
    def targets(action: SimpleNamespace) -> list[int]:
        return [action.done.target]

    @staticmethod
    def copied_onto(action: SimpleNamespace) -> int:
        return action.done.target

    @staticmethod
    def until(_: SimpleNamespace) -> None:
        return None

    def size(self, _: int) -> tuple[int, int] | None:
        return self.snapshots.size

    def notes(self, _: int) -> dict[str, int]:
        return {f"states of the last draw that glretrace has otherwise: {name}": 1 for name in self.otherwise}

    def go(self, event: int) -> None:
        self.here = event

    def picture(self, _: int) -> bytes:
        known = [number for number in self.snapshots.kept if number <= self.here]
        return self.snapshots.picture(max(known, default=min(self.snapshots.kept)))

    def unblended(self, _: int) -> bytes | None:
        """The picture with the draw that was gone to as it is without blending, or None."""
        return self.own.picture(self.here) if self.own and self.here in self.own.kept else None

    @staticmethod
    def can_draw_alone() -> bool:
        return False

    @staticmethod
    def can_ask() -> bool:
        return False

    def clears(
        self, action: SimpleNamespace, width: int, height: int
    ) -> tuple[bool, bool, list[list[int] | None], int]:
        """(whether it clears colour, whether depth, its rectangles, None for all, the mask)"""
        own, buffers, whole = action.done.settings, action.done.buffers, [0, 0, width, height]
        with understood(action.done):
            box = meet(scissor(own, height), whole) if own.is_on(gl.SCISSOR_TEST) else whole
            return (
                bool(buffers & gl.COLOUR_BIT),
                bool(buffers & gl.DEPTH_BIT and own.depth_mask),
                [None if box == whole else box],
                mask(own),
            )

    @staticmethod
    def depth_value(action: SimpleNamespace, *_: object) -> float:
        with understood(action.done):
            return min(max(float(action.done.settings.clear_depth), 0.0), 1.0)

    @staticmethod
    def primitives(action: SimpleNamespace) -> tuple[list[Primitive], str]:
        return action.done.primitives, action.done.trouble

    @staticmethod
    def state(action: SimpleNamespace, width: int, height: int, losses: Losses) -> State:
        with understood(action.done):
            return state_of(action.done, width, height, losses)

    @staticmethod
    def told(*_: object) -> tuple[dict[str, Any], dict[str, Any]]:
        return {}, {}

    @staticmethod
    def reads_textures(action: SimpleNamespace) -> bool:
        return bool(action.done.settings.enabled & gl.TEXTURES)
