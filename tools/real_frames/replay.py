"""A captured frame, replayed by RenderDoc's own module. This module and the six that it uses (clears, details, laying,
pipelines, vertices, pictures) need RenderDoc."""
import os
from collections.abc import Collection, Iterable, Iterator
from typing import Any

import renderdoc as rd

from writing.counting import counted

from . import clears, pipelines, vertices
from .details import Details
from .fault import Fault
from .frame import Clears, Primitive, RenderDoc, SetBy
from .gather import IN_SRGB, MULTISAMPLED, OF_FLOATS
from .losses import Losses
from .names import printable
from .pictures import WHOLE, Pictures
from .records import Colour
from .states import State, byte
from .viewport import Viewport

KINDS = [  # the first that an action's flags have
    ("marker", rd.ActionFlags.PushMarker | rd.ActionFlags.SetMarker),
    ("draw", rd.ActionFlags.Drawcall),
    ("clear", rd.ActionFlags.Clear),
    ("dispatch", rd.ActionFlags.Dispatch),
    ("copy", rd.ActionFlags.Copy | rd.ActionFlags.Resolve),
]


def in_a_line(result: RenderDoc) -> str:
    return printable(" ".join(result.Message().split()))


def flattened(actions: Iterable[RenderDoc]) -> Iterator[RenderDoc]:
    for action in actions:
        yield action
        yield from flattened(action.children)


class ReplayedFrame:
    """One open capture of RenderDoc's. Use it in a `with` statement."""

    file: RenderDoc
    controller: RenderDoc
    pictures: Pictures

    def __init__(self, path: str | os.PathLike[str]) -> None:
        self.path = str(path)
        self.file = self.controller = self.pictures = None  # type: ignore[assignment]  # until it is open
        self.here = 0
        self.from_above = (
            False  # the target that is followed is one of OpenGL whose lowest row is the picture's upper one
        )

    def __enter__(self) -> "ReplayedFrame":
        try:
            with open(self.path, "rb"):
                pass
        except OSError as fault:
            raise Fault(f"{self.path}: {fault.strerror}") from None
        rd.InitialiseReplay(rd.GlobalEnvironment(), [])
        try:
            self.open()
        except Fault:
            self.__exit__()
            raise
        return self

    def open(self) -> None:
        self.file = rd.OpenCaptureFile()
        result = self.file.OpenFile(self.path, "", None)
        if result != rd.ResultCode.Succeeded:
            raise Fault(f"{self.path}: no frame of RenderDoc's: {in_a_line(result)}")
        if self.file.LocalReplaySupport() != rd.ReplaySupport.Supported:
            where = " (frames of Direct3D replay on Windows alone)" if self.file.DriverName().startswith("D3D") else ""
            raise Fault(f"{self.path}: a frame of {self.file.DriverName()} can't be replayed on this machine{where}")
        result, controller = self.file.OpenCapture(rd.ReplayOptions(), None)
        if result != rd.ResultCode.Succeeded:
            hint = "" if os.environ.get("DISPLAY") else "; OpenGL wants a screen, and DISPLAY names none"
            raise Fault(f"{self.path}: it can't be replayed here: {in_a_line(result)}{hint}")
        self.use(controller, self.file.DriverName())

    def use(self, controller: RenderDoc, driver: str) -> None:
        """Reads by a controller that replays the frame."""
        self.controller = controller
        if controller.GetAPIProperties().pipelineType not in pipelines.READERS:
            raise Fault(
                f"{self.path}: a frame of {driver}: only OpenGL, OpenGL ES, Vulkan and Direct3D 11 and 12 are read"
            )
        self.names = controller.GetStructuredFile()
        self.actions = list(flattened(controller.GetRootActions()))
        self.textures = {int(texture.resourceId): texture for texture in controller.GetTextures()}
        self.pictures = Pictures(controller, self.textures, self.is_gl())
        self.details = Details(self)

    def __exit__(self, *_: object) -> None:
        for part in (self.pictures, self.controller, self.file):
            if part:
                part.Shutdown()
        rd.ShutdownReplay()

    # Actions and targets.

    def is_gl(self) -> bool:
        return self.controller.GetAPIProperties().pipelineType == rd.GraphicsAPI.OpenGL

    def name(self, action: RenderDoc) -> str:
        return printable(action.GetName(self.names))

    def kind(self, action: RenderDoc) -> str:
        for kind, flags in KINDS:
            if action.flags & flags:
                return kind
        return "clear" if any(clears.pass_clears(action, self.name(action))) else ""

    @staticmethod
    def until(action: RenderDoc) -> int | None:
        """The last event of a debug group, or None where the marker is no group."""
        inside = list(flattened(action.children))
        return max(one.eventId for one in inside) if inside else None

    @staticmethod
    def targets(action: RenderDoc) -> list[int]:
        return [int(output) for output in action.outputs if output != rd.ResourceId.Null()]

    @staticmethod
    def copied_onto(action: RenderDoc) -> int:
        return int(action.copyDestination)

    def shown_target(self) -> int:
        """The target that is presented, or the one that is copied onto it where nothing draws on it; else that of
        the last draw."""
        drawn = {target for action in self.actions if self.kind(action) == "draw" for target in self.targets(action)}
        for wanted in (rd.ActionFlags.Present, rd.ActionFlags.Drawcall):
            for action in reversed(self.actions):
                if action.flags & wanted and self.targets(action):
                    target = self.targets(action)[0]
                    return target if target in drawn else self.copied_from(target, drawn) or target
        raise Fault("the frame draws on no colour target")

    def copied_from(self, shown: int, drawn: Collection[int]) -> int | None:
        """The target that the last copy onto the one that is shown takes, if it is drawn on: Wine's Direct3D shows
        its pictures so."""
        copies = (action for action in reversed(self.actions) if self.copied_onto(action) == shown)
        return next((int(copy.copySource) for copy in copies if int(copy.copySource) in drawn), None)

    def is_turned(self, target: int) -> bool:
        """Whether a target of OpenGL is shown upside down: its lowest row is the picture's upper one. Wine's
        Direct3D keeps pictures so."""
        return self.is_gl() and any(
            "glBlitFramebuffer" in self.name(action) and int(action.copySource) == target and self.turns(action)
            for action in self.actions
        )

    def turns(self, action: RenderDoc) -> bool:
        """Whether a copy has rows that rise on one side and fall on the other."""
        chunk = self.names.chunks[action.events[-1].chunkIndex]
        from_first, from_last, to_first, to_last = (
            chunk.FindChild(name).data.basic.i for name in ("srcY0", "srcY1", "dstY0", "dstY1")
        )
        return (from_last - from_first) * (to_last - to_first) < 0

    def size(self, target: int) -> tuple[int, int]:
        if target not in self.textures:
            raise Fault(f"it has no target {target}; --list tells those that it has")
        self.from_above = self.is_turned(target)
        self.pictures.lowest_row_first = self.is_gl() and not self.from_above
        return self.textures[target].width, self.textures[target].height

    def notes(self, target: int) -> dict[str, int]:
        """What is lost of a target as a whole, with how many."""
        texture = self.textures[target]
        notes = {MULTISAMPLED: texture.msSamp - 1} if texture.msSamp > 1 else {}
        notes.update({OF_FLOATS: 1} if texture.format.compType == rd.CompType.Float else {})
        return {**notes, **({IN_SRGB: 1} if texture.format.SRGBCorrected() else {})}

    def draws_of_targets(self) -> dict[int, tuple[int, int, int]]:
        """The first event and the last, and how many draws, of each colour target."""
        counts: dict[int, tuple[int, int, int]] = {}
        for action in self.actions:
            if self.kind(action) == "draw":
                for target in self.targets(action):
                    first, _, count = counts.get(target, (action.eventId, 0, 0))
                    counts[target] = first, action.eventId, count + 1
        return counts

    def list_targets(self) -> Iterator[str]:
        """A line for each colour target, with its draws."""
        for target, (first, last, count) in self.draws_of_targets().items():
            texture = self.textures[target]
            shown = (
                (", shown upside down" if self.is_turned(target) else ", shown")
                if target == self.shown_target()
                else ""
            )
            yield (
                f"target {target}: {texture.width} by {texture.height}, {texture.format.Name()}, samples "
                f"{texture.msSamp}, {counted(count, 'draw')}, events {first} to {last}{shown}"
            )

    # What is at an event.

    def go(self, event: int) -> None:
        self.here = event
        self.controller.SetFrameEvent(event, True)

    def state(self, _: RenderDoc, width: int, height: int, losses: Losses) -> State:
        return pipelines.read(self.controller, self.textures, (width, height), self.from_above, losses)

    def clears(self, action: RenderDoc, width: int, height: int) -> Clears:
        return clears.of(self, action, width, height)

    def primitives(self, action: RenderDoc) -> tuple[list[Primitive], str]:
        return vertices.primitives(self.controller, action)

    def told(self, action: RenderDoc, viewport: Viewport, size: tuple[int, int]) -> tuple[dict[str, Any], SetBy]:
        """What else is told of a draw that was gone to: members for its source, and the calls that set each part of its
        state."""
        return self.details.of(action, viewport, size), self.details.set_by(action)

    def reads_textures(self, _: RenderDoc) -> bool:
        return bool(self.details.textures())

    def picture(self, target: int) -> bytes:
        return self.pictures.of(target)

    def can_draw_alone(self) -> bool:
        """RenderDoc 1.24 ends the process where an overlay is read on lavapipe."""
        return self.is_gl()

    def can_ask(self) -> bool:
        """Of OpenGL ES RenderDoc's histories differ from call to call; and OpenGL's draws can be drawn alone."""
        return not self.is_gl()

    def given_at(self, target: int, x: int, y: int) -> dict[int, Colour]:
        """{primitive: (r, g, b, a)}: what the draw that was gone to gave at a pixel, before blending."""
        entries = self.controller.PixelHistory(self.textures[target].resourceId, x, y, WHOLE, rd.CompType.Typeless)
        return {
            entry.primitiveID: tuple(byte(v) for v in entry.shaderOut.col.floatValue)
            for entry in entries
            if entry.eventId == self.here and entry.Passed()
        }

    def alone(self, target: int) -> bytes:
        return self.pictures.alone(target)

    def marked(self, target: int, kind: str) -> bytes:
        return self.pictures.marked(target, kind)

    def depth_value(self, action: RenderDoc, x: int, y: int) -> float:
        return self.pictures.depth_value(action.depthOut, x, y)
