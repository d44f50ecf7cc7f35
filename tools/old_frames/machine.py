"""OpenGL's contexts, as far as calls of fixed function move them: what each draw, clear and copy does, and with
which state."""
import re
from collections.abc import Iterable
from dataclasses import replace

from . import draws, matrices, settings, stacks
from . import numbers as gl
from .arrays import Arrays, Buffers
from .calls import RENDERS, Call
from .draws import LISTED, Done, Part
from .matrices import Vertex
from .programs import Programs

VERTEX = re.compile(r"glVertex[234][sifd]v?")
RECTANGLE = re.compile(r"glRect[sifd]v?")
NOT_IN_LISTS = re.compile(
    r"gl(Enable|Disable)ClientState|gl\w*Pointer|gl(Push|Pop)ClientAttrib|gl\w*Buffer\w*|gl(Gen|Delete)Lists|mem"
    r"cpy|(glX|wgl|CGL|egl)\w*|glFlush|glFinish|gl(Get|Is)\w*"
)
COPIES = {"glBlitFramebuffer", "glCopyPixels", "glDrawPixels", "glBitmap", "glAccum"}
MARKERS = {
    "glPushDebugGroup": "message",
    "glStringMarkerGREMEDY": "string",
    "glPushGroupMarker": "marker",
    "glInsertEventMarker": "marker",
}
MOST_DEEP = 64  # lists that call lists
TRANSFORM_BIT = 0x1000


class Shared:
    """What contexts have in common; all are taken to share it."""

    def __init__(self) -> None:
        self.buffers, self.programs = Buffers(), Programs()
        self.lists: dict[int, list[Call]] = {}


class Machine:
    """One context. `done` gets what calls do while `is_kept`."""

    def __init__(self, shared: Shared) -> None:
        self.shared, self.is_kept = shared, False
        self.done: list[Done] = []
        self.settings, self.stacks, self.arrays = settings.Settings(), stacks.Stacks(), Arrays(shared.buffers)
        self.attributes: list[tuple[int, settings.Settings, int]] = []
        self.target, self.program = 0, 0
        self.mode: int | None = None  # between glBegin and glEnd
        self.corners: list[Vertex] = []
        self.recorded: list[Call] | None = None  # between glNewList and glEndList
        self.executes = False
        self.deep = 0

    def do(self, call: Call) -> None:
        if self.recorded is None or call.name in ("glNewList", "glEndList") or NOT_IN_LISTS.fullmatch(call.name):
            self.perform(call)
            return
        call = self.listed(call)
        self.recorded.append(call)
        if self.executes:
            self.perform(call)

    def listed(self, call: Call) -> Call:
        """A call as a list keeps it: with the vertices that its arrays have now."""
        if call.name == "glArrayElement":
            corners = self.arrays.vertices([call.words["i"]])
            return Call(call.number, "glVertex4d", dict(enumerate(corners[0]))) if corners else call
        if call.name in draws.READERS:
            return Call(call.number, LISTED, {"name": call.name, "parts": draws.parts(call, self.arrays)})
        return call

    def perform(self, call: Call) -> None:
        """Does a call, whether it was made or stands in a list."""
        name = stacks.plain(call.name)
        own = getattr(self, call.name, None) if call.name.startswith("gl") else None
        if VERTEX.fullmatch(call.name):
            self.corners.append(draws.padded(call.values()))
        elif name in stacks.CALLS:
            self.stacks.do(name, call.values())
        elif settings.is_setter(call.name):
            settings.set_by(self.settings, call)
        elif own:
            own(call)
        elif call.name == LISTED or call.name in draws.READERS:
            self.draw(call, call.words["name"] if call.name == LISTED else call.name, draws.parts(call, self.arrays))
        elif not (self.arrays.do(call) or self.shared.programs.do(call)):
            self.rest(call)

    def rest(self, call: Call) -> None:
        if call.name in MARKERS:
            self.add(Done(call.number, str(call.words.get(MARKERS[call.name], "")), "marker", self.target))
        elif RECTANGLE.fullmatch(call.name):
            self.draw(call, call.name, [(gl.QUADS, draws.rectangle(list(call.words.values())))])
        elif call.name in COPIES or (call.flags & RENDERS and self.mode is None):
            self.add(Done(call.number, call.name + "()", "copy", self.target))

    def add(self, done: Done) -> None:
        if self.is_kept:
            self.done.append(done)

    # Draws and clears.

    def glBegin(self, call: Call) -> None:
        self.mode, self.corners = call.words["mode"], []

    def glEnd(self, call: Call) -> None:
        mode, self.mode = self.mode, None
        if mode is not None:
            self.draw(call, "glBegin", [(mode, self.corners)])
        self.corners = []

    def glArrayElement(self, call: Call) -> None:
        self.corners += self.arrays.vertices([call.words["i"]]) or []

    def draw(self, call: Call, name: str, parts: list[Part]) -> None:
        if self.is_kept:
            self.done += draws.done(self, call, name, parts)

    def glClear(self, call: Call) -> None:
        self.add(Done(call.number, "glClear()", "clear", self.target, self.settings.copy(), buffers=call.words["mask"]))

    # State that is more than a number to keep.

    def glBindFramebuffer(self, call: Call) -> None:
        if call.words["target"] in (gl.FRAMEBUFFER, gl.DRAW_FRAMEBUFFER):
            self.target = call.words["framebuffer"]

    def glUseProgram(self, call: Call) -> None:
        self.program = call.values()[0]

    glUseProgramObject = glUseProgram

    def glClipPlane(self, call: Call) -> None:
        """A plane is kept in eye coordinates, as it is where the matrix is when it is given."""
        turned = matrices.applied(
            matrices.transposed(matrices.inverse(self.stacks.top(gl.MODELVIEW))), call.words["equation"]
        )
        number = call.words["plane"]
        self.settings.planes = (*(one for one in self.settings.planes if one[0] != number), (number, turned))

    def glPushAttrib(self, call: Call) -> None:
        self.attributes.append((call.words["mask"], self.settings.copy(), self.stacks.mode))

    def glPopAttrib(self, _: Call) -> None:
        if self.attributes:
            mask, then, mode = self.attributes.pop()
            self.settings = settings.restored(self.settings, then, mask)
            if mask & TRANSFORM_BIT:
                self.stacks.mode = mode

    # Lists.

    def glNewList(self, call: Call) -> None:
        self.recorded, self.executes = [], call.words["mode"] == 0x1301
        self.shared.lists[call.words["list"]] = self.recorded

    def glEndList(self, _: Call) -> None:
        self.recorded = None

    def glDeleteLists(self, call: Call) -> None:
        for name in range(call.words["list"], call.words["list"] + call.words["range"]):
            self.shared.lists.pop(name, None)

    def glCallList(self, call: Call) -> None:
        self.run([call.words["list"]], call)

    def glCallLists(self, call: Call) -> None:
        names = call.words["lists"]
        names = names if isinstance(names, (list, tuple, bytes)) else []
        self.run([name + self.settings.list_base for name in names if isinstance(name, int)], call)

    def run(self, names: Iterable[int], call: Call) -> None:
        """What stands in lists is done as if the call had done it."""
        if self.deep == MOST_DEEP:
            return
        self.deep += 1
        for name in names:
            for own in list(self.shared.lists.get(name, ())):
                self.perform(replace(own, number=call.number))
        self.deep -= 1
