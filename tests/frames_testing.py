"""What the tests of real frames stand on: a frame whose pictures build/reference.py draws, in the place of one that
RenderDoc replays."""
from dataclasses import dataclass, field
from types import SimpleNamespace

import captures
import reference
from captures import FARTHEST, PIXEL
from real_frames import sources, states
from real_frames.gather import Gatherer, Wanted
from real_frames.losses import Losses
from real_frames.painter import Detail
from real_frames.viewport import Viewport
from real_frames.writer import Writer

TARGET, OTHER = 7, 8
WIDTH, HEIGHT = 24, 16
OVER = ("SrcAlpha", "InvSrcAlpha", "Add"), ("One", "InvSrcAlpha", "Add")
ADDED = ("One", "One", "Add"), ("One", "One", "Add")


def image(events, width=WIDTH, height=HEIGHT):
    """The bytes of an image, by the reference."""
    frame = reference.Frame(captures.frame(width, height, events))
    frame.position = len(events)
    return frame.pam().partition(b"ENDHDR\n")[2]


def image_of(capture):
    return image(capture["events"], capture["width"], capture["height"])


def state(raster=("none", False), blend=None, mask=15, depth=(False, True, "LESS"), scissor=None, **more):
    """A state as the pipeline's reader gives it. blend is (colour, alpha), each in RenderDoc's words."""
    losses = SimpleNamespace(add=lambda *_, **__: None)
    box = scissor or [0, 0, WIDTH, HEIGHT]
    return states.State(
        Viewport(0, 0, WIDTH, HEIGHT),
        box,
        states.raster(*raster, scissor is not None),
        states.blend(*blend, mask, losses) if blend else states.plain(mask),
        captures.factor(255, 255, 255, 255),
        states.depth(*depth),
        **more
    )


@dataclass
class Action:
    """One call of the stand-in frame. What it leaves on the target is `truth`, in events of framedbg."""

    eventId: int
    kind: str
    name: str
    truth: list = field(default_factory=list)
    targets: tuple = (TARGET,)
    state: object = None
    triangles: list = field(default_factory=list)
    clear: tuple = ()  # colour or None, depth (0 to 1) or None, rectangles or None for all, mask
    trouble: str = ""
    until: object = None
    told: tuple = ({}, {})  # members for its source, and the calls that set each part of its state


def clip_space(x, y, z, w=1.0):
    """The corner of clip space (y down, 0 <= z <= w) that lands at a pixel of the target."""
    return (x / WIDTH * 2 - 1) * w, (y / HEIGHT * 2 - 1) * w, z * w, w


def draw(event, triangles, own=None, name="draw()", **more):
    """Triangles of corners (x, y, depth 0 to 1, colour)."""
    own = own or state()
    vertices = [
        captures.vertex(round(x * PIXEL), round(y * PIXEL), colour, round(z * FARTHEST))
        for corners in triangles
        for x, y, z, colour in corners
    ]
    truth = [own.raster, own.blend, own.depth, captures.scissor(*own.scissor), captures.draw(vertices, "linear")]
    placed = [
        ((0, number), tuple(clip_space(x, y, z, 1 + number % 3) for x, y, z, _ in corners))
        for number, corners in enumerate(triangles)
    ]
    return Action(event, "draw", name, truth, state=own, triangles=placed, **more)


def quad(left, top, right, bottom, z, colour):
    a, b, c, d = ((x, y, z, colour) for x, y in ((left, top), (right, top), (right, bottom), (left, bottom)))
    return [(a, b, c), (a, c, d)]


def clear(event, colour=None, depth=None, box=None, mask=15, more=()):
    """Of the whole target, or of a rectangle and more of them."""
    own = state(depth=(depth is not None, True, "ALWAYS"), mask=mask if colour else 0)
    corners = [
        corner
        for left, top, right, bottom in (box or (0, 0, WIDTH, HEIGHT), *more)
        for corner in ((left, top), (right, top), (left, bottom), (right, top), (right, bottom), (left, bottom))
    ]
    vertices = [
        captures.vertex(x * PIXEL, y * PIXEL, colour or (0, 0, 0, 0), round((depth or 0) * FARTHEST))
        for x, y in corners
    ]
    return Action(
        event,
        "clear",
        "clear()",
        [own.raster, own.blend, own.depth, captures.draw(vertices)],
        clear=(colour, depth, [box, *more], mask),
    )


class StandIn:
    """As replay.ReplayedFrame, of actions, drawn by the reference."""

    def __init__(self, *actions, before=()):
        self.actions, self.before = list(actions), list(before)
        self.here = 0
        self.pictures = {}

    def kind(self, action):
        return action.kind

    def name(self, action):
        return action.name

    def targets(self, action):
        return list(action.targets)

    def copied_onto(self, action):
        return action.targets[0]

    def size(self, target):
        return WIDTH, HEIGHT

    def notes(self, target):
        return {}

    def go(self, event):
        self.here = event

    def action(self):
        return next(action for action in self.actions if action.eventId == self.here)

    def state(self, action, width, height, losses):
        return action.state

    def primitives(self, action):
        return action.triangles, action.trouble

    def until(self, action):
        return action.until

    def reads_textures(self, action):
        return False

    def told(self, action, viewport, size):
        assert viewport == action.state.viewport and size == (WIDTH, HEIGHT)
        return action.told

    def clears(self, action, width, height):
        colour, depth, boxes, mask = action.clear
        return colour is not None, depth is not None, boxes, mask

    def depth_value(self, action, x, y):
        return action.clear[1]

    def picture(self, target):
        if self.here not in self.pictures:
            truth = [
                event
                for action in self.actions
                if action.eventId <= self.here and TARGET in action.targets
                for event in action.truth
            ]
            self.pictures[self.here] = image(self.before + truth)
        return self.pictures[self.here]

    def can_draw_alone(self):
        return True

    def alone(self, target):
        """The draw at hand on zeros, as often as RenderDoc draws it."""
        action = self.action()
        return image(action.truth * sources.times_drawn(action.state.depth))

    def can_ask(self):
        return False


class Unblended(StandIn):
    """As a frame of a trace: nothing is drawn alone nor asked, but the draw at hand can be had without its blending."""

    def can_draw_alone(self):
        return False

    def unblended(self, target):
        own = self.action()
        plain = [states.plain(event["mask"]) if event["kind"] == "blend" else event for event in own.truth]
        return image(
            self.before
            + [event for action in self.actions if action.eventId < self.here for event in action.truth]
            + plain
        )


class Asked(StandIn):
    """As a frame of Vulkan: nothing is drawn alone, but what a draw gave at a pixel can be asked. Each question is
    kept."""

    def __init__(self, *actions, before=()):
        super().__init__(*actions, before=before)
        self.questions = []

    def can_draw_alone(self):
        return False

    def can_ask(self):
        return True

    def given_at(self, target, x, y):
        """Each triangle of the draw at hand, opaque on zeros, where it covers the pixel."""
        self.questions.append((self.here, x, y))
        *_, own = self.action().truth
        found, at = {}, 4 * (y * WIDTH + x)
        for number in range(len(own["vertices"]) // 3):
            one = dict(own, vertices=own["vertices"][3 * number : 3 * number + 3])
            white = dict(one, vertices=[dict(vertex, color=[255] * 4) for vertex in one["vertices"]])
            plain = [states.raster("none", False, False), states.depth(False, False, "LESS"), states.plain()]
            if image(plain + [white])[at + 3]:
                found[number] = tuple(image(plain + [one])[at : at + 4])
        return found


def converted(frame, losses=None, wanted=Wanted(), detail=Detail(), colours="measured"):
    losses = losses or Losses()
    gatherer = Gatherer(frame, TARGET, losses, wanted)
    records = gatherer.gather()
    return Writer(gatherer.size, records, losses, detail, colours).capture()
