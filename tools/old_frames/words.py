"""A context's state in the words of real_frames.states."""
from captures import Event
from real_frames import states
from real_frames.discards import LEFT_OUT
from real_frames.losses import Losses
from real_frames.placing import Bias
from real_frames.viewport import Viewport, meet, rectangle

from . import numbers as gl
from .draws import Done
from .settings import Settings

DEPTH_STEP = 1 / 0xFFFFFF  # of depths of 24 bits, as Mesa gives a window
SMOOTH = {
    gl.POINT_SMOOTH: "draws of smooth points",
    gl.LINE_SMOOTH: "draws of smooth lines",
    gl.LINE_STIPPLE: "draws of stippled lines",
    gl.POLYGON_SMOOTH: "draws of smooth triangles",
    gl.POLYGON_STIPPLE: "draws of stippled triangles",
}
LINES, TRIANGLES = {1, 2, 3}, set(range(4, 10))


def scissor(own: Settings, height: int) -> list[int]:
    left, bottom, wide, high = own.scissor
    return rectangle(left, height - bottom - high, wide, high)


def mask(own: Settings) -> int:
    return sum(bool(on) << channel for channel, on in enumerate(own.mask))


def blending(own: Settings, losses: Losses) -> tuple[Event, Event]:
    """(blend event, factor event)"""
    if not own.is_on(gl.BLEND):
        return states.plain(mask(own)), states.factor(own.constant, (), losses)
    names = [gl.FACTORS.get(number, "One") for number in own.blend]
    operations = [gl.EQUATIONS.get(number, "Add") for number in own.equation]
    colour, alpha = (*names[:2], operations[0]), (*names[2:], operations[1])
    return states.blend(colour, alpha, mask(own), losses), states.factor(own.constant, colour, losses)


def count(done: Done, losses: Losses) -> None:
    """What of a draw's state isn't carried over."""
    own = done.settings
    if own.is_on(gl.STENCIL_TEST):
        losses.add("draws with the stencil test", LEFT_OUT)
    if own.is_on(gl.ALPHA_TEST):
        losses.add("draws with the alpha test", LEFT_OUT)
    if own.is_on(gl.COLOR_LOGIC_OP):
        losses.add("draws with a logic operation")
    for switch, what in SMOOTH.items():
        if own.is_on(switch) and done.mode in (
            {gl.POINTS}
            if switch == gl.POINT_SMOOTH
            else LINES
            if switch in (gl.LINE_SMOOTH, gl.LINE_STIPPLE)
            else TRIANGLES
        ):
            losses.add(what, "drawn as others")
    if done.mode in TRIANGLES and set(own.fill) != {gl.FILL}:
        losses.add("draws of edges or points alone (fill mode)", "drawn as solid triangles")
    if done.mode in TRIANGLES and own.is_on(gl.OFFSET_FILL):
        losses.add("draws with depth bias", "added to the depths, and rounded with them")


def state_of(done: Done, width: int, height: int, losses: Losses) -> states.State:
    """The state of a draw on a target of this size."""
    own, whole = done.settings, [0, 0, width, height]
    count(done, losses)
    left, bottom, wide, high = own.viewport
    near, far = (min(max(float(value), 0.0), 1.0) for value in own.depth_range)
    view = Viewport(
        left, height - bottom - high, wide, high, near, far, y_up=True, half_depth=False, rows_from_below=True
    )
    box = meet(meet(scissor(own, height) if own.is_on(gl.SCISSOR_TEST) else whole, view.box()), whole)
    cull = "none"
    if own.is_on(gl.CULL_FACE):
        cull = gl.CULLS.get(own.cull, "none")
        box = box if own.cull in gl.CULLS else [0, 0, 0, 0]
    blend, factor = blending(own, losses)
    factor_of, units = own.offset if own.is_on(gl.OFFSET_FILL) and done.mode in TRIANGLES else (0.0, 0.0)
    return states.State(
        view,
        box,
        states.raster(cull, own.front == gl.CCW, box != whole),
        blend,
        factor,
        states.depth(
            own.is_on(gl.DEPTH_TEST), bool(own.depth_mask), states.COMPARES[gl.COMPARES.get(own.depth_function, "Less")]
        ),
        bias=Bias(units, factor_of, step=DEPTH_STEP),
        width=own.point_size if done.mode == gl.POINTS else own.line_width,
        discards=own.is_on(gl.ALPHA_TEST) or own.is_on(gl.STENCIL_TEST),
    )
