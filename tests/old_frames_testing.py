"""What the tests of old frames stand on: calls of OpenGL that are made here, and the draws that come of them."""
import folders

from old_frames.calls import ENDS_FRAME, RENDERS, Call
from old_frames.frame import done_in


class Trace:
    """Makes calls, numbered one after another."""

    def __init__(self):
        self.calls = []

    def __call__(self, name, *values, result=None, flags=0, **members):
        given = {str(number): value for number, value in enumerate(values)}
        self.calls.append(Call(len(self.calls), name, {**given, **members}, result, flags))
        return self

    def corners(self, mode, *corners):
        self("glBegin", mode=mode)
        for corner in corners:
            self(f"glVertex{len(corner)}f", *corner)
        return self("glEnd", flags=RENDERS)

    def swap(self):
        return self("glXSwapBuffers", flags=ENDS_FRAME)


def done_by(trace):
    return done_in(trace.calls, 0)


def places(done):
    """The corners of a draw's primitives, divided by w and rounded."""
    return [
        tuple(tuple(round(value / corner[3], 4) for value in corner[:3]) for corner in corners)
        for _, corners in done.primitives
    ]
