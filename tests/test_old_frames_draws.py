"""The converter of apitrace's traces without apitrace: what its calls draw and clear, and which are strange."""
import types
import unittest

import folders

from old_frames_testing import Trace, done_by, places

from old_frames import draws, matrices, shapes
from old_frames import numbers as gl
from old_frames.calls import RENDERS, Call
from old_frames.draws import Done
from old_frames.frame import TracedFrame, done_in
from old_frames.settings import Settings
from real_frames.fault import Fault
from real_frames.losses import Losses
from real_frames.placing import placed

WIDTH, HEIGHT = 40, 30
FLOAT, SHORT, DOUBLE, UNSIGNED_BYTE = 0x1406, 0x1402, 0x140A, 0x1401


class Modes(unittest.TestCase):
    def test_quads_strips_and_polygons_are_covered_once_and_run_one_way(self):
        """The areas of the triangles, with their signs, add up to the area of the outline."""
        outlines = {
            7: [(0, 0), (4, 1), (5, 5), (1, 3)],
            9: [(0, 0), (3, -1), (5, 2), (4, 5), (1, 4)],
            8: [(0, 0), (0, 3), (2, 1), (2, 4), (5, 0), (5, 2)],
        }
        around = {7: [0, 1, 2, 3], 9: [0, 1, 2, 3, 4], 8: [0, 1, 3, 5, 4, 2]}
        for mode, corners in outlines.items():
            areas = [
                sum(self.twice(corners[a], corners[b]) for a, b in ((x, y), (y, z), (z, x)))
                for _, (x, y, z) in shapes.shapes(mode, len(corners))
            ]
            outline = around[mode]
            self.assertEqual(
                sum(areas), sum(self.twice(corners[a], corners[b]) for a, b in zip(outline, outline[1:] + outline[:1]))
            )
            self.assertEqual(len({area > 0 for area in areas}), 1)

    @staticmethod
    def twice(a, b):
        return a[0] * b[1] - a[1] * b[0]

    def test_each_triangle_knows_its_primitive(self):
        self.assertEqual([primitive for primitive, _ in shapes.shapes(7, 11)], [0, 0, 1, 1])
        self.assertEqual([primitive for primitive, _ in shapes.shapes(8, 7)], [0, 0, 1, 1])
        self.assertEqual([primitive for primitive, _ in shapes.shapes(9, 5)], [0, 0, 0])
        self.assertEqual(shapes.shapes(5, 4), [(0, (0, 1, 2)), (1, (2, 1, 3))])
        self.assertEqual(shapes.shapes(2, 3), [(0, (0, 1)), (1, (1, 2)), (2, (2, 0))])
        self.assertEqual((shapes.shapes(7, 3), shapes.shapes(8, 1), shapes.shapes(14, 9)), ([], [], []))


class Contexts(unittest.TestCase):
    def test_vertices_go_through_both_matrices(self):
        trace = Trace()("glMatrixMode", mode=gl.PROJECTION)("glOrtho", 0, 40, 0, 30, -1, 1)(
            "glMatrixMode", mode=gl.MODELVIEW
        )("glTranslatef", 10, 0, 0)
        (done,) = done_by(trace.corners(4, (0, 0), (10, 0, 1), (0, 30, 0, 2)).swap())
        self.assertEqual((done.name, done.kind), ("glBegin(GL_TRIANGLES)", "draw"))
        self.assertEqual(places(done), [((-0.5, -1, 0), (0, -1, -1), (-0.5, 0, 0))])

    def test_a_frame_has_its_calls_alone_and_the_state_of_those_before(self):
        trace = Trace()("glEnable", cap=gl.BLEND).corners(4, (0, 0), (1, 0), (0, 1)).swap()
        trace("glClear", mask=0x4100, flags=RENDERS).corners(0, (0, 0)).swap().corners(1, (0, 0), (1, 1))
        self.assertEqual(
            [(one.kind, one.mode, one.settings.is_on(gl.BLEND)) for one in done_in(trace.calls, 1)],
            [("clear", 0, True), ("draw", 0, True)],
        )
        self.assertEqual(len(done_in(trace.calls, 2)), 1)
        self.assertEqual(done_in(trace.calls, 3), [])

    def test_lists_keep_vertices_of_their_time_and_run_where_they_are_called(self):
        pointer = {"size": 2, "type": UNSIGNED_BYTE, "stride": 0}
        trace = Trace()("glEnableClientState", array=gl.VERTEX_ARRAY)(
            "glVertexPointer", **pointer, pointer=bytes((0, 0, 1, 0, 0, 1))
        )
        trace("glNewList", list=7, mode=0x1300)("glDrawArrays", mode=4, first=0, count=3, flags=RENDERS)(
            "glTranslatef", 1, 0, 0
        )("glEndList")
        trace("glNewList", list=8, mode=0x1301)("glCallList", list=7)("glDrawArrays", mode=4, first=0, count=3)(
            "glEndList"
        )("glLoadIdentity")
        trace("glVertexPointer", **pointer, pointer=bytes(6)).swap()("glCallLists", n=1, type=0, lists=[5])(
            "glListBase", 3
        )("glCallLists", n=1, type=0, lists=[5])
        trace("glDeleteLists", list=8, range=1)("glCallList", list=8)
        executed = done_in(trace.calls, 0)
        self.assertEqual([places(one)[0][0] for one in executed], [(0, 0, 0), (1, 0, 0)])
        called = done_in(trace.calls, 1)
        self.assertEqual(
            [places(one)[0] for one in called], [((0, 0, 0), (1, 0, 0), (0, 1, 0)), ((1, 0, 0), (2, 0, 0), (1, 1, 0))]
        )
        self.assertEqual({one.number for one in called}, {trace.calls[-3].number})

    def test_a_list_that_calls_itself_ends(self):
        trace = (
            Trace()("glNewList", list=1, mode=0x1300)("glCallList", list=1)
            .corners(0, (0, 0))("glEndList")("glCallList", list=1)
            .swap()
        )
        self.assertEqual(len(done_by(trace)), 64)

    def test_draws_of_arrays(self):
        trace = Trace()("glEnableClientState", array=gl.VERTEX_ARRAY)(
            "glVertexPointer", size=2, type=UNSIGNED_BYTE, stride=0, pointer=bytes(range(12))
        )
        trace("glDrawElements", mode=5, count=4, type=UNSIGNED_BYTE, indices=bytes((3, 0, 1, 2)), flags=RENDERS)(
            "glMultiDrawArrays", mode=4, first=[0, 3], count=[3, 3], flags=RENDERS
        )
        trace("glDrawArrays", mode=4, first=4, count=3, flags=RENDERS)("glBegin", mode=0)("glArrayElement", i=5)(
            "glEnd"
        ).swap()
        strip, many, beyond, point = done_by(trace)
        self.assertEqual(
            [[corner[:2] for corner in corners] for _, corners in strip.primitives],
            [[(6, 7), (0, 1), (2, 3)], [(2, 3), (0, 1), (4, 5)]],
        )
        self.assertEqual([number for number, _ in many.primitives], [(0, 0), (0, 1)])
        self.assertEqual((beyond.primitives, beyond.trouble), ([], draws.NO_VERTICES))
        self.assertEqual(places(point), [((10, 11, 0),)])

    def test_planes_of_the_program_s_own_cut(self):
        """A plane is given in the coordinates of its time: x >= 1 before a move by 1 is x >= 2 in the eye's."""
        trace = Trace()("glTranslatef", 1, 0, 0)("glClipPlane", plane=0x3001, equation=[1, 0, 0, -1])("glLoadIdentity")(
            "glEnable", cap=0x3001
        )
        trace.corners(4, (0, 0), (4, 0), (4, 4)).corners(1, (0, 1), (4, 1)).corners(4, (0, 0), (1, 0), (1, 1))(
            "glDisable", cap=0x3001
        ).corners(0, (0, 0)).swap()
        triangle, line, outside, off = done_by(trace)
        self.assertEqual(
            sorted({corner[:2] for corners in places(triangle) for corner in corners}), [(2, 0), (2, 2), (4, 0), (4, 4)]
        )
        self.assertEqual(places(line), [((2, 1, 0), (4, 1, 0))])
        self.assertEqual((outside.primitives, len(off.primitives)), ([], 1))

    def test_rectangles(self):
        for name, given in (("glRectf", (1, 2, 5, 4)), ("glRectfv", ([1, 2], [5, 4]))):
            (done,) = done_by(Trace()(name, *given, flags=RENDERS).swap())
            self.assertEqual(
                {corner[:2] for corners in places(done) for corner in corners}, {(1, 2), (5, 2), (5, 4), (1, 4)}
            )

    def test_shaders_of_a_program_s_own(self):
        for text, kind, trouble in (
            ("void main() { gl_Position = ftransform(); }", gl.VERTEX_SHADER, ""),
            ("gl_Position = gl_ModelViewProjectionMatrix * gl_Vertex;", gl.VERTEX_SHADER, ""),
            ("gl_Position = wave(gl_Vertex);", gl.VERTEX_SHADER, draws.OWN_SHADER),
            ("gl_FragColor = vec4(1);", 0x8B30, ""),
        ):
            trace = Trace()("glCreateShader", type=kind, result=4)(
                "glShaderSource", shader=4, count=1, string=[text], length=[9]
            )("glAttachShader", program=9, shader=4)
            done, after = done_by(
                trace("glUseProgram", program=9).corners(0, (0, 0))("glUseProgram", program=0).corners(0, (0, 0)).swap()
            )
            self.assertEqual((done.trouble, after.trouble), (trouble, ""))

    def test_other_targets_copies_and_markers(self):
        trace = (
            Trace()("glBindFramebuffer", target=gl.FRAMEBUFFER, framebuffer=3)
            .corners(0, (0, 0))("glBindFramebuffer", target=0x8CA8, framebuffer=0)
            .corners(0, (0, 0))
        )
        trace("glBindFramebuffer", target=gl.DRAW_FRAMEBUFFER, framebuffer=0)("glDrawPixels", flags=RENDERS)(
            "glSomethingNew", flags=RENDERS
        )("glPushDebugGroup", message="roof").swap()
        self.assertEqual(
            [(one.kind, one.target, one.name) for one in done_by(trace)],
            [
                ("draw", 3, "glBegin(GL_POINTS)"),
                ("draw", 3, "glBegin(GL_POINTS)"),
                ("copy", 0, "glDrawPixels()"),
                ("copy", 0, "glSomethingNew()"),
                ("marker", 0, "roof"),
            ],
        )

    def test_two_contexts_have_each_their_own(self):
        trace = (
            Trace()("glXMakeCurrent", ctx=1)("glTranslatef", 5, 0, 0)("glXMakeCurrent", ctx=2)
            .corners(0, (0, 0))("glXMakeCurrent", ctx=1)
            .corners(0, (0, 0))
            .swap()
        )
        self.assertEqual([places(one) for one in done_by(trace)], [[((0, 0, 0),)], [((5, 0, 0),)]])

    def test_matrices_and_modes_that_are_pushed(self):
        trace = (
            Trace()("glPushAttrib", mask=0x1000)("glMatrixMode", mode=gl.PROJECTION)("glPopAttrib")(
                "glTranslatef", 5, 0, 0
            )("glPopAttrib")
            .corners(0, (0, 0))
            .swap()
        )
        self.assertEqual(done_by(trace)[0].matrices, (matrices.IDENTITY, matrices.translation(5, 0, 0)))


class Clears(unittest.TestCase):
    def test_what_a_clear_clears(self):
        for buffers, changes, wanted in (
            (0x4000, {}, (True, False, None, 15)),
            (0x100, {}, (False, True, None, 15)),
            (0x4100, {"depth_mask": 0}, (True, False, None, 15)),
            (0x400, {}, (False, False, None, 15)),
            (0x4000, {"mask": (0, 1, 0, 1)}, (True, False, None, 10)),
            (
                0x4000,
                {"scissor": (1, 2, 10, 20), "enabled": frozenset({gl.SCISSOR_TEST})},
                (True, False, [1, 8, 11, 28], 15),
            ),
            (0x4000, {"scissor": (1, 2, 10, 20)}, (True, False, None, 15)),
            (0x4000, {"scissor": (-5, -5, 99, 99), "enabled": frozenset({gl.SCISSOR_TEST})}, (True, False, None, 15)),
        ):
            action = types.SimpleNamespace(
                done=Done(1, "glClear()", "clear", 0, Settings(clear_depth=1.5, **changes), buffers=buffers)
            )
            colour, depth, (box,), mask = TracedFrame.clears(None, action, WIDTH, HEIGHT)
            self.assertEqual((colour, depth, box, mask), wanted)
            self.assertEqual(TracedFrame.depth_value(action, 0, 0), 1.0)


WORDS_THAT_ARE_NOT = (
    ("glTranslatef", {"x": 1}),
    ("glTranslatef", {"x": "a", "y": 1, "z": 2}),
    ("glMatrixMode", {}),
    ("glBegin", {"way": 4}),
    ("glDrawArrays", {"mode": 4, "first": None, "count": 3}),
    ("glBufferData", {"target": 1, "size": 1 << 60, "data": None}),
    ("glCallList", {"x": 1}),
    ("glPolygonMode", {"face": 1}),
    ("glViewport", {"x": 1}),
    ("glScissor", {"x": "0", "y": 0, "width": 1, "height": 1}),
    ("glClearDepth", {"depth": "far"}),
    ("glColorMask", {"red": 1}),
    ("glLoadMatrixf", {"m": [1, 2]}),
    ("glClipPlane", {"plane": 0x3000, "equation": [1]}),
    ("glVertexPointer", {"size": "4"}),
    ("glBlendFunc", {"sfactor": [], "dfactor": {}}),
    ("glPushAttrib", {}),
    ("glDepthRange", {"zNear": "a", "zFar": "b"}),
    ("glEnable", {"cap": []}),
    ("glVertex2f", {"x": None, "y": 1}),
    ("glShaderSource", {}),
    ("glBindFramebuffer", {}),
)


class Strangers(unittest.TestCase):
    def test_words_that_are_not_openGL_s(self):
        """They give a Fault that names the call, whatever stands where a number should, or nothing."""
        faults = 0
        for name, given in WORDS_THAT_ARE_NOT:
            trace = Trace()("glViewport", 0, 0, WIDTH, HEIGHT)("glEnable", cap=gl.SCISSOR_TEST)(
                "glEnable", cap=gl.BLEND
            )("glBegin", mode=0)
            trace.calls.append(Call(1, name, given))
            trace("glEnd")("glClear", mask=0x4100, flags=RENDERS).corners(4, (0, 0), (1, 0), (0, 1)).swap()
            try:
                for one in done_by(trace):
                    action = types.SimpleNamespace(done=one)
                    placed(
                        *TracedFrame.primitives(action)[:1],
                        TracedFrame.state(action, WIDTH, HEIGHT, Losses()),
                        Losses(),
                    )
                    if one.kind == "clear":
                        TracedFrame.clears(None, action, WIDTH, HEIGHT), TracedFrame.depth_value(action)
            except Fault as fault:
                faults += 1
                self.assertRegex(str(fault), r"^call \d+, gl\w+\S*: its words can't be understood")
        self.assertGreater(faults, 12)


if __name__ == "__main__":
    unittest.main()
