"""The converter of apitrace's traces without apitrace: matrices, states, and arrays of a program."""
import unittest

import folders

from old_frames import matrices, retrace, settings, words
from old_frames import numbers as gl
from old_frames.arrays import Arrays, Buffers
from old_frames.calls import Call
from old_frames.draws import Done
from old_frames.settings import Settings
from old_frames.stacks import Stacks
from real_frames.losses import Losses

WIDTH, HEIGHT = 40, 30
FLOAT, SHORT, DOUBLE, UNSIGNED_BYTE = 0x1406, 0x1402, 0x140A, 0x1401


class Matrices(unittest.TestCase):
    def alike(self, vertex, wanted):
        for value, other in zip(vertex, wanted, strict=True):
            self.assertAlmostEqual(value, other)

    def test_each_moves_a_point_as_openGL_defines_it(self):
        for matrix, point, wanted in (
            (matrices.translation(1, 2, 3), (5, 6, 7, 1), (6, 8, 10, 1)),
            (matrices.translation(1, 2, 3), (5, 6, 7, 0), (5, 6, 7, 0)),
            (matrices.scaling(2, 3, 4), (1, 1, 1, 1), (2, 3, 4, 1)),
            (matrices.rotation(90, 0, 0, 2), (1, 0, 0, 1), (0, 1, 0, 1)),
            (matrices.rotation(90, 1, 0, 0), (0, 1, 0, 1), (0, 0, 1, 1)),
            (matrices.rotation(90, 0, 1, 0), (0, 0, 1, 1), (1, 0, 0, 1)),
            (matrices.rotation(120, 1, 1, 1), (1, 2, 3, 1), (3, 1, 2, 1)),
            (matrices.rotation(30, 0, 0, 0), (1, 2, 3, 1), (1, 2, 3, 1)),
        ):
            self.alike(matrices.applied(matrix, point), wanted)

    def test_a_frustum_and_a_box_fill_clip_space(self):
        seen = matrices.frustum(-2, 4, -1, 5, 2, 10)
        for point, wanted in (
            ((-2, -1, -2, 1), (-1, -1, -1)),
            ((4, 5, -2, 1), (1, 1, -1)),
            ((20, 25, -10, 1), (1, 1, 1)),
            ((-10, -5, -10, 1), (-1, -1, 1)),
        ):
            x, y, z, w = matrices.applied(seen, point)
            self.alike((x / w, y / w, z / w), wanted)
        box = matrices.ortho(0, 40, 30, 0, -1, 3)
        for point, wanted in (((0, 30, 1, 1), (-1, -1, -1, 1)), ((40, 0, -3, 1), (1, 1, 1, 1))):
            self.alike(matrices.applied(box, point), wanted)
        for wrong in (
            matrices.frustum(1, 1, 0, 1, 1, 2),
            matrices.frustum(0, 1, 0, 1, -1, 2),
            matrices.ortho(0, 1, 2, 2, 0, 1),
        ):
            self.assertEqual(wrong, matrices.IDENTITY)

    def test_products_and_inverses(self):
        turn, move = matrices.rotation(33, 1, 2, 3), matrices.multiplied(
            matrices.translation(1, -2, 3), matrices.scaling(2, 0.5, 3)
        )
        both = matrices.multiplied(turn, move)
        self.alike(matrices.applied(both, (1, 2, 3, 1)), matrices.applied(turn, matrices.applied(move, (1, 2, 3, 1))))
        self.alike(matrices.multiplied(both, matrices.inverse(both)), matrices.IDENTITY)
        self.assertEqual(matrices.inverse((0,) * 16), matrices.IDENTITY)
        self.assertEqual(matrices.transposed(matrices.transposed(both)), both)
        self.assertEqual(matrices.transposed(matrices.translation(7, 8, 9))[3::4], (7, 8, 9, 1))

    def test_stacks(self):
        stacks, move = Stacks(), matrices.translation(1, 2, 3)
        for name, values in (
            ("glPopMatrix", []),
            ("glTranslate", [1, 2, 3]),
            ("glPushMatrix", []),
            ("glScale", [2, 2, 2]),
            ("glMatrixMode", [gl.PROJECTION]),
            ("glLoadTransposeMatrix", matrices.transposed(move)),
            ("glMultMatrix", list(matrices.scaling(3, 3, 3))),
        ):
            stacks.do(name, values)
        self.assertEqual(stacks.top(gl.MODELVIEW), matrices.multiplied(move, matrices.scaling(2, 2, 2)))
        self.assertEqual(stacks.top(gl.PROJECTION), matrices.multiplied(move, matrices.scaling(3, 3, 3)))
        for name, values in (("glMatrixMode", [gl.MODELVIEW]), ("glPopMatrix", [])):
            stacks.do(name, values)
        self.assertEqual((stacks.top(gl.MODELVIEW), len(stacks.stack(gl.MODELVIEW))), (move, 1))


class State(unittest.TestCase):
    def set(self, own, name, *values):
        settings.set_by(own, Call(0, name, dict(enumerate(values))))

    def set_all(self, own):
        for name, *values in (
            ("glEnable", gl.BLEND),
            ("glEnable", gl.CULL_FACE),
            ("glEnable", gl.DEPTH_TEST),
            ("glEnable", gl.SCISSOR_TEST),
            ("glBlendFunc", 1, 1),
            ("glColorMask", 1, 0, 1, 0),
            ("glCullFace", gl.FRONT),
            ("glDepthFunc", 0x207),
            ("glViewport", 1, 2, 3, 4),
            ("glScissor", 5, 6, 7, 8),
        ):
            self.set(own, name, *values)

    def test_what_is_pushed_comes_back_and_no_more(self):
        for mask, kept in (
            (0x2000, {"enabled"}),
            (0x4000, {"blend", "mask", "blend is on"}),
            (0x8, {"cull", "cull face is on"}),
            (0x100, {"depth_function", "depth test is on"}),
            (0x800, {"viewport"}),
            (0x80000, {"scissor", "scissor is on"}),
            (0, set()),
            (0xFFFFF, None),
        ):
            own = Settings()
            then = own.copy()
            self.set_all(own)
            now = settings.restored(own, then, mask)
            parts = ("enabled", "blend", "mask", "cull", "depth_function", "viewport", "scissor")
            told = {name: getattr(now, name) == getattr(then, name) for name in parts}
            switches = {
                "blend is on": gl.BLEND,
                "cull face is on": gl.CULL_FACE,
                "depth test is on": gl.DEPTH_TEST,
                "scissor is on": gl.SCISSOR_TEST,
            }
            told.update((name, not now.is_on(switch)) for name, switch in switches.items())
            wanted = set(told) if kept is None else kept | (set(switches) if "enabled" in kept else set())
            self.assertEqual({name for name, is_back in told.items() if is_back}, wanted, hex(mask))

    def test_setters(self):
        own = Settings()
        for name, values in (
            ("glBlendFunc", [0x302, 0x303]),
            ("glBlendEquation", [0x800A]),
            ("glPolygonMode", [gl.BACK, 0x1B01]),
            ("glDisable", [gl.DITHER]),
            ("glClearDepth", [0.5]),
        ):
            self.set(own, name, *values)
        self.assertEqual(
            (own.blend, own.equation, own.fill, own.enabled, own.clear_depth),
            ((0x302, 0x303, 0x302, 0x303), (0x800A,) * 2, (gl.FILL, 0x1B01), frozenset(), 0.5),
        )
        self.set(own, "glBlendFuncSeparate", 1, 0, 0x302, 1)
        self.assertEqual(own.blend, (1, 0, 0x302, 1))

    def worded(self, mode=4, **changes):
        losses = Losses()
        own = Settings(viewport=(0, 0, WIDTH, HEIGHT), **changes)
        return words.state_of(Done(1, "draw", "draw", 0, own, mode), WIDTH, HEIGHT, losses), losses

    def test_in_framedbg_s_words(self):
        state, _ = self.worded(
            scissor=(1, 2, 10, 20),
            cull=gl.FRONT,
            front=gl.CW,
            enabled=frozenset({gl.SCISSOR_TEST, gl.CULL_FACE, gl.DEPTH_TEST}),
            depth_function=0x203,
            depth_mask=0,
        )
        self.assertEqual(state.rectangle(), [1, HEIGHT - 22, 11, HEIGHT - 2])
        self.assertEqual((state.raster["cull"], state.raster["front_ccw"]), ("front", False))
        self.assertEqual(
            (state.depth["enable"], state.depth["write"], state.depth["func"]), (True, False, "LESS_EQUAL")
        )
        self.assertEqual(state.viewport.place((-1, 1, -1, 1)), (0, 0, 0))
        self.assertEqual(self.worded(cull=gl.FRONT)[0].raster["cull"], "none")
        self.assertEqual(self.worded(cull=0x408, enabled=frozenset({gl.CULL_FACE}))[0].rectangle(), [0, 0, 0, 0])

    def test_blending(self):
        state, _ = self.worded(
            enabled=frozenset({gl.BLEND}),
            blend=(0x306, 0x8003, 1, 0x301),
            equation=(0x800B, 0x8006),
            mask=(1, 0, 1, 1),
            constant=(0, 0, 0, 0.4),
        )
        self.assertEqual(
            (state.blend["rgb"], state.blend["alpha"], state.blend["mask"]),
            (["DEST_COLOR", "BLEND_FACTOR", "REV_SUBTRACT"], ["ONE", "INV_SRC_ALPHA", "ADD"], 13),
        )
        self.assertEqual(state.factor["color"], [102] * 4)
        self.assertEqual(
            (self.worded(mask=(0, 1, 0, 0))[0].blend["mask"], self.worded()[0].blend["enable"]), (2, False)
        )

    def test_an_offset_moves_triangles_alone(self):
        for mode, wanted in ((4, (7, 3)), (7, (7, 3)), (1, (0, 0)), (0, (0, 0))):
            bias = self.worded(mode, enabled=frozenset({gl.OFFSET_FILL}), offset=(3, 7))[0].bias
            self.assertEqual((bias.constant, bias.slope), wanted)

    def test_what_is_lost_is_counted(self):
        for switch, mode, lost in (
            (gl.STENCIL_TEST, 4, "stencil"),
            (gl.ALPHA_TEST, 4, "alpha test"),
            (gl.COLOR_LOGIC_OP, 4, "logic"),
            (gl.LINE_STIPPLE, 1, "stippled lines"),
            (gl.POLYGON_STIPPLE, 9, "stippled triangles"),
            (gl.POINT_SMOOTH, 0, "smooth points"),
        ):
            self.assertTrue(
                any(lost in what for what in self.worded(mode, enabled=frozenset({switch}))[1].counts), lost
            )
        self.assertEqual(dict(self.worded(4, enabled=frozenset({gl.LINE_STIPPLE, gl.POINT_SMOOTH}))[1].counts), {})
        self.assertTrue(any("fill mode" in what for what in self.worded(fill=(gl.FILL, 0x1B01))[1].counts))
        self.assertEqual(
            [
                self.worded(enabled=frozenset(on))[0].discards
                for on in ({gl.ALPHA_TEST}, {gl.STENCIL_TEST}, {gl.DEPTH_TEST})
            ],
            [True, True, False],
        )

    def test_widths(self):
        self.assertEqual([self.worded(mode, line_width=3.0, point_size=5.0)[0].width for mode in (0, 1, 3)], [5, 3, 3])

    def test_a_state_that_glretrace_has_otherwise(self):
        done = Done(1, "draw", "draw", 0, Settings(viewport=(0, 0, 40, 30), enabled=frozenset({gl.BLEND})), 4)
        told = {
            "GL_VIEWPORT": [0, 0, 40, 30],
            "GL_BLEND": "GL_TRUE",
            "GL_CULL_FACE": "GL_FALSE",
            "GL_COLOR_WRITEMASK": ["GL_TRUE"] * 4,
            "GL_PROJECTION_MATRIX": list(matrices.IDENTITY),
        }
        self.assertEqual(retrace.otherwise(done, told), [])
        for name, value in (
            ("GL_VIEWPORT", [0, 0, 40, 31]),
            ("GL_BLEND", "GL_FALSE"),
            ("GL_COLOR_WRITEMASK", ["GL_TRUE"] * 3 + ["GL_FALSE"]),
            ("GL_PROJECTION_MATRIX", [2] * 16),
        ):
            self.assertEqual(retrace.otherwise(done, {**told, name: value}), [name])


class ArraysOfAProgram(unittest.TestCase):
    def arrays(self, *some):
        arrays = Arrays(Buffers())
        for name, members in some:
            self.assertTrue(arrays.do(Call(0, name, members, members.pop("result", None))), name)
        return arrays

    def test_places_in_memory_and_in_buffers(self):
        import struct

        own = struct.pack("<6h", 1, 2, 3, 4, 5, 6)
        on = ("glEnableClientState", {"array": gl.VERTEX_ARRAY})
        memory = self.arrays(on, ("glVertexPointer", {"size": 2, "type": SHORT, "stride": 0, "pointer": own}))
        self.assertEqual(memory.vertices([2, 0]), [(5, 6, 0.0, 1.0), (1, 2, 0.0, 1.0)])
        buffer = self.arrays(
            on,
            ("glBindBuffer", {"target": gl.ARRAY_BUFFER, "buffer": 3}),
            ("glBufferData", {"target": gl.ARRAY_BUFFER, "size": 12, "data": None}),
            ("glBufferSubData", {"target": gl.ARRAY_BUFFER, "offset": 4, "size": 8, "data": own[4:]}),
            ("glVertexPointer", {"size": 2, "type": SHORT, "stride": 6, "pointer": 2}),
            ("glBindBuffer", {"target": gl.ARRAY_BUFFER, "buffer": 0}),
        )
        self.assertEqual(buffer.vertices([0, 1]), [(0, 3, 0.0, 1.0), (5, 6, 0.0, 1.0)])
        self.assertIsNone(buffer.vertices([2]))
        self.assertIsNone(
            self.arrays(("glVertexPointer", {"size": 2, "type": SHORT, "stride": 0, "pointer": own})).vertices([0])
        )

    def test_a_buffer_that_is_written_to_where_it_is_mapped(self):
        arrays = self.arrays(
            ("glBindBuffer", {"target": gl.ELEMENT_BUFFER, "buffer": 5}),
            ("glBufferData", {"target": gl.ELEMENT_BUFFER, "size": 6, "data": bytes(6)}),
            ("glMapBuffer", {"target": gl.ELEMENT_BUFFER, "result": 1000}),
            ("memcpy", {"dest": 1002, "src": b"\x07\x08", "n": 2}),
            ("memcpy", {"dest": 2000, "src": b"\x01\x01", "n": 2}),
            ("glUnmapBuffer", {"target": gl.ELEMENT_BUFFER}),
            ("memcpy", {"dest": 1000, "src": b"\x09", "n": 1}),
        )
        self.assertEqual(arrays.indices(5, UNSIGNED_BYTE, 1), [0, 7, 8, 0, 0])
        self.assertIsNone(arrays.indices(7, UNSIGNED_BYTE, 0))
        self.assertEqual(arrays.indices(2, UNSIGNED_BYTE, b"\x03\x02"), [3, 2])

    def test_what_a_client_pushes(self):
        some = [
            ("glEnableClientState", {"array": gl.VERTEX_ARRAY}),
            ("glPushClientAttrib", {"mask": 2}),
            ("glDisableClientState", {"array": gl.VERTEX_ARRAY}),
        ]
        self.assertFalse(self.arrays(*some).is_on)
        self.assertTrue(self.arrays(*some, ("glPopClientAttrib", {})).is_on)
        self.assertFalse(
            self.arrays(
                some[0],
                ("glPushClientAttrib", {"mask": 1}),
                some[2],
                ("glPopClientAttrib", {}),
                ("glPopClientAttrib", {}),
            ).is_on
        )


if __name__ == "__main__":
    unittest.main()
