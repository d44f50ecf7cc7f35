#!/usr/bin/env python3
"""test_frame_calls: the calls of a frame as text, which of them set the state, and what a converted frame's events
tell of where they come from."""
import json
import pathlib
import tempfile
import types
import unittest

import folders  # noqa: F401

import targets
from frames_testing import OVER, StandIn, clear, draw, quad, state
from real_frames import calls
from test_pictured_frames import GREY, RED, converted
import frames_testing


def member(name, kind, value=0, text=""):
    """A member of a chunk, as RenderDoc's: of a structure the value is its own members."""
    parts = value if isinstance(value, list) else []
    basic = types.SimpleNamespace(i=value, u=value, d=value, b=value, id=value)
    return types.SimpleNamespace(
        name=name,
        type=types.SimpleNamespace(basetype=types.SimpleNamespace(name=kind)),
        data=types.SimpleNamespace(string=text, basic=basic),
        NumChildren=lambda: len(parts),
        GetChild=lambda number: parts[number],
    )


def call(name, *members):
    return types.SimpleNamespace(name=name, NumChildren=lambda: len(members), GetChild=lambda number: members[number])


def enum(name, text, value=0x302):
    return member(name, "Enum", value, text)


ENABLE, DISABLE = (call(name, enum("cap", "GL_BLEND")) for name in ("glEnable", "glDisable"))
ADDED = call("glBlendFunc", enum("sfactor", "GL_LINES", 1), enum("dfactor", "GL_NONE", 0))
DRAW = call(
    "glDrawArrays",
    enum("mode", "GL_TRIANGLES"),
    member("first", "SignedInteger", -1),
    member("count", "UnsignedInteger", 3),
)
PIPELINE = call(
    "vkCmdBindPipeline",
    member("commandBuffer", "Resource", 1),
    enum("pipelineBindPoint", "VK_PIPELINE_BIND_POINT_GRAPHICS"),
    member("pipeline", "Resource", 5),
)


def setters(*groups, names={}):
    """Of one action for each group of chunks: the calls of all are numbered from 1."""
    chunks, actions = [], []
    for group in groups:
        first = len(chunks)
        chunks += group
        actions.append(
            types.SimpleNamespace(
                eventId=len(chunks),
                events=[
                    types.SimpleNamespace(eventId=number + 1, chunkIndex=number) for number in range(first, len(chunks))
                ],
            )
        )
    return calls.setters(actions, chunks, names)


class Calls(unittest.TestCase):
    def test_their_text(self):
        area = member(
            "area",
            "Struct",
            [member("x", "SignedInteger", 3), member("deep", "Boolean", 1), member("by", "Float", 0.5)],
        )
        many = member("some", "Array", [member("$el", "UnsignedInteger", 7)] * 9)
        for chunk, text in (
            (DRAW, "glDrawArrays(GL_TRIANGLES, -1, 3)"),
            (ADDED, "glBlendFunc(GL_ONE, GL_ZERO)"),
            (PIPELINE, "vkCmdBindPipeline(VK_PIPELINE_BIND_POINT_GRAPHICS, the sky)"),
            (call("f", area, many), "f([3, true, 0.5], [7, 7, 7, 7, 7, 7, 7, 7, ..])"),
            (call("g", member("DebugMessages", "Array", [])), "g()"),
            (call("h", member("text", "String", 0, "a\x1b[2J")), "h(a?[2J)"),
            (call("k", member("what", "Null"), member("to", "Resource", 8)), "k(.., 8)"),
        ):
            self.assertEqual(calls.text_of(chunk, {5: "the sky"}), text)

    def test_what_set_a_state(self):
        """Of each part the calls that made it what it is: the last of its kind, whether a draw lies between or not."""
        found = setters(
            [call("glColorMask", member("red", "Boolean", 1)), ENABLE, DRAW],
            [ADDED, DISABLE, call("glDepthMask"), DRAW],
            [DRAW],
        )
        self.assertEqual(found[3], {"blend": [[1, "glColorMask(true)"], [2, "glEnable(GL_BLEND)"]]})
        self.assertEqual(
            found[7],
            {
                "blend": [[1, "glColorMask(true)"], [4, "glBlendFunc(GL_ONE, GL_ZERO)"], [5, "glDisable(GL_BLEND)"]],
                "depth": [[6, "glDepthMask()"]],
            },
        )
        self.assertEqual(found[8], found[7])

    def test_events_without_a_call(self):
        """RenderDoc's own, in frames of Vulkan."""
        event = types.SimpleNamespace(eventId=1, chunkIndex=0xFFFFFFFF)
        self.assertEqual(calls.setters([types.SimpleNamespace(eventId=1, events=[event])], [DRAW], {}), {1: {}})

    def test_which_part_a_call_sets(self):
        other = member("buf", "UnsignedInteger", 1)
        cap = lambda text: call("glEnable", enum("cap", text))
        for chunk, kinds in (
            (cap("GL_SCISSOR_TEST"), ("raster", "scissor")),
            (cap("GL_CULL_FACE"), ("raster",)),
            (cap("GL_DITHER"), ()),
            (call("glFrontFace"), ("raster",)),
            (call("glViewportIndexedf"), ("scissor",)),
            (call("glBlendEquationSeparate"), ("blend",)),
            (call("glBlendColor"), ("factor",)),
            (call("glDepthFunc"), ("depth",)),
            (call("glBlendFunci", other), ()),
            (call("glDrawArrays"), ()),
            (PIPELINE, ("raster", "blend", "depth")),
            (call("vkCmdSetScissor"), ("scissor",)),
            (call("vkCmdBindPipeline", enum("pipelineBindPoint", "VK_PIPELINE_BIND_POINT_COMPUTE")), ()),
            (call("vkCmdSetDepthWriteEnableEXT"), ("depth",)),
            (call("ID3D11DeviceContext::OMSetBlendState"), ("blend", "factor")),
            (call("ID3D12GraphicsCommandList::SetPipelineState"), ("raster", "blend", "depth")),
        ):
            self.assertEqual((calls.set_by(chunk) or ("", ()))[1], kinds, chunk.name)


def two_targets():
    """The captures of two targets: draws of the second read the first, one that is unknown, and the second itself."""
    event = lambda kind, call, **more: {"kind": kind, "source": {"event": call, **more}}
    kinds = [("clear", 2), ("blend", 5), ("draw", 5), ("draw", 5), ("draw", 30)]
    reads = [{"target": 3, "event": 5, "laid": "straight"}]
    events = [
        event("draw", 4, reads=[{"target": 3, "event": 2}, {"target": 9, "event": 1}, {"target": 7, "event": 2}]),
        event("marker", 6, reads=reads),
        event("draw", 6, reads=reads),
        event("draw", 7, reads=[{"target": 3, "event": 1}, {"target": 7, "event": 4}]),
    ]
    return (
        {"width": 8, "height": 4, "events": [event(*kind) for kind in kinds]},
        {"width": 6, "height": 2, "events": events},
    )


class Targets(unittest.TestCase):
    def test_which_draw_reads_which(self):
        """A target as it was made: at the last event of its capture that comes from a call up to the one that wrote
        it last."""
        lit, shown = two_targets()
        found = targets.made(7, [(3, "lit", lit), (7, "", shown)])
        self.assertEqual(
            found["targets"],
            [
                {"target": 3, "name": "lit", "capture": "target_3.json", "width": 8, "height": 4},
                {"target": 7, "name": "", "capture": "target_7.json", "width": 6, "height": 2},
            ],
        )
        wanted = [
            {"target": 7, "position": 1, "reads": 3, "made": 2, "at": 1},
            {"target": 7, "position": 3, "reads": 3, "made": 5, "at": 4, "laid": "straight"},
        ]
        self.assertEqual(found["reads"], wanted)
        self.assertEqual((found["format"], found["shown"]), ("framedbg frame", 7))
        self.assertEqual(targets.made(7, [(3, "lit", targets.bare(lit)), (7, "", targets.bare(shown))]), found)
        with tempfile.TemporaryDirectory() as folder:
            (pathlib.Path(folder) / "frame.json").write_text(json.dumps(found))
            self.assertEqual(targets.read(folder), found)
            self.assertEqual(targets.beside(pathlib.Path(folder) / "target_3.json"), (found, 3))
            self.assertIsNone(targets.beside(pathlib.Path(folder) / "other.json"))
        self.assertEqual([targets.texel(found, read, 5, 1) for read in found["reads"]], [None, (7, 3)])


class Events(unittest.TestCase):
    def test_what_they_tell(self):
        """A state event has the calls that set it; a draw what it reads; in captures of planes and of pictures."""
        reads, by = {
            "textures": [{"id": 9, "name": "bricks", "width": 8, "height": 8}],
            "reads": [{"target": 9, "event": 3}],
        }, {"blend": [[4, "glEnable(GL_BLEND)"]]}
        told = draw(5, quad(3, 2, 15, 12, 0.5, (60, 20, 90, 100)), state(blend=OVER), told=(reads, by))
        frame = StandIn(clear(2, GREY, 1.0), told, draw(6, quad(1, 1, 9, 9, 0.5, RED), state(blend=OVER)))
        for make in (converted, frames_testing.converted):
            events = make(frame)["events"]
            blends = [event["source"] for event in events if event["kind"] == "blend"]
            self.assertEqual(blends, [{"event": 5, "name": "draw()", "set_by": [[4, "glEnable(GL_BLEND)"]]}])
            first, second = (event["source"] for event in events if event["kind"] == "draw")
            self.assertEqual({name: first.get(name) for name in reads}, reads)
            self.assertTrue(
                not set(reads) & set(second)
                and not any("set_by" in event["source"] for event in events if event["kind"] != "blend")
            )


if __name__ == "__main__":
    unittest.main()
