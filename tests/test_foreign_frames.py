#!/usr/bin/env python3
"""test_foreign_frames: tools/renderdoc_to_capture beside a module of the test's own in the place of RenderDoc's:
files and frames that can't be replayed, and the states of Direct3D, of which no frame is replayed but on Windows.
"""
import enum
import importlib.machinery
import importlib.util
import os
import pathlib
import struct
import subprocess
import sys
import tempfile
import time
import types
import unittest
from unittest import mock

from folders import TESTS, TOOLS

from real_frames import module, telling
from real_frames.fault import Fault
from real_frames.viewport import Viewport

MEMBERS = {
    "State": "rasterizer outputMerger",
    "Rasterizer": "state viewports scissors",
    "BlendState": "blendFactor blends",
    "RasterizerState": "frontCCW depthClip depthBias slopeScaledDepthBias depthBiasClamp fillMode cullMode",
    "DepthStencilState": "depthEnable depthWrites depthFunction stencilEnable",
}  # of RenderDoc's types of Direct3D, as far as they are read


class Word(enum.Enum):
    """Names of RenderDoc's enumerations that the tools compare."""

    (
        Succeeded,
        FileCorrupted,
        Supported,
        Unsupported,
        Solid,
        PointList,
        Regular,
        Less,
        Back,
        SrcAlpha,
        InvSrcAlpha,
        Add,
    ) = range(12)


class Api(enum.Enum):
    OpenGL, Vulkan, D3D11, D3D12, Metal = range(5)


class Names:
    """An enumeration of whatever is asked of it, each an int of its own."""

    def __getattr__(self, name):
        return Word[name] if name in Word.__members__ else 1 << sum(map(ord, name)) % 60


class Result:
    def __init__(self, word, text=""):
        self.word, self.text = word, text

    def __eq__(self, other):
        return self.word == other

    def Message(self):
        return self.text


class File:
    """A file that opens, replays and is of an API as the environment says."""

    def OpenFile(self, path, *_):
        return Result(
            Word.Succeeded if pathlib.Path(path).read_bytes() == b"RDOC" else Word.FileCorrupted,
            "not\na capture \x1b[2J",
        )

    def LocalReplaySupport(self):
        return Word[os.environ["SUPPORT"]]

    def DriverName(self):
        return os.environ["API"]

    def OpenCapture(self, *_):
        api = Api[os.environ["API"]]
        word = Word[os.environ["REPLAY"]]
        return Result(word, "no device\nfits"), types.SimpleNamespace(
            GetAPIProperties=lambda: types.SimpleNamespace(pipelineType=api), Shutdown=lambda: None
        )

    def Shutdown(self):
        pass


def stand_in():
    """RenderDoc's module, as far as the tools need it before a frame is there."""
    names = (
        "ActionFlags",
        "ReplaySupport",
        "ResultCode",
        "FillMode",
        "Topology",
        "ResourceFormatType",
        "ShaderStage",
        "MeshDataStage",
        "CompType",
        "DebugOverlay",
        "ShaderBuiltin",
        "VarType",
    )
    calls = {
        name: lambda *_: types.SimpleNamespace()
        for name in ("InitialiseReplay", "GlobalEnvironment", "ReplayOptions", "Subresource", "ShutdownReplay")
    }
    return types.SimpleNamespace(GraphicsAPI=Api, OpenCaptureFile=File, **{name: Names() for name in names}, **calls)


def call_of(kind, flags, outputs=(), source=0, onto=0, chunk=0):
    name = {"Copy": "glBlitFramebuffer(..)"}.get(kind, "call()")
    return types.SimpleNamespace(
        flags=flags,
        outputs=list(outputs),
        copySource=source,
        copyDestination=onto,
        events=[types.SimpleNamespace(chunkIndex=chunk)],
        GetName=lambda _: name,
    )


def copy_of_rows(first, last):
    """What RenderDoc keeps of a call that copies rows 0 to 480 onto others."""
    rows = {"srcY0": 0, "srcY1": 480, "dstY0": first, "dstY1": last}
    number = lambda value: types.SimpleNamespace(data=types.SimpleNamespace(basic=types.SimpleNamespace(i=value)))
    return types.SimpleNamespace(FindChild=lambda name: number(rows[name]))


class Foreign(unittest.TestCase):
    def asked(
        self, content=b"RDOC", api="OpenGL", support="Supported", replay="Succeeded", display=":none", name="frame.rdc"
    ):
        """The tool's status, output and error, with a module that says these."""
        with tempfile.TemporaryDirectory() as folder:
            path = pathlib.Path(folder)
            (path / name).write_bytes(content)
            (path / "renderdoc.py").write_text(
                f"import sys\nsys.path.insert(0, {str(TESTS)!r})\nfrom test_foreign_frames import "
                f"stand_in\nglobals().update(vars(stand_in()))\n"
            )
            environment = {
                "PATH": "/nowhere",
                "PYTHONPATH": folder,
                "PYTHONDONTWRITEBYTECODE": "1",
                "DISPLAY": display,
                "API": api,
                "SUPPORT": support,
                "REPLAY": replay,
            }
            told = subprocess.run(
                [sys.executable, TOOLS / "renderdoc_to_capture", path / name],
                env=environment,
                capture_output=True,
                text=True,
                timeout=60,
            )
            return told.returncode, told.stdout, told.stderr.replace(folder, "")

    def test_what_can_t_be_replayed_is_a_line(self):
        for given, wanted in (
            ({"content": b"PNG"}, "/frame.rdc: no frame of RenderDoc's: not a capture ?[2J"),
            (
                {"support": "Unsupported", "api": "D3D11"},
                "/frame.rdc: a frame of D3D11 can't be replayed on this machine (frames of Direct3D replay on "
                "Windows alone)",
            ),
            (
                {"support": "Unsupported", "api": "Vulkan"},
                "/frame.rdc: a frame of Vulkan can't be replayed on this machine",
            ),
            ({"replay": "FileCorrupted"}, "/frame.rdc: it can't be replayed here: no device fits"),
            (
                {"api": "Metal"},
                "/frame.rdc: a frame of Metal: only OpenGL, OpenGL ES, Vulkan and Direct3D 11 and 12 are read",
            ),
            (
                {"content": b"PNG", "name": "\x1b[2Jframe.rdc"},
                "/?[2Jframe.rdc: no frame of RenderDoc's: not a capture ?[2J",
            ),
            ({"display": ""}, "there is no screen (DISPLAY) and no Xvfb; on Debian: apt install xvfb"),
        ):
            self.assertEqual(self.asked(**given), (1, "", f"renderdoc_to_capture: {wanted}\n"), given)

    def test_the_states_of_direct3d(self):
        """y is up in clip space and rows count from the top; depths go from 0 to w; counter-clockwise is so on the
        target; edges along a row are as framedbg has them."""
        pipelines = self.beside_a_stand_in("pipelines")
        raster = types.SimpleNamespace(
            frontCCW=True,
            depthClip=False,
            depthBias=3,
            slopeScaledDepthBias=1.5,
            depthBiasClamp=0.25,
            fillMode=Word.Solid,
            cullMode=Word.Back,
        )
        depth = types.SimpleNamespace(depthEnable=True, depthWrites=False, depthFunction=Word.Less, stencilEnable=True)
        output = types.SimpleNamespace(
            depthStencilState=depth, blendState=types.SimpleNamespace(blendFactor=(0, 0.5, 1, 1))
        )
        own = types.SimpleNamespace(rasterizer=types.SimpleNamespace(state=raster), outputMerger=output)
        box = types.SimpleNamespace(x=10, y=20, width=100, height=50, minDepth=0.25, maxDepth=0.75, enabled=True)
        pipe = types.SimpleNamespace(GetViewport=lambda number: box, GetScissor=lambda number: box)
        for api, controller in (
            (Api.D3D11, types.SimpleNamespace(GetD3D11PipelineState=lambda: own)),
            (Api.D3D12, types.SimpleNamespace(GetD3D12PipelineState=lambda: own)),
        ):
            read = pipelines.READERS[api](controller, pipe, 480, False)
            self.assertEqual(read.viewport.place((-1, 1, 0, 1)), (10, 20, 0.25))
            self.assertEqual(read.viewport.place((2, -2, 2, 2)), (110, 70, 0.75))
            self.assertFalse(read.viewport.rows_from_below)
            self.assertEqual(
                (read.front_ccw, read.clip_depth, read.stencil, read.bias), (True, False, True, (3, 1.5, 0.25))
            )
            self.assertEqual(
                (read.scissor, read.depth, read.blend_factor, read.raster),
                ([10, 20, 110, 70], (True, False, Word.Less), (0, 0.5, 1, 1), raster),
            )
            self.assertEqual(pipelines.width_of(types.SimpleNamespace(GetPrimitiveTopology=lambda: None), raster), 1.0)

    def beside_a_stand_in(self, name):
        """A module of real_frames that needs RenderDoc's."""
        for one in [one for one in sys.modules if one.startswith("real_frames.")]:
            if hasattr(sys.modules[one], "rd"):
                del sys.modules[one]
        with mock.patch.dict(sys.modules, {"renderdoc": stand_in()}):
            made = importlib.import_module(f"real_frames.{name}")
        self.addCleanup(sys.modules.pop, made.__name__, None)
        return made

    def gl_state(self, lower, front_ccw):
        """A context whose viewport and scissor begin at 10 20, and have 100 by 50."""
        box = types.SimpleNamespace(x=10, y=20, width=100, height=50, minDepth=0, maxDepth=1, enabled=True)
        raster = types.SimpleNamespace(
            frontCCW=front_ccw, depthClamp=False, depthBias=0, slopeScaledDepthBias=0, offsetClamp=0
        )
        own = types.SimpleNamespace(
            vertexProcessing=types.SimpleNamespace(clipOriginLowerLeft=lower, clipNegativeOneToOne=True),
            rasterizer=types.SimpleNamespace(state=raster),
            depthState=types.SimpleNamespace(depthEnable=True, depthWrites=True, depthFunction=Word.Less),
            stencilState=types.SimpleNamespace(stencilEnable=False),
            framebuffer=types.SimpleNamespace(blendState=types.SimpleNamespace(blendFactor=(0, 0, 0, 0))),
        )
        return types.SimpleNamespace(GetGLPipelineState=lambda: own), types.SimpleNamespace(
            GetViewport=lambda number: box, GetScissor=lambda number: box
        )

    def test_a_target_of_opengl_that_is_shown_upside_down(self):
        """Its lowest row is the picture's upper one: rows are counted as OpenGL does, and what runs
        counter-clockwise in OpenGL runs clockwise in the picture."""
        pipelines = self.beside_a_stand_in("pipelines")
        read = lambda from_above, lower=True, front=True: pipelines.of_gl(*self.gl_state(lower, front), 480, from_above)
        upright, turned = read(False), read(True)
        self.assertEqual((upright.scissor, turned.scissor), ([10, 410, 110, 460], [10, 20, 110, 70]))
        self.assertEqual(
            (upright.viewport.place((-1, 1, 0, 1)), turned.viewport.place((-1, 1, 0, 1))),
            ((10, 410, 0.5), (10, 70, 0.5)),
        )
        self.assertEqual((upright.viewport.rows_from_below, turned.viewport.rows_from_below), (True, False))
        self.assertEqual(
            [
                read(*how).front_ccw
                for how in ((False, True, True), (True, True, True), (True, True, False), (True, False, True))
            ],
            [True, False, True, True],
        )

    def test_clears_and_depths_of_such_a_target(self):
        """A scissor of rows 20 to 69 from OpenGL's own side, and the depth at a pixel, which RenderDoc is asked for
        from above."""
        clears, pictures = self.beside_a_stand_in("clears"), self.beside_a_stand_in("pictures")
        cut = types.SimpleNamespace(x=10, y=20, width=100, height=50, enabled=True)
        state = types.SimpleNamespace(depth={"write": True}, blend={"mask": 15})
        action = types.SimpleNamespace(flags=clears.rd.ActionFlags.ClearColor)
        pipe = types.SimpleNamespace(GetPipelineState=lambda: types.SimpleNamespace(GetScissor=lambda number: cut))
        boxes, asked = [], []
        for from_above in (False, True):
            frame = types.SimpleNamespace(
                from_above=from_above, controller=pipe, name=lambda action: "glClear()", state=lambda *_: state
            )
            boxes += clears.of_gl(frame, action, [0, 0, 640, 480])[2]
            controller = types.SimpleNamespace(
                PickPixel=lambda target, x, y, *_: asked.append((x, y)) or types.SimpleNamespace(floatValue=[0.5])
            )
            made = pictures.Pictures(controller, {9: types.SimpleNamespace(height=480)}, True)
            made.lowest_row_first = not from_above
            self.assertEqual(made.depth_value(9, 3, 7), 0.5)
        self.assertEqual((boxes, asked), ([[10, 410, 110, 460], [10, 20, 110, 70]], [(3, 7), (3, 472)]))

    def test_an_overlay_is_drawn_once(self):
        """It is taken away without being drawn anew: of the gears that saved a fifth of the time, and gave the same
        capture."""
        pictures = self.beside_a_stand_in("pictures")
        pictures.rd.TextureDisplay, pictures.rd.FloatVector = types.SimpleNamespace, lambda *_: None
        windows, done = [], []
        pictures.rd.CreateHeadlessWindowingData = lambda *size: windows.append(size)
        pictures.rd.ReplayOutputType = Names()
        output = types.SimpleNamespace(
            SetTextureDisplay=lambda display: done.append(display.overlay), Display=lambda: done.append("drawn")
        )
        made = pictures.Pictures(
            types.SimpleNamespace(CreateOutput=lambda *_: output),
            {7: types.SimpleNamespace(width=4, height=4, resourceId=7)},
            True,
        )
        made.of = lambda target: done.append("read") or b"picture"
        self.assertEqual(made.alone(7), b"picture")
        overlays = pictures.rd.DebugOverlay
        self.assertEqual(done, [overlays.ClearBeforeDraw, "drawn", "read", overlays.NoOverlay])
        self.assertEqual(windows, [(16, 16)])  # nothing of it is read; a large one took half of the time

    def test_the_bytes_of_a_target(self):
        """As red, green, blue and alpha, whatever order they lie in; what follows the last pixel is left out."""
        pictures = self.beside_a_stand_in("pictures")

        def texture(channels, is_turned):
            regular = pictures.rd.ResourceFormatType.Regular
            kind = types.SimpleNamespace(
                type=regular, compByteWidth=1, compCount=channels, BGRAOrder=lambda: is_turned, Name=lambda: ""
            )
            return types.SimpleNamespace(width=2, height=1, format=kind)

        whole = b"123\377567\377"
        for channels, is_turned, given, wanted in (
            (4, False, b"12345678+", b"12345678"),
            (3, False, b"123567+", whole),
            (4, True, b"32147658+", b"12345678"),
            (3, True, b"321765+", whole),
        ):
            self.assertEqual(pictures.decoded(given, texture(channels, is_turned)), wanted, (channels, is_turned))

    def test_the_target_that_is_copied_onto_the_shown_one(self):
        """Wine draws on a target of its own, and copies it onto the window, turned."""
        replay = self.beside_a_stand_in("replay")
        flags = replay.rd.ActionFlags
        kinds = {
            kind: getattr(flags, kind)
            for kind in ("Drawcall", "Copy", "Present", "PushMarker", "SetMarker", "Clear", "Dispatch", "Resolve")
        }
        kinds.update({name: 1 << number for number, name in enumerate(kinds)})
        action = lambda kind, *words, **more: call_of(kind, kinds[kind], *words, **more)
        for kind, flag in kinds.items():
            setattr(flags, kind, flag)
        replay.KINDS[:] = [("draw", flags.Drawcall), ("copy", flags.Copy)]
        replay.rd.ResourceId = types.SimpleNamespace(Null=lambda: 0)
        frame = replay.ReplayedFrame("frame.rdc")
        frame.is_gl = lambda: True
        frame.names = types.SimpleNamespace(chunks=[copy_of_rows(480, 0), copy_of_rows(0, 480)])
        frame.textures = {one: types.SimpleNamespace(width=640, height=480) for one in (5, 7, 9)}
        frame.pictures = types.SimpleNamespace(lowest_row_first=True)
        for chunk, is_turned in ((0, True), (1, False)):
            frame.actions = [
                action("Drawcall", [7]),
                action("Drawcall", [9]),
                action("Copy", source=9, onto=5, chunk=1),
                action("Copy", source=7, onto=5, chunk=chunk),
                action("Present", [5]),
            ]
            self.assertEqual(frame.shown_target(), 7)
            self.assertEqual(frame.size(7), (640, 480))
            self.assertEqual((frame.from_above, frame.pictures.lowest_row_first), (is_turned, not is_turned))
        frame.actions.insert(0, action("Drawcall", [5]))  # a window that is drawn on is the target itself
        self.assertEqual(frame.shown_target(), 5)
        frame.size(5)
        self.assertEqual((frame.from_above, frame.pictures.lowest_row_first), (False, True))
        frame.actions = [action("Drawcall", [7]), action("Copy", source=3, onto=5), action("Present", [5])]
        self.assertEqual(frame.shown_target(), 5)

    def test_a_program_of_windows(self):
        take = self.take_frame()
        with tempfile.TemporaryDirectory() as folder, mock.patch.object(take, "WINES", folder):
            program, wine = pathlib.Path(folder, "scene.exe"), pathlib.Path(folder, "wine64")
            wanted = types.SimpleNamespace(wine=True, program=str(program), words=["5", "-x"])
            with mock.patch.dict(os.environ, {"PATH": "/nowhere"}), self.assertRaisesRegex(
                Fault, "there is no wine64; on Debian: apt install wine wine64"
            ):
                take.program_of(wanted)
            wine.touch(0o755)
            with self.assertRaisesRegex(Fault, f"there is no file {program}"):
                take.program_of(wanted)
            program.touch()
            self.assertEqual(take.program_of(wanted), (str(wine), [str(program), "5", "-x"]))
            self.assertEqual(take.program_of(types.SimpleNamespace(wine=False, program="sh", words=["-c"]))[1], ["-c"])

    def test_callstacks_are_taken_where_they_are_wanted(self):
        take = self.take_frame()
        for words, wanted in (["sh"], False), (["--callstacks", "sh"], True):
            asked, made = [], types.SimpleNamespace
            renderdoc = made(
                GetDefaultCaptureOptions=made,
                ResultCode=made(Succeeded=0),
                CreateTargetControl=lambda *_: made(GetPID=lambda: 1),
                ExecuteAndInject=lambda *words: asked.append(words[5]) or made(result=0, ident=1),
            )
            with mock.patch.object(sys, "argv", ["take_frame", *words]):
                take.launch(renderdoc, take.words())
            self.assertEqual([options.captureCallstacks for options in asked], [wanted])

    def test_where_a_shader_s_outputs_lie(self):
        """The position comes first, and the others in their order; of Vulkan at whole multiples of 8 and 16 bytes."""
        laying = self.beside_a_stand_in("laying")
        built_in, types_of = laying.rd.ShaderBuiltin, laying.rd.VarType
        output = lambda count, is_place=False, kind=types_of.Float: types.SimpleNamespace(
            compCount=count, varType=kind, systemValue=built_in.Position if is_place else built_in.Undefined
        )
        outputs = [output(1), output(2), output(4, True), output(2, kind=types_of.UInt), output(4)]
        self.assertEqual(laying.offsets(outputs, False), ([20, 36], 52))
        self.assertEqual(laying.offsets(outputs, True), ([24, 48], 64))

    def laid(self, vertices, is_from_below=True, size=(8, 4), late=0):
        """What comes of a draw over a target, whose vertices are (x, y, w, u, v) with y growing upward."""
        laying = self.beside_a_stand_in("laying")
        made, rd = types.SimpleNamespace, laying.rd
        rd.ResourceId = made(Null=lambda: 0)
        outputs = [
            made(compCount=count, varType=rd.VarType.Float, systemValue=place)
            for count, place in ((4, rd.ShaderBuiltin.Position), (2, rd.ShaderBuiltin.Undefined))
        ]
        pipe = made(
            GetShaderReflection=lambda stage: made(outputSignature=outputs),
            GetShader=lambda stage: late,
            HasAlignedPostVSData=lambda stage: False,
        )
        content = b"".join(struct.pack("<6f2i", x * w, y * w, 0, w, u, v, 7, 7) for x, y, w, u, v in vertices)
        data = made(vertexResourceId=1, vertexByteOffset=0, vertexByteStride=32)
        controller = made(
            GetPipelineState=lambda: pipe, GetPostVSData=lambda *_: data, GetBufferData=lambda *_: content
        )
        carried = laying.shares(controller, Viewport(0, 0, *size, y_up=True), (8, 4))
        return laying.laid(carried, is_from_below)

    def test_how_a_draw_lays_a_texture(self):
        ends = [(-1, -1), (3, -1), (-1, 3)]  # a triangle that is larger than the target
        over = lambda u, v, w=(1, 1, 1): [(x, y, far, u(x, y), v(x, y)) for (x, y), far in zip(ends, w)]
        half, other = lambda x, y: x / 2 + 0.5, lambda x, y: y / 2 + 0.5
        down = lambda x, y: 0.5 - y / 2
        self.assertEqual(
            [self.laid(over(half, way), below) for way in (other, down) for below in (True, False)],
            ["straight", "upside down", "upside down", "straight"],
        )
        wrong = [
            over(lambda x, y: x, other),
            over(half, lambda x, y: y),
            over(other, half),
            over(half, other, (1, 2, 1)),
            over(half, other, (-1, -1, -1)),
            over(half, other)[:2],
            [(0, 1, 1, 0.5, 1)] * 3,
        ]
        self.assertEqual([self.laid(vertices) for vertices in wrong], [None] * len(wrong))
        self.assertEqual([self.laid(over(half, other), **how) for how in ({"size": (4, 4)}, {"late": 1})], [None, None])
        laying = self.beside_a_stand_in("laying")
        straight = [((x, y), (x, 1 - y)) for x, y in ((0, 0), (1, 0), (0, 1))]
        turned, scaled = (
            [(place, (u, way(v))) for place, (u, v) in straight] for way in (lambda v: 1 - v, lambda v: 2 * v)
        )
        self.assertEqual(
            [laying.laid(some, True) for some in ([straight], [scaled, straight], [straight, turned], [])],
            ["straight", "straight", None, None],
        )

    def test_what_of_a_draw_tells_how_it_lays_a_target(self):
        """Told with each target that it reads; of one that is shown upside down v grows downward, too."""
        details = self.beside_a_stand_in("details")
        told, made = details.Details.__new__(details.Details), types.SimpleNamespace
        told.frame = made(is_gl=lambda: True, is_turned=lambda target: target == 5)
        told.writes, told.controller = {5: [2], 6: [3], 7: [99]}, None
        told.textures = lambda: [{"id": number} for number in (4, 5, 6, 7)]
        told.shaders, told.callstack = lambda: {}, lambda action: []
        straight = [((x, y), (x, 1 - y)) for x, y in ((0, 0), (1, 0), (0, 1))]
        with mock.patch.object(details.laying, "shares", lambda *_: [straight]):
            reads = told.of(made(eventId=9), None, (8, 4))["reads"]
        self.assertEqual(
            reads, [{"target": 5, "event": 2, "laid": "upside down"}, {"target": 6, "event": 3, "laid": "straight"}]
        )
        with mock.patch.object(details.laying, "shares", lambda *_: []):
            self.assertEqual(
                told.of(made(eventId=9), None, (8, 4))["reads"], [{"target": 5, "event": 2}, {"target": 6, "event": 3}]
            )

    def test_the_places_of_a_callstack(self):
        """As RenderDoc resolves them, and as numbers where it can't; of a call without any, none."""
        details = self.beside_a_stand_in("details")
        places, made = [0x400, 0x1F] + [7] * 40, types.SimpleNamespace
        for word, wanted in ((Word.Succeeded, ["f(0x400)", "f(0x1f)"]), (Word.Unsupported, ["0x400", "0x1f"])):
            asked, told = [], details.Details.__new__(details.Details)
            file = made(
                InitResolver=lambda *_: asked.append(1) or Result(word),
                GetResolve=lambda some: [f"f({place:#x})" for place in some],
            )
            chunks = [made(metadata=made(callstack=places)), made(metadata=made(callstack=[]))]
            told.frame, told.resolver = made(file=file, names=made(chunks=chunks)), None
            of = lambda *numbers: told.callstack(made(events=[made(chunkIndex=number) for number in numbers]))
            self.assertEqual((of(0)[:2], len(of(1, 0)), of(0, 1), of(9), of()), (wanted, 32, [], [], []))
            self.assertEqual(asked, [1])

    def test_a_line_that_is_lost_is_taken_up_while_the_process_lives(self):
        """Wine's loader becomes another program."""
        take = self.take_frame()
        frame, over = types.SimpleNamespace(
            type=1, newCapture=types.SimpleNamespace(path="a.rdc")
        ), types.SimpleNamespace(type=3)
        ended = []

        def line(*messages, process):
            rest = iter(messages)
            return types.SimpleNamespace(
                ReceiveMessage=lambda _: next(rest, types.SimpleNamespace(type=5)),
                TriggerCapture=lambda count: None,
                CycleActiveWindow=lambda: None,
                GetPID=lambda: process,
                Shutdown=lambda: ended.append(process),
            )

        kinds = types.SimpleNamespace(NewCapture=1, RegisterAPI=2, Disconnected=3, NewChild=4, Noop=5)
        for process, wanted in ((os.getpid(), "a.rdc"), (1 << 30, None)):
            lines = iter([line(over, process=process), None, line(frame, process=process)])
            renderdoc = types.SimpleNamespace(
                TargetControlMessageType=kinds, CreateTargetControl=lambda *_: next(lines)
            )
            ask = lambda: take.frame_of(
                renderdoc, [take.control_of(renderdoc, 1)], types.SimpleNamespace(seconds=0, patience=5)
            )
            with mock.patch.object(take, "is_of_nothing", lambda path: False):
                if wanted:
                    self.assertEqual((ask(), ended), (wanted, [process]))
                else:
                    self.assertRaisesRegex(Fault, "ended before its frame was taken", ask)

    def test_a_target_of_floats_is_a_loss(self):
        replay = self.beside_a_stand_in("replay")
        frame, names = replay.ReplayedFrame("frame.rdc"), replay.rd.CompType
        kind = lambda word: types.SimpleNamespace(
            compType=getattr(names, word), SRGBCorrected=lambda: word == "UNormSRGB"
        )
        frame.textures = {
            number: types.SimpleNamespace(msSamp=1, format=kind(word))
            for number, word in enumerate(("Float", "UNorm", "UNormSRGB"))
        }
        self.assertEqual([list(frame.notes(number)) for number in range(3)], [[replay.OF_FLOATS], [], [replay.IN_SRGB]])

    def test_what_was_there_before_is_in_no_history(self):
        histories = self.beside_a_stand_in("histories")
        capture = {
            "events": [
                {"source": {"event": 4, "name": "before"}},
                {"source": {"event": 5, "name": "draw()", "primitives": [[0, 3]]}},
            ]
        }
        entries = [
            types.SimpleNamespace(event=number, triangle=0, verdict="drawn", after=(number, 2, 3, 4))
            for number in (1, 2)
        ]
        self.assertEqual(
            histories.by_framedbg(types.SimpleNamespace(history=lambda x, y: entries), capture, 7, 8),
            [(5, 3, "drawn", (2, 2, 3, 4))],
        )

    def test_what_a_pass_of_vulkan_clears(self):
        """RenderDoc's name of it has `C=` only where there are depths too."""
        clears = self.beside_a_stand_in("clears")
        begins, other = (
            types.SimpleNamespace(flags=getattr(clears.rd.ActionFlags, name)) for name in ("BeginPass", "EndPass")
        )
        for words, wanted in (
            ("Clear", (True, False)),
            ("C=Clear, D=Clear", (True, True)),
            ("C=Clear, DS=Load", (True, False)),
            ("C=Load, DS=Clear", (False, True)),
            ("D=Clear", (False, True)),
            ("Load", (False, False)),
            ("Don't Care", (False, False)),
            ("C=Load, D=Load, S=Clear", (False, False)),
            ("-", (False, False)),
        ):
            for name in ("vkCmdBeginRenderPass", "vkCmdBeginRendering"):
                self.assertEqual(clears.pass_clears(begins, f"{name}({words})"), wanted, words)
        self.assertEqual(clears.pass_clears(other, "vkCmdEndRenderPass(Clear)"), (False, False))

    def test_one_frame_is_left(self):
        """Those that were there before stay, and what was written beside the one that is told goes."""
        take = self.take_frame()
        with tempfile.TemporaryDirectory() as folder:

            def frame_of(*_):
                for number in (3, 4, 5):
                    pathlib.Path(f"{folder}/a_frame{number}.rdc").touch()
                return f"{folder}/a_frame4.rdc"

            for name in ("a_frame1.rdc", "b_frame2.rdc"):
                pathlib.Path(folder, name).touch()
            control = types.SimpleNamespace(GetPID=lambda: 0, Shutdown=lambda: None)
            with mock.patch.multiple(take, launch=lambda *_: control, frame_of=frame_of, end=lambda process: None):
                self.assertEqual(
                    take.taken(None, types.SimpleNamespace(out=f"{folder}/a", program="a")), f"{folder}/a_frame4.rdc"
                )
            self.assertEqual(sorted(os.listdir(folder)), ["a_frame1.rdc", "a_frame4.rdc", "b_frame2.rdc"])

    @staticmethod
    def take_frame():
        """The tool as a module."""
        loader = importlib.machinery.SourceFileLoader("take_frame", str(TOOLS / "take_frame"))
        take = importlib.util.module_from_spec(importlib.util.spec_from_loader("take_frame", loader))
        loader.exec_module(take)
        return take

    def test_a_frame_of_a_window_that_isn_t_up_is_taken_again(self):
        take = self.take_frame()
        with tempfile.TemporaryDirectory() as folder, tempfile.TemporaryDirectory() as tools:
            (pathlib.Path(tools) / "renderdoc_to_capture").write_text("import sys\nprint(open(sys.argv[2]).read())\n")
            listed = (
                "target 9: 300 by 9, R8, samples 1, 2 draws, events 1 to 2\ntarget 7: 1 by 1, R8, samples 1, 9 "
                "draws, events 5 to 9, shown",
                "target 7: 1 by 1, R8, 9 draws, shown",
                "target 8: 1 by 1, R8, samples 1, 2 draws, events 1 to 2\ntarget 7: 21 by 1, R8, samples 1, 9 "
                "draws, events 5 to 9, shown",
            )
            taken = [types.SimpleNamespace(path=f"{folder}/frame{number}.rdc") for number in range(len(listed))]
            for one, lines in zip(taken, listed):
                pathlib.Path(one.path).write_text(lines)
            take.TOOLS = pathlib.Path(tools)
            kinds = types.SimpleNamespace(NewCapture=1, RegisterAPI=2, Disconnected=3, NewChild=4)
            messages = iter([types.SimpleNamespace(type=1, newCapture=one) for one in taken])
            control = types.SimpleNamespace(
                ReceiveMessage=lambda _: next(messages),
                TriggerCapture=lambda count: None,
                CycleActiveWindow=lambda: None,
            )
            path = take.frame_of(
                types.SimpleNamespace(TargetControlMessageType=kinds),
                [control],
                types.SimpleNamespace(seconds=0, patience=30),
            )
            self.assertEqual((path, os.listdir(folder)), (taken[2].path, ["frame2.rdc"]))

    def test_the_targets_with_their_draws(self):
        replay = self.beside_a_stand_in("replay")
        frame = replay.ReplayedFrame("frame.rdc")
        kind = types.SimpleNamespace(Name=lambda: "R8")
        frame.textures = {
            number: types.SimpleNamespace(width=30, height=20, format=kind, msSamp=1) for number in (7, 8)
        }
        counts = {7: (1, 1, 1), 8: (3, 90, 40)}
        with mock.patch.multiple(
            frame, draws_of_targets=lambda: counts, shown_target=lambda: 8, is_turned=lambda target: False
        ):
            told = list(frame.list_targets())
        self.assertEqual(
            told,
            [
                "target 7: 30 by 20, R8, samples 1, 1 draw, events 1 to 1",
                "target 8: 30 by 20, R8, samples 1, 40 draws, events 3 to 90, shown",
            ],
        )

    def test_a_shown_target_of_one_pixel(self):
        sizes, counts = {7: (1, 1), 8: (640, 480), 9: (64, 64)}, {7: (1, 2, 1), 8: (3, 90, 40), 9: (91, 99, 6)}
        frame = types.SimpleNamespace(shown_target=lambda: 7, size=sizes.get, draws_of_targets=lambda: counts)
        with self.assertRaisesRegex(
            Fault,
            "the target that is shown, 7, has one pixel: --list tells the others, and --target 8 has the most draws",
        ):
            telling.target_of(frame)
        frame.shown_target = lambda: 9
        self.assertEqual(telling.target_of(frame), 9)

    def watched(self, take, *programs, seconds=0, patience=5):
        """What comes of programs that tell their messages one by one, and then nothing; those behind the first are
        its children, by their number."""
        kinds = types.SimpleNamespace(NewCapture=1, RegisterAPI=2, Disconnected=3, NewChild=4, Noop=5)

        def control(messages):
            rest = iter(messages)
            return types.SimpleNamespace(
                ReceiveMessage=lambda _: next(rest, types.SimpleNamespace(type=5)),
                TriggerCapture=lambda count: None,
                CycleActiveWindow=lambda: None,
                GetPID=lambda: 0,
            )

        controls = [control(messages) for messages in programs]
        renderdoc = types.SimpleNamespace(
            TargetControlMessageType=kinds, CreateTargetControl=lambda host, ident, *_: controls[ident]
        )
        with mock.patch.object(take, "is_of_nothing", lambda path: False):
            return take.frame_of(renderdoc, controls[:1], types.SimpleNamespace(seconds=seconds, patience=patience))

    def test_what_renderdoc_does_not_take_is_said_at_once(self):
        take = self.take_frame()
        take.STILL = 0.2
        use = lambda presenting, supported: types.SimpleNamespace(
            type=2, apiUse=types.SimpleNamespace(name="OpenGL", presenting=presenting, supported=supported)
        )
        began = time.monotonic()
        with self.assertRaisesRegex(
            Fault, "no frame can be taken: the program presents by OpenGL, which RenderDoc does not take"
        ):
            self.watched(take, [use(True, False)], patience=60)
        self.assertLess(time.monotonic() - began, 20)
        frame = types.SimpleNamespace(type=1, newCapture=types.SimpleNamespace(path="a.rdc"))
        nothing = [types.SimpleNamespace(type=5)] * 12
        self.assertEqual(
            self.watched(take, [use(True, False), use(True, True), *nothing, frame]), "a.rdc"
        )  # by another in time
        self.assertEqual(self.watched(take, [use(False, False), *nothing, frame]), "a.rdc")  # a context that only asks

    def test_what_a_script_starts_is_followed(self):
        take = self.take_frame()
        child, over = types.SimpleNamespace(type=4, newChild=types.SimpleNamespace(ident=1)), types.SimpleNamespace(
            type=3
        )
        frame = types.SimpleNamespace(type=1, newCapture=types.SimpleNamespace(path="b.rdc"))
        self.assertEqual(self.watched(take, [child, over], [frame]), "b.rdc")
        with self.assertRaisesRegex(Fault, "ended before its frame was taken; it uses no OpenGL"):
            self.watched(take, [child, over], [over])

    def test_renderdoc_has_these_members(self):
        """Its own module, where it is here: no state of Direct3D can be made without a frame, but its types can be
        looked at."""
        wanted = {f"D3D{version}{name}": members.split() for version in (11, 12) for name, members in MEMBERS.items()}
        wanted.update(
            {
                "D3D11OutputMerger": ["blendState", "depthStencilState"],
                "D3D12OM": ["blendState", "depthStencilState"],
                "PipeState": ["GetViewport", "GetScissor"],
                "ReplayController": ["GetD3D11PipelineState", "GetD3D12PipelineState"],
            }
        )
        script = (
            f"import renderdoc as rd\nprint([(kind, name) for kind, names in {wanted}.items() for name in names "
            f"if not hasattr(getattr(rd, kind), name)])"
        )
        told = subprocess.run([module.SYSTEM_S_PYTHON, "-c", script], capture_output=True, text=True, timeout=60)
        if "No module named" in told.stderr:
            self.skipTest("RenderDoc's module isn't here")
        self.assertEqual(told.stdout, "[]\n", told.stderr)


if __name__ == "__main__":
    unittest.main()
