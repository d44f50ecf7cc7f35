#!/usr/bin/env python3
"""test_mesh_to_capture: models in each format, whole, cut at every place and with wrong bytes; and each bug that may
be planted."""
import json
import os
import pathlib
import random
import resource
import struct
import subprocess
import sys
import tempfile
import unittest
from unittest import mock

from folders import TOOLS

from explaining.verdict import explained
from framedbg_client import read_pam
from framedbg_client.program import tried_program
from meshes import gltf, model, obj, ply, text
from meshes.frame import BUGS, Look, capture
from meshes.model import Fault

PROGRAM = tried_program()

# A cube, and a smaller one on top of it that is of glass
CORNERS = [(x, y, z) for z in (-1.0, 1.0) for y in (-1.0, 1.0) for x in (-1.0, 1.0)]
SIDES = [(0, 2, 3, 1), (4, 5, 7, 6), (0, 4, 6, 2), (1, 3, 7, 5), (2, 6, 7, 3), (0, 1, 5, 4)]
TOP = [(0.5 * x, 0.5 * y + 1.5, 0.5 * z) for x, y, z in CORNERS]


def as_obj(folder):
    (folder / "cube.mtl").write_text("newmtl stone\nKd 0.5 0.25 1\nnewmtl glass\nKd 0 1 0\nd 0.5\n")
    lines = [
        "mtllib cube.mtl",
        *(f"v {x} {y} {z}" for x, y, z in CORNERS + TOP),
        "usemtl stone",
        *("f " + " ".join(f"{c + 1}//1" for c in side) for side in SIDES),
        "usemtl glass",
        *("f " + " ".join(str(c - 8) for c in side) for side in SIDES),
    ]
    path = folder / "cube.obj"
    path.write_text("\n".join(lines) + "\n")
    return path


def as_ply(folder, form):
    path = folder / f"{form}.ply"
    head = (
        f"ply\nformat {form} 1.0\nelement vertex 8\nproperty float x\nproperty float y\nproperty float "
        f"z\nproperty uchar red\nproperty uchar green\nproperty uchar blue\n"
    )
    head += "element face 6\nproperty list uchar int vertex_indices\nend_header\n"
    if form == "ascii":
        body = "".join(f"{x} {y} {z} 128 64 255\n" for x, y, z in CORNERS) + "".join(
            "4 " + " ".join(map(str, side)) + "\n" for side in SIDES
        )
        path.write_text(head + body)
    else:
        order = "<" if "little" in form else ">"
        body = b"".join(struct.pack(order + "fffBBB", *corner, 128, 64, 255) for corner in CORNERS) + b"".join(
            struct.pack(order + "Biiii", 4, *side) for side in SIDES
        )
        path.write_bytes(head.encode() + body)
    return path


def as_glb(folder, name="cube.glb", **changed):
    """The same two cubes, the upper one placed by a node in a node, one of the two a mirror."""
    points = b"".join(struct.pack("<fff", *corner) for corner in CORNERS)
    indices = b"".join(struct.pack("<H", c) for a, b, c, d in SIDES for c in (a, b, c, a, c, d))
    tree = {
        "asset": {"version": "2.0"},
        "scene": 0,
        "scenes": [{"nodes": [0, 1]}],
        "nodes": [
            {"mesh": 0},
            {"translation": [0, 1.5, 0], "rotation": [0, 0, 1, 0], "children": [2]},
            {"mesh": 1, "scale": [-0.5, 0.5, 0.5]},
        ],
        "meshes": [{"primitives": [{"attributes": {"POSITION": 0}, "indices": 1, "material": m}]} for m in (0, 1)],
        "materials": [
            {"name": "stone", "pbrMetallicRoughness": {"baseColorFactor": [0.2140, 0.0509, 1, 1]}},
            {"name": "glass", "alphaMode": "BLEND", "pbrMetallicRoughness": {"baseColorFactor": [0, 1, 0, 0.5]}},
        ],
        "accessors": [
            {"bufferView": 0, "componentType": 5126, "type": "VEC3", "count": 8},
            {"bufferView": 1, "componentType": 5123, "type": "SCALAR", "count": 36},
        ],
        "bufferViews": [{"buffer": 0, "byteLength": 96}, {"buffer": 0, "byteOffset": 96, "byteLength": 72}],
        "buffers": [{"byteLength": 168}],
        **changed,
    }
    text = json.dumps(tree).encode()
    text += b" " * (-len(text) % 4)
    body = struct.pack("<II", len(text), 0x4E4F534A) + text + struct.pack("<II", 168, 0x004E4942) + points + indices
    path = folder / name
    path.write_bytes(struct.pack("<III", 0x46546C67, 2, 12 + len(body)) + body)
    return path


READERS = {".obj": obj.read, ".ply": ply.read, ".glb": gltf.read}
read = lambda path: READERS[path.suffix](path)


PLY_OF_A_POINT = "ply\nformat {} 1.0\nelement vertex 1\n{}end_header\n{}"
THREE_NUMBERS = "property float x\nproperty float y\nproperty float z\n"
WRONG_PROPERTIES = (  # the file's name, its properties, what stands behind its head, and what is said of it
    (
        "x",
        "property list uchar float x\nproperty float y\nproperty float z\n",
        "1 0 0 0\n",
        "the property x of a vertex is a list",
    ),
    (
        "red",
        THREE_NUMBERS + "property list uchar uchar red\n",
        "0 0 0 1 1\n",
        "the property red of a vertex is a list",
    ),
    (
        "face",
        THREE_NUMBERS + "element face 1\nproperty int vertex_indices\n",
        "0 0 0 0\n",
        "the property vertex_indices of a face is one number",
    ),
)


class Meshes(unittest.TestCase):
    def setUp(self):
        self.folder = tempfile.TemporaryDirectory()
        folder = pathlib.Path(self.folder.name)
        self.files = [as_obj(folder), *(as_ply(folder, form) for form in ply.FORMATS), as_glb(folder)]

    def tearDown(self):
        self.folder.cleanup()

    def near(self, one, other):
        self.assertEqual(len(one), len(other))
        for a, b in zip(one, other):
            for p, q in zip(a, b):
                self.assertAlmostEqual(p, q, places=3)

    def test_each_format_has_the_cube(self):
        for path in self.files:
            model = read(path)
            self.near(model.points[:8], CORNERS)
            self.near(
                [model.faces[0][2]], [(0.5, 0.25, 1, 1)] if path.suffix != ".ply" else [(128 / 255, 64 / 255, 1, 1)]
            )
            self.assertEqual(
                [face[0] for face in model.faces[:12]],
                [corners for a, b, c, d in SIDES for corners in ((a, b, c), (a, c, d))],
            )

    def test_the_upper_cube_is_placed_and_glass(self):
        for path in (self.files[0], self.files[-1]):
            model = read(path)
            self.near(sorted(model.points[8:]), sorted(TOP))
            self.assertEqual(
                {(name, tuple(round(c, 6) for c in colour)) for _, name, colour in model.faces[12:]},
                {("glass", (0, 1, 0, 0.5))},
            )
            for (a, b, c), *_ in model.faces:  # outwards all, the mirrored ones too
                pa, pb, pc = (model.points[k] for k in (a, b, c))
                middle = (0, 1.5, 0) if a >= 8 else (0, 0, 0)
                u, v = [q - p for p, q in zip(pa, pb)], [q - p for p, q in zip(pa, pc)]
                n = (u[1] * v[2] - u[2] * v[1], u[2] * v[0] - u[0] * v[2], u[0] * v[1] - u[1] * v[0])
                self.assertGreater(sum(k * (p - m) for k, p, m in zip(n, pa, middle)), 0)

    def test_cut_short(self):
        for path in self.files:
            data = path.read_bytes()
            cut = path.with_stem("cut")
            for length in range(0, len(data), max(1, len(data) // 200)):
                cut.write_bytes(data[:length])
                try:
                    read(cut)
                except Fault as fault:
                    self.assertNotIn("\n", str(fault))
                else:
                    last = data[length:].strip()  # what a text may lack: its end, or the end of its last line
                    self.assertTrue(
                        path.suffix == ".obj" or (path.suffix == ".ply" and b"\n" not in last), (path, length)
                    )

    def test_wrong_bytes(self):
        dice = random.Random(19)
        for path in self.files:
            data = path.read_bytes()
            wrong = path.with_stem("wrong")
            for _ in range(100):
                changed = bytearray(data)
                for _ in range(dice.randint(1, 4)):
                    changed[dice.randrange(len(changed))] = dice.choice([0, 255, 45, 57, 10, 32, dice.randrange(256)])
                wrong.write_bytes(changed)
                try:
                    read(wrong)
                except Fault as fault:
                    self.assertNotIn("\n", str(fault))

    def test_clear_errors(self):
        folder = pathlib.Path(self.folder.name)
        cases = {
            "a.obj": ("v 0 0\n", "line 1: three numbers are wanted, not 2"),
            "b.obj": ("v 0 0 0\nf 1 2 3\n", "line 2: a face names point 2 of 1"),
            "c.obj": ("v 0 0 x\n", "line 1: 'x' is no number"),
            "d.obj": ("v 0 0 0\n", "it has no faces"),
            "d1.obj": ("v 0 0 0\nf 1\n", "line 2: a face has 1 corner\n"),
            "d2.obj": ("v 0 0 0\nf 1 1\n", "line 2: a face has 2 corners\n"),
            "e.ply": ("solid\n", "a PLY begins with ply and has an end_header"),
            "f.ply": (
                "ply\nformat ascii 1.0\nelement vertex 2\nproperty float x\nproperty float y\nproperty float "
                "z\nend_header\n1 2 3 4\n",
                "vertex 1 of 2: the file ends too early",
            ),
            "g.glb": ("no glTF at all, but long", "a .glb begins with glTF"),
            "h.stl": ("", "none of .obj, .ply, .glb"),
        }
        for name, (written, why) in cases.items():
            (folder / name).write_text(written)
            run = subprocess.run(
                [sys.executable, TOOLS / "mesh_to_capture", folder / name], capture_output=True, text=True
            )
            self.assertEqual((run.returncode, run.stdout), (1, ""), name)
            self.assertIn(why, run.stderr)
        for changed, why in (
            ({"extensionsRequired": ["KHR_draco_mesh_compression"]}, "needs the extension KHR_draco"),
            ({"nodes": [{"children": [0]}, {}, {}]}, "the nodes go round"),
            ({"meshes": []}, "number 0 of 0 is named"),
            ({"bufferViews": [{"buffer": 0, "byteLength": 90}] * 2}, "reads behind the end"),
            ({"accessors": [{"type": "VEC2"}] * 2}, "a plain VEC3 is wanted"),
        ):
            with self.assertRaisesRegex(Fault, why):
                read(as_glb(folder, "changed.glb", **changed))

    def converted(self, path, *words):
        """A run of the tool, with 2 GiB of memory and a minute of a processor, which others may want too."""

        def limit():
            resource.setrlimit(resource.RLIMIT_AS, (2 << 30, 2 << 30))
            resource.setrlimit(resource.RLIMIT_CPU, (60, 60))

        return subprocess.run(
            [sys.executable, TOOLS / "mesh_to_capture", *words, path],
            capture_output=True,
            timeout=600,
            preexec_fn=limit,
        )

    def refused(self, path, why):
        run = self.converted(path)
        self.assertEqual((run.returncode, run.stdout), (1, b""), run.stderr[-300:])
        self.assertRegex(run.stderr.decode(), rf"^mesh_to_capture: \S*: .*{why}.*\n$")
        self.assertTrue(run.stderr[:-1].decode().isprintable(), run.stderr)

    def test_what_is_declared_without_end(self):
        folder = pathlib.Path(self.folder.name)
        plain, many = "property float x\nproperty float y\nproperty float z\n", 10**18
        for name, (head, why) in {
            "rows": (f"element edge {many}\n", "has 1000000000000000000 rows of 0 properties"),
            "long": (f"element edge {many}\nproperty char a\n", "edge: 1000000000000000000 rows are declared"),
            "below": ("element edge -1\nproperty char a\n", "has -1 rows"),
            "list": (
                f"element vertex 1\n{plain}element face 1\nproperty list double int vertex_indices\n",
                "a list of 1000000000000000000 is declared",
            ),
        }.items():
            path = folder / f"{name}.ply"
            path.write_text(f"ply\nformat ascii 1.0\n{head}end_header\n0 0 0 {many}\n")
            self.refused(path, why)
        endless = folder / "endless.ply"
        endless.symlink_to("/dev/zero")
        self.refused(endless, "it has more than 268435456 bytes")

    def test_nodes_and_copies(self):
        folder = pathlib.Path(self.folder.name)
        scene = lambda nodes: [{"nodes": list(range(len(nodes)))}]
        of_itself = [{"mesh": 0, "children": [0]}]
        self.refused(
            as_glb(folder, "ring.glb", nodes=of_itself, scenes=scene(of_itself)), "the nodes go round in a ring"
        )
        twice = [{"children": [1, 1]}, {"mesh": 0}]
        self.refused(as_glb(folder, "twice.glb", nodes=twice, scenes=[{"nodes": [0]}]), "node 1 hangs below two")
        copies = [{"mesh": 0}] * 90_000
        self.refused(as_glb(folder, "copies.glb", nodes=copies, scenes=scene(copies)), "more than 700000 triangles")
        empty = [{"primitives": [{"attributes": {"POSITION": 2}}] * 3000}]
        none = [{"bufferView": 0, "componentType": 5126, "type": "VEC3", "count": 0}]
        self.refused(
            as_glb(folder, "empty.glb", nodes=copies, scenes=scene(copies), meshes=empty, accessors=[*none * 3]),
            "more than 200000 primitives",
        )

    def test_names_that_are_none(self):
        folder = pathlib.Path(self.folder.name)
        mesh = {"primitives": [{"attributes": {"POSITION": 0}, "indices": 1, "material": 0}]}
        for name, shown in (
            (None, "mesh 0"),
            (7, "mesh 0"),
            (["a"], "mesh 0"),
            ({}, "mesh 0"),
            ("\ud800", "?"),
            ("a\x1b[31m\n", "a[31m"),
            ("\u00e9" * 99, "\u00e9" * 32),
        ):
            path = as_glb(folder, "named.glb", materials=[{"name": name}], meshes=[{**mesh, "name": name}] * 2)
            run = self.converted(path)
            self.assertEqual((run.returncode, run.stderr), (0, b""), name)
            markers = [event["name"] for event in json.loads(run.stdout)["events"] if event["kind"] == "marker"]
            self.assertIn(shown, markers)
            self.assertTrue(explained(run.stdout)[0], name)
        odd = folder / os.fsdecode(b"odd\xff.ply")
        odd.write_bytes(self.files[1].read_bytes())
        run = self.converted(odd)
        self.assertEqual((run.returncode, explained(run.stdout)[0]), (0, True), run.stderr)

    def test_numbers_that_are_none(self):
        folder = pathlib.Path(self.folder.name)
        far = lambda value: [{"mesh": 0, "scale": [value] * 3, "children": [1]}, {"mesh": 1, "scale": [value] * 3}]
        cases = {
            "matrix": ({"nodes": [{"mesh": 0, "matrix": [1e999] * 16}]}, "inf is no finite number"),
            "product": ({"nodes": far(1e200)}, "endlessly far away"),
            "far": ({"nodes": far(1e100)}, ""),
            "apart": (
                {"nodes": [{"mesh": 0, "matrix": [1.7e308 * (at % 5 == 0) for at in range(16)]}]},
                "too far from each other",
            ),
            "list": ({"nodes": [{"mesh": 0, "scale": [[1], 1, 1]}]}, "is no number"),
            "mesh": ({"nodes": [{"mesh": [0]}]}, "is no count and no place"),
            "steering": ({"extensionsRequired": ["\x1b[31m" + "x" * 9999]}, "needs the extension"),
            "huge": ({"nodes": [{"mesh": 0, "translation": [10**400, 0, 0]}]}, "is no number"),
        }
        for name, (changed, why) in cases.items():
            path = as_glb(folder, f"{name}.glb", **{"scenes": [{"nodes": [0]}], **changed})
            if why:
                self.refused(path, why)
            else:
                self.assertTrue(explained(self.converted(path).stdout)[0], name)
        for name, properties, rest, why in WRONG_PROPERTIES:
            path = folder / f"{name}.ply"
            path.write_text(PLY_OF_A_POINT.format("ascii", properties, rest))
            self.refused(path, why)
        counted = THREE_NUMBERS + "element face 1\nproperty list float int vertex_indices\n"
        for value in (float("inf"), float("nan"), -1.0, 0.5):
            path = folder / "counted.ply"
            head = PLY_OF_A_POINT.format("binary_little_endian", counted, "")
            path.write_bytes(head.encode() + struct.pack("<ffff", 0, 0, 0, value))
            self.refused(path, "is no count and no point's number")

    def test_more_than_a_capture_holds(self):
        """A text that is longer than framedbg reads, or has more events, isn't written."""
        made = capture(read(self.files[0]), Look((64, 48), (30, 20)))
        whole = text.text_of(made, 24)
        size, count = len(whole.encode()), len(made["events"])
        self.assertTrue(explained(whole.encode())[0])
        self.assertEqual((text.MOST_BYTES, text.MOST_EVENTS), (67_108_864, 1_000_000))
        for most_bytes, most_events in ((size - 1, count), (size + text.MOST_HEAD, count - 1)):
            with mock.patch.object(text, "MOST_BYTES", most_bytes), mock.patch.object(text, "MOST_EVENTS", most_events):
                self.assertRaisesRegex(Fault, "its 24 triangles take more", text.text_of, made, 24)
        with mock.patch.object(text, "MOST_BYTES", size + text.MOST_HEAD), mock.patch.object(
            text, "MOST_EVENTS", count
        ):
            self.assertEqual(text.text_of(made, 24), whole)
        for most in ("MOST_FACES", "MOST_POINTS"):
            for path in self.files:
                with mock.patch.object(model, most, 11 if most == "MOST_FACES" else 7):
                    self.assertRaisesRegex(Fault, "which no capture has room for", read, path)

    @unittest.skipUnless(pathlib.Path(PROGRAM).exists(), "the program isn't built")
    def test_the_cube_is_seen(self):
        """By its colours: the stone is bluer than the backdrop, and of the upper cube green is added to what is
        behind."""
        folder = pathlib.Path(self.folder.name)
        for path in self.files:
            for words in ([], ["--depth"], ["--smooth", "--by", "depth"]):
                made = subprocess.run(
                    [sys.executable, TOOLS / "mesh_to_capture", "--size", "64x48", *words, path],
                    capture_output=True,
                    check=True,
                ).stdout
                (folder / "made.json").write_bytes(made)
                samples = read_pam(
                    subprocess.run([PROGRAM, "image", folder / "made.json"], capture_output=True, check=True).stdout
                ).samples
                pixels = [samples[i : i + 3] for i in range(0, len(samples), 4)]
                blue, green = (sum(2 * pixel[k] > 3 * pixel[1 if k == 2 else 0] for pixel in pixels) for k in (2, 1))
                self.assertEqual(
                    (blue > 300, green > 40), (True, path.suffix != ".ply"), (path.name, words, blue, green)
                )

    def test_each_bug_makes_a_capture_that_is_accepted(self):
        model = read(self.files[0])
        for deep in (False, True):
            made = set()
            bugs = ["", *(bug for bug in BUGS if deep or bug != "depth")]
            for bug in bugs:
                for smooth in (False, True):
                    look = Look((64, 48), (30, 20), "part", smooth, deep, bug, 1)
                    text = json.dumps(capture(model, look)).encode()
                    accepted, verdict, why = explained(text)
                    self.assertTrue(accepted, (bug, verdict, why))
                    made.add(text)
            self.assertEqual(len(made), 2 * len(bugs))  # no two alike
        self.assertEqual(capture(model, Look((64, 48), (30, 20)))["version"], 1)
        for part in (0, 3):
            self.assertRaisesRegex(
                Fault, "it has 2 parts", capture, model, Look((64, 48), (30, 20), bug="mask", part=part)
            )


if __name__ == "__main__":
    unittest.main()
