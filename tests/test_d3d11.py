#!/usr/bin/env python3
"""test_d3d11: tries play_d3d11.exe under Wine: examples and scenes against what is right, a planted fault, its
files, and what it refuses.

    tests/test_d3d11.py [TEST ..]

FRAMEDBG names another program. Wine draws Direct3D 11 by OpenGL here, and that by Mesa's llvmpipe.
"""
import gzip
import io
import json
import pathlib
import re
import subprocess
import sys
import tempfile
import unittest
import zipfile

import folders
from folders import BUILD, TOOLS

import captures
import direct3d_shaders
import passed_over
import reference
import windows
import wine_testing
from driver_testing import EXAMPLES, FOUND, PROGRAM, frame, square, triangle
from framedbg_client import read_pam

from driving import features

ALIKE = (
    "two_triangles",
    "crossing",
    "depth_test",
    "each_depth_function",
    "masked_and_scissored",
    "culled_then_scissored",
    "indexed",
    "depth_left_alone",
    "gallery",
)
# features whose coverage and state have to be alike; what may be off by 1 isn't told here
SCENES = (
    "snapping",
    "subpixels",
    "shared edges",
    "top-left rule",
    "small triangles",
    "huge, to 8,000",
    "flat",
    "linear",
    "scissor",
    "culling",
    "clears",
    "order",
    "odd lists",
    "operation REV_SUBTRACT",
    "source factor BLEND_FACTOR",
    "depth LESS",
    "depth GREATER_EQUAL",
    "depth, again EQUAL",
)
SUM = re.compile(
    r"sum: draws (?P<draws>\d+), of these alike (?P<alike>\d+); pixels changed by the rules (?P<changed>\d+); "
    r"only by the rules (?P<rules>\d+), only here (?P<here>\d+); "
    r"off by 1 (?P<one>\d+), by 2 (?P<two>\d+), to 8 (?P<eight>\d+), more (?P<more>\d+), most (?P<most>\d+); "
    r"depths changed (?P<deep>\d+), off (?P<off>\d+), by more than 1 (?P<far>\d+), most (?P<deepest>\d+)"
)
FAR = ("rules", "here", "two", "eight", "more", "far")  # what may not be


def setUpModule():
    global wine, player, room
    room = pathlib.Path(unittest.enterModuleContext(tempfile.TemporaryDirectory(prefix="wine-")))
    if wine_testing.missing():
        raise unittest.SkipTest(wine_testing.missing())
    player = room / "play_d3d11.exe"
    subprocess.run([BUILD / "build_d3d11", player], check=True)
    wine = unittest.enterModuleContext(wine_testing.Wine(room))


class Player(unittest.TestCase):
    def rules(self, capture, name="frame"):
        """The files of a capture and of what is right."""
        path, right = room / f"{name}.json", room / f"{name}.rules"
        path.write_text(json.dumps(capture))
        with open(right, "wb") as file:
            subprocess.run(
                [sys.executable, TOOLS / "framedbg-driver", "rules", path, "--program", PROGRAM],
                stdout=file,
                check=True,
            )
        return path.name, right.name

    def compared(self, capture, *words):
        """(status, the sum's numbers, the lines before it) of a comparison."""
        path, right = self.rules(capture)
        status, lines, errors = wine.run(player.name, "--against", right, *words, path)
        found = SUM.fullmatch(lines[-1]) if lines else None
        self.assertIsNotNone(found, (status, lines, errors))
        return status, {name: int(number) for name, number in found.groupdict().items()}, lines[:-1]


class Compared(Player):
    def test_examples(self):
        for name in ALIKE:
            with self.subTest(name):
                status, told, _ = self.compared(json.loads((EXAMPLES / f"{name}.json").read_text()))
                self.assertEqual((status, told["alike"], told["one"]), (0, told["draws"], 0))

    def test_roundings(self):
        """The house is blended: some of its pixels are off by 1."""
        status, told, lines = self.compared(json.loads((EXAMPLES / "house.json").read_text()))
        self.assertEqual(
            (status, told["draws"], told["changed"], {told[name] for name in FAR}, told["most"]), (1, 7, 16314, {0}, 1)
        )
        self.assertRegex(
            lines[-1],
            r"^event 11 draw 2 flat: 768 pixels change by the rules; only by the rules 0, only here 0; off by 1 "
            r"\d+, .*; first \d+ ",
        )

    def test_scenes(self):
        for name in SCENES:
            with self.subTest(name):
                status, told, lines = self.compared(features.scene(name, 1))
                self.assertIn(status, (0, 1), lines)
                self.assertEqual({told[key] for key in FAR}, {0}, lines)
                self.assertGreater(told["changed"], 0)

    def test_a_planted_shift(self):
        status, told, lines = self.compared(json.loads((EXAMPLES / "crossing.json").read_text()), "--shift", "1", "0")
        self.assertEqual((status, told["alike"]), (2, 0))
        self.assertGreater(told["here"] + told["rules"], 0)
        self.assertEqual(len([line for line in lines if line.startswith("event ")]), 2)
        self.assertEqual(
            self.compared(json.loads((EXAMPLES / "crossing.json").read_text()), "--shift", "1", "0", "--quiet")[2][1:],
            [],
        )

    def test_each_draw_alone(self):
        """What differs in one draw is mended before the next one, or carried on."""
        events = [
            triangle((0.5, 0), (9, 0), (0.5, 9), color=(9, 9, 9, 9)),
            captures.blend(True, ("ONE", "ONE", "ADD")),
            square(0, 0, 8, 8, color=(1, 1, 1, 1)),
        ]
        alone, running = (
            self.compared(frame(events, version=1), "--shift", "1", "0", *words)[1]["alike"]
            for words in ([], ["--running"])
        )
        self.assertEqual((alone, running), (1, 0))

    def test_alpha_and_plain_colours(self):
        """Linear colours are rounded before they are blended; without that more are off."""
        events = [
            captures.raster("none"),
            captures.blend(True, ("ONE", "ONE", "ADD"), ("ONE", "ONE", "ADD")),
            *(features.scene("linear", seed)["events"][1] for seed in (3, 4, 5, 6)),
        ]
        capture = captures.frame(64, 64, events, 1)
        rounded, plain = (self.compared(capture, *words)[1]["one"] for words in ([], ["--plain"]))
        self.assertLess(rounded, 20)
        self.assertLessEqual(rounded, plain)


class Found(Player):
    KEY = "HKCU\\Software\\Wine\\Direct3D"

    def test_a_clear_that_is_lost(self):
        """By Wine's Vulkan renderer a clear after a draw isn't there; by its OpenGL it is."""
        capture = json.loads((FOUND / "wine_vulkan_loses_a_clear.json").read_text())
        self.assertEqual(self.compared(capture)[0], 0)
        self.addCleanup(wine.run, "reg", "delete", self.KEY, "/v", "renderer", "/f")
        wine.run("reg", "add", self.KEY, "/v", "renderer", "/d", "vulkan", "/f")
        status, told, lines = self.compared(capture)
        self.assertEqual((status, told["rules"]), (2, 16), lines)
        self.assertTrue(
            any(
                line.startswith("event 3 clear: 16 pixels change by the rules; only by the rules 16, ")
                for line in lines
            ),
            lines,
        )


class Files(Player):
    def test_pictures(self):
        """PAM and PGM are those of the reference."""
        capture = json.loads((EXAMPLES / "crossing.json").read_text())
        right = reference.Frame(capture)
        path, _ = self.rules(capture)
        for words, position in (([], 3), (["--at", "2"], 2)):
            status, lines, errors = wine.run(player.name, "--out", "drawn.pam", "--depth", "drawn.pgm", *words, path)
            self.assertEqual((status, errors), (0, []), lines)
            pixels = [right.replay(position, x, y)[0] for y in range(16) for x in range(16)]
            self.assertEqual(
                read_pam((room / "drawn.pam").read_bytes()).samples, b"".join(bytes(colour) for colour, _ in pixels)
            )
            self.assertEqual(
                (room / "drawn.pgm").read_bytes(),
                b"P5\n16 16\n65535\n" + b"".join(depth.to_bytes(2, "big") for _, depth in pixels),
            )

    def test_what_is_right(self):
        """The file of framedbg-driver rules holds the reference's pixels."""
        capture = json.loads((EXAMPLES / "crossing.json").read_text())
        _, rules = self.rules(capture)
        head, _, data = gzip.decompress((room / rules).read_bytes()).partition(b"\n")
        self.assertEqual(head, b"framedbg-rules 1 16 16 4 1")
        right, picture = reference.Frame(capture), bytes(6 * 256)
        for position in range(4):
            picture = bytes(a ^ b for a, b in zip(picture, data[6 * 256 * position : 6 * 256 * (position + 1)]))
            pixels = [right.replay(position, x, y)[0] for y in range(16) for x in range(16)]
            self.assertEqual(
                picture,
                b"".join(bytes(colour) for colour, _ in pixels)
                + b"".join(depth.to_bytes(2, "little") for _, depth in pixels),
                position,
            )
        self.assertEqual(len(data), 4 * 6 * 256)

    def test_adapters(self):
        status, lines, _ = wine.run(player.name, "--list")
        self.assertEqual(status, 0)
        self.assertRegex(lines[0], r"^0 .* \(vendor [0-9a-f]{4}, device [0-9a-f]{4}, \d+ MB\)$")
        path, _ = self.rules(frame([square(0, 0, 8, 8)]))
        for driver in ("0", "warp"):
            status, lines, _ = wine.run(player.name, "--driver", driver, path)
            self.assertEqual(status, 0)
            self.assertRegex(lines[0], f"^adapter .*, {driver}, feature level 1[01]\\.\\d$")


class Refused(Player):
    def refused(self, *words):
        status, _, errors = wine.run(player.name, *words)
        self.assertEqual(status, 3, (words, errors))
        return errors[-1]

    def test_rules(self):
        path, right = self.rules(frame([square(0, 0, 8, 8)]))
        data = gzip.decompress((room / right).read_bytes())
        for name, bytes_, why in (
            ("cut", data[:-9], "is cut, or broken"),
            ("more", data + b"1", "has more than its line says, or is broken"),
            ("none", b"P7\n", "isn't from framedbg-driver rules"),
            ("other", data.replace(b" 8 8 2", b" 9 8 2", 1), "is of another capture: 9 by 8 pixels and 2 positions"),
        ):
            (room / f"{name}.rules").write_bytes(gzip.compress(bytes_))
            self.assertEqual(self.refused("--against", f"{name}.rules", path), f"play_d3d11: {name}.rules {why}")

    def test_captures(self):
        for text, why in (
            ("[", "is no JSON"),
            ('{"format":"framedbg","version":1,"width":1,"height":1,"events":[{"kind":"warp"}]}', "unknown word: warp"),
            ('{"format":"other"}', "is no capture"),
            ('{"format":"framedbg","version":1,"width":0,"height":1,"events":[]}', "out of bounds"),
            ('{"format":"framedbg","version":1,"width":1,"height":1,"events":[{"kind":"clear"}]}', "no color"),
            (
                json.dumps(frame([captures.draw([captures.vertex(0, 0, (1, 2, 3, 4), 0)], indices=[1])])),
                "out of bounds",
            ),
            (json.dumps(frame([])) + "x", "something follows"),
            (json.dumps(frame([captures.clear(1, 2, 3, 4)])).replace("1, 2", "1.5, 2"), "isn't whole"),
        ):
            (room / "bad.json").write_text(text)
            self.assertIn(why, self.refused("bad.json"))
        self.assertEqual(self.refused("absent.json"), "play_d3d11: absent.json can't be read")

    def test_words(self):
        path, _ = self.rules(frame([square(0, 0, 8, 8)]))
        for words, why in (
            ([], "a capture is wanted"),
            (["--fly", path], "--fly is no word of it"),
            (["--at", "2", path], "there is no position 2"),
            (["--at", "x", path], "x is no number"),
            (["--driver", "best", path], "and not best"),
            (["--driver", "77", path], "there is no adapter 77"),
            (["--viewport", "wide", path], "and not wide"),
        ):
            self.assertIn(why, self.refused(*words))
        status, lines, _ = wine.run(player.name, "--help")
        self.assertEqual((status, lines[0][:12]), (0, "play_d3d11: "))


class Packed(unittest.TestCase):
    def test_the_zip(self):
        """What a release has for Windows: unpacked, one command holds each capture against what is right."""
        name, data = windows.made("1.2", player)
        with zipfile.ZipFile(io.BytesIO(data)) as archive:
            archive.extractall(room)
        folder = room / name.removesuffix(".zip")
        captures_ = sorted(path.stem for path in (folder / "captures").glob("*.json"))
        status, lines, _ = wine.run("cmd", "/c", f"cd {folder.name} && try.cmd")
        self.assertEqual(([line for line in lines if line in captures_], status in (0, 1)), (captures_, True), lines)
        found = [SUM.search(line) for line in lines if line.startswith("sum:")]
        self.assertEqual([all(int(one[name]) == 0 for name in FAR) for one in found], [True] * len(captures_), lines)


class Built(unittest.TestCase):
    def test_shaders(self):
        """The checksum is Microsoft's: of the shader of corners one of another maker's compiler is known."""
        known = bytes.fromhex("424dc48cda2588489244d749914b2054")
        self.assertEqual(direct3d_shaders.SHADERS["shader_vertex"][4:20], known)
        for data in direct3d_shaders.SHADERS.values():
            self.assertEqual(
                (data[:4], int.from_bytes(data[24:28], "little"), direct3d_shaders.checksum(data[20:])),
                (b"DXBC", len(data), data[4:20]),
            )

    def test_what_it_wants(self):
        """Nothing but Windows and Direct3D."""
        told = subprocess.run(
            ["x86_64-w64-mingw32-objdump", "-p", player], capture_output=True, text=True, check=True
        ).stdout
        self.assertEqual(
            {name.lower() for name in re.findall(r"DLL Name: (\S+)", told)},
            {"d3d11.dll", "dxgi.dll", "kernel32.dll", "msvcrt.dll"},
        )

    def test_the_same_each_time(self):
        again = room / "again.exe"
        subprocess.run([BUILD / "build_d3d11", again], check=True)
        self.assertEqual(again.read_bytes(), player.read_bytes())


if __name__ == "__main__":
    passed_over.run_tests("test_d3d11")
