"""framedbg-driver with Mesa's software renderers: pictures, tables, planted faults, what is reduced, and how it
ends. What is right is the reference's."""
import json
import signal
import subprocess
import sys
import unittest
import xml.etree.ElementTree

import folders
from folders import TOOLS

import captures
import reference
from full_disk import LACKING, full_device
from driver_testing import (
    EXAMPLES,
    FOUND,
    PROGRAM,
    Driven,
    environment,
    frame,
    launched,
    square,
    sums,
    triangle,
    value_of,
    vertex,
)

from driving import features, plants

RED, GREEN, GLASS, GREY = (255, 0, 0, 255), (0, 255, 0, 255), (10, 60, 200, 128), (90, 120, 150, 200)
OVER = ("SRC_ALPHA", "INV_SRC_ALPHA", "ADD")
# captures whose colours and depths a driver may not round
EXACT = (
    "two_triangles",
    "masked_and_scissored",
    "culled_then_scissored",
    "indexed",
    "depth_test",
    "each_depth_function",
    "depth_left_alone",
    "across_two_tiles",
    "no_events",
)
# the features that a plant must be marked in, and some in which it mustn't
MARKED = {
    "destination factor": (["destination factor INV_SRC_ALPHA"], ["flat"]),
    "alpha blended like colour": (["alpha over"], ["flat"]),
    "blending ignored": (["operation MAX"], ["scissor"]),
    "mask ignored": (["mask"], ["flat"]),
    "scissor ignored": (["scissor"], ["culling"]),
    "scissor one wider": (["scissor"], ["culling"]),
    "cull exchanged": (["culling"], ["flat"]),
    "front face ignored": (["culling"], ["flat"]),
    "flat by last corner": (["flat"], ["scissor"]),
    "linear drawn flat": (["linear, slivers"], ["flat"]),
    "depth function": (["depth EQUAL"], ["flat"]),
    "depth test ignored": (["depth EQUAL"], ["flat"]),
    "four subpixel bits": (["subpixels"], []),
    "depth writes always": (["depth LESS"], ["depth GREATER"]),
    "factor ignored": (["source factor BLEND_FACTOR"], ["flat"]),
}
SOME = (
    "subpixels",
    "odd lists",
    "operation ",
    "mask",
    "clears",
    "depth LESS",
    "depth values",
)  # what a wrong version soon shows in


class Pictures(Driven):
    def test_each_position(self):
        """Colours and depths of states and coverage are the reference's, to the last bit, by OpenGL, OpenGL ES and
        Vulkan."""
        for name in EXACT:
            path = EXAMPLES / f"{name}.json"
            capture = json.loads(path.read_text())
            kinds = ["fresh", *(event["kind"] for event in capture["events"])]
            wanted = [f"{number} {kind} {both}" for number, (kind, both) in enumerate(zip(kinds, sums(capture)))]
            for api in ("gl", "es", "vulkan"):
                with self.subTest(name, api=api):
                    ran = launched("draw", path, "--each", "--api", api)
                    self.assertEqual((ran.returncode, ran.stdout.splitlines()), (0, wanted), ran.stderr)

    def test_an_image(self):
        capture = json.loads((EXAMPLES / "two_triangles.json").read_text())
        drawn = reference.Frame(capture)
        for words, position in (([], 1), (["--at", "0"], 0)):
            drawn.position = position
            words = [sys.executable, TOOLS / "framedbg-driver", "draw", EXAMPLES / "two_triangles.json", *words]
            ran = subprocess.run(words, env=environment("llvmpipe"), capture_output=True, check=True)
            self.assertEqual(ran.stdout, drawn.pam())

    def test_ways(self):
        """However it is asked for, flat triangles have their first corner's colour, and colours and depths are what
        they are."""
        capture = frame(
            [
                captures.raster("none"),
                captures.depth(),
                captures.draw([vertex(0, 0, RED, 5), vertex(8, 0, GREEN, 9), vertex(0, 8, GLASS, 700)]),
            ]
        )
        for words in (
            ["--convention", "turned"],
            ["--linear", "noperspective"],
            ["--viewport", "target"],
            ["--viewport", "64"],
            ["--raw"],
            ["--device", "0"],
        ):
            self.assertEqual(self.compared(capture, *words)["sums"], {}, words)

    def test_pictures_after_each_event(self):
        """Named by their events, so that framedbg-blame judges each of them alone."""
        path, folder = EXAMPLES / "masked_and_scissored.json", self.folder / "drawn/here"
        ran = launched("draw", path, "--pictures", folder)
        self.assertEqual((ran.returncode, ran.stdout, ran.stderr), (0, "", ""))
        drawn = reference.Frame(json.loads(path.read_text()))
        for number in range(1, len(drawn.events) + 1):
            drawn.position = number
            self.assertEqual((folder / f"{number}.pam").read_bytes(), drawn.pam(), number)
        self.assertEqual(len(list(folder.iterdir())), len(drawn.events))
        launched("draw", path, "--pictures", folder, "--plant", "mask ignored")
        told = subprocess.run(
            [sys.executable, TOOLS / "framedbg-blame", path, folder, "--driver", "--program", PROGRAM],
            capture_output=True,
            text=True,
            check=False,
        )
        self.assertEqual((told.returncode, told.stderr), (1, ""))
        self.assertIn("the driver drew as with event 3, mask 15 in place of 5", told.stdout)

    def test_what_a_clear_leaves(self):
        """The mask is what it was, and a corner that is left over draws nothing, turned or not."""
        events = [captures.blend(False, mask=5), captures.clear(9, 9, 9, 9), square(0, 0, 8, 8, color=GREEN)]
        self.assertEqual(self.compared(frame(events))["sums"], {})
        left = captures.draw([vertex(0, 0, RED), vertex(8, 0, GREEN), vertex(0, 8, GLASS), vertex(8, 8, GREY)])
        for words in ([], ["--convention", "turned"]):
            self.assertEqual(self.compared(frame([captures.raster("none"), left]), *words)["sums"], {}, words)

    def test_positions_that_are_not_snapped(self):
        """The driver gets them so by --raw alone: softpipe snaps them to other places than the rules."""
        scene = self.written(launched("try", "--scene", "snapping 1").stdout)
        snapped, raw = (
            launched("draw", scene, "--each", *words, driver="softpipe").stdout for words in ([], ["--raw"])
        )
        self.assertNotEqual(snapped, raw)
        rows = self.tried("--scenes", "1", "--only", "snapping")
        self.assertEqual(rows["snapping"]["verdict"], "exact")

    def test_devices(self):
        ran = launched("--list")
        self.assertEqual((ran.returncode, ran.stderr), (0, ""))
        self.assertRegex(ran.stdout, r"^0 llvmpipe .*Mesa \d.*, 8 subpixel bits\n$")
        self.assertRegex(launched("try", "--list", "--api", "es").stdout, r"^0 llvmpipe .*OpenGL ES 3.*\n$")
        self.assertRegex(launched("draw", "--list", "--api", "vulkan").stdout, r"^0 zink \(llvmpipe .*\n$")


class Tables(Driven):
    """The table of features, on drivers whose faults are known."""

    def test_llvmpipe(self):
        """Coverage and state are exact, all else is within 1."""
        rows = self.tried("--scenes", "1")
        self.assertEqual(set(rows), set(features.FEATURES))
        self.exact_but_rounded(rows)
        for name in ("every sum", "every difference", "source factor ZERO", "destination factor ONE", "operation MIN"):
            self.assertEqual(rows[name]["verdict"], "exact", name)
        self.assertEqual(rows["every product"]["differ"], {"by 1": 48})

    def test_some_features(self):
        self.exact_but_rounded(self.tried("--scenes", "1", *(word for name in SOME for word in ("--only", name))))

    def exact_but_rounded(self, rows):
        rounded = (
            "linear",
            "alpha over",
            "any blending",
            "every ",
            "depth values",
            "depth, ",
            "source factor",
            "destination factor",
        )
        for name, row in rows.items():
            allowed = {"exact", "within 1"} if name.startswith(rounded) else {"exact"}
            self.assertIn(row["verdict"], allowed, (name, row))
            self.assertEqual(set(row["differ"]) - {"by 1", "adds up", "depth by 1", "depth tie"}, set(), name)
            self.assertGreater(row["pixels"], 0, name)

    def test_softpipe(self):
        """Its three faults by name: ties in x, depths that drift, and a second pass by EQUAL; every pair of bytes is
        exact."""
        only = (
            "subpixels",
            "shared edges",
            "top-left rule",
            "depth values",
            "depth, again",
            "depth LESS",
            "every ",
            "mask",
            "scissor",
            "culling",
        )
        rows = self.tried("--scenes", "2", *(word for name in only for word in ("--only", name)), driver="softpipe")
        ties = rows["top-left rule"]
        self.assertEqual((set(ties["differ"]), ties["verdict"], ties["breaks"]), ({"coverage"}, "differs", "Direct3D"))
        self.assertGreater(ties["differ"]["coverage"], ties["pixels"] / 20)
        self.assertEqual((rows["depth values"]["verdict"], rows["depth values"]["breaks"]), ("differs", "both"))
        self.assertGreater(rows["depth values"]["differ"]["depth by more"], 100)
        self.assertGreater(rows["depth, again EQUAL"]["differ"]["depth test"], 100)
        for name in rows:
            if name.startswith(("every ", "mask", "scissor", "culling", "depth LESS")):
                self.assertEqual((rows[name]["verdict"], rows[name]["breaks"]), ("exact", None), name)

    def test_vulkan_and_es(self):
        only = (
            "subpixels",
            "top-left rule",
            "flat",
            "scissor",
            "culling",
            "clears",
            "depth LESS",
            "depth, again",
            "mask",
            "operation MAX",
        )
        for api in ("vulkan", "es"):
            rows = self.tried("--scenes", "1", "--api", api, *(word for name in only for word in ("--only", name)))
            self.assertEqual(
                {name: row["verdict"] for name, row in rows.items() if name != "depth, again EQUAL"},
                {name: "exact" for name in rows if name != "depth, again EQUAL"},
                api,
            )
            self.assertNotEqual(rows["depth, again EQUAL"]["verdict"], "differs", api)

    def test_the_text(self):
        ran = launched(
            "try",
            "--scenes",
            "1",
            "--only",
            "top-left",
            "--only",
            "flat",
            "--program",
            PROGRAM,
            "--bits",
            "8",
            driver="softpipe",
        )
        head, columns, ties, flat, last = ran.stdout.splitlines()
        self.assertEqual((ran.returncode, ran.stderr), (1, ""))
        self.assertRegex(head, "^softpipe, .*, 4 subpixel bits; corners on 8 bits, 1 scene of each feature$")
        self.assertEqual(columns.split()[:3], ["feature", "pixels", "coverage"])
        self.assertRegex(ties, r"^top-left rule +[\d,]+ +\d+ +\. .* differs   Direct3D$")
        self.assertRegex(flat, r"^flat +[\d,]+( +\.){9}  exact$")
        self.assertRegex(last, r"^2 features: 1 exact, 0 within 1, 1 differ; \d+ s$")

    def test_statuses_and_tolerance(self):
        """Roundings differ, unless they are allowed."""
        for words, status in (
            (["--only", "flat"], 0),
            (["--only", "linear, half"], 1),
            (["--only", "linear, half", "--tolerance", "1"], 0),
        ):
            self.assertEqual(
                launched("try", "--scenes", "1", "--bits", "8", "--program", PROGRAM, *words).returncode, status, words
            )

    def test_bits(self):
        """Eight, whatever the driver says of itself; four where only that is covered exactly."""
        for words, driver, bits in (
            ([], "softpipe", 8),
            (["--plant", "four subpixel bits"], "llvmpipe", 4),
            (["--bits", "5"], "llvmpipe", 5),
        ):
            value = value_of(
                launched(
                    "try", "--json", "--scenes", "1", "--only", "subpixels", "--program", PROGRAM, *words, driver=driver
                )
            )
            self.assertEqual((value["bits"], value["features"]["subpixels"]["verdict"]), (bits, "exact"))

    def test_junit(self):
        report = self.folder / "report.xml"
        launched(
            "try",
            "--scenes",
            "1",
            "--only",
            "top-left",
            "--only",
            "flat",
            "--bits",
            "8",
            "--program",
            PROGRAM,
            "--junit",
            report,
            driver="softpipe",
        )
        suite = xml.etree.ElementTree.parse(report).getroot()
        self.assertEqual([(case.get("name"), len(case)) for case in suite], [("top-left rule", 1), ("flat", 0)])
        self.assertEqual(
            (suite.get("tests"), suite.get("failures"), suite.get("name")), ("2", "1", "features of softpipe")
        )

    def test_what_is_kept(self):
        """A scene of what differs, which then differs so."""
        kept = self.folder / "kept"
        launched(
            "try",
            "--scenes",
            "1",
            "--seed",
            "3",
            "--only",
            "top-left",
            "--only",
            "flat",
            "--bits",
            "8",
            "--program",
            PROGRAM,
            "--write",
            kept,
            driver="softpipe",
        )
        self.assertEqual([path.name for path in kept.iterdir()], ["top-left_rule_3.json"])
        scene = launched("try", "--scene", "top-left rule 3")
        self.assertEqual(json.loads(scene.stdout), json.loads((kept / "top-left_rule_3.json").read_text()))
        self.assertEqual(set(self.compared(kept / "top-left_rule_3.json", driver="softpipe")["sums"]), {"coverage"})

    def test_no_such_feature(self):
        for words, why in (
            (["--only", "luck"], "no feature's name begins so"),
            (["--scene", "luck 7"], "a scene is a feature and a number"),
            (["--scene", "flat"], "a scene is a feature"),
        ):
            ran = launched("try", *words)
            self.assertEqual(ran.returncode, 2)
            self.assertIn(why, ran.stderr)
        self.assertEqual(len(launched("try", "--features").stdout.splitlines()), 68)


def blamed_plants():
    """A plant, events, the numbers of those that may be named, and what the change says."""
    whole = lambda color, **more: square(0, 0, 8, 8, color=color, **more)
    inner = lambda color: square(1, 1, 7, 7, color=color)
    corner = lambda z: square(1, 1, 4, 4, color=GREEN, z=z)
    glass = [whole(GREY), captures.blend(True, OVER, ("ONE", "INV_SRC_ALPHA", "ADD")), inner(GLASS)]
    alpha = [whole(RED), captures.blend(True, OVER, ("ONE", "ZERO", "ADD")), inner(GLASS)]
    masked = [whole(RED), captures.blend(False, mask=5), inner(GREEN)]
    cut = [captures.scissor(2, 2, 6, 6), captures.raster("none", scissor=True), square(0, 0, 8, 8)]
    hidden = [captures.depth(), whole(RED, z=100), corner(100)]
    behind = [whole(RED, z=100), captures.depth(True, True, "GREATER"), corner(9000)]
    factor = [captures.factor(255, 100, 10, 128), captures.blend(True, ("BLEND_FACTOR", "ZERO", "ADD")), whole(GREY)]
    flat = captures.draw([vertex(0, 0, RED), vertex(8, 0, GREEN), vertex(0, 8, GLASS)])
    return (
        ("alpha blended like colour", alpha, {2}, "the alpha part like the colour part"),
        ("blending ignored", glass, {2}, "blending off"),
        ("destination factor", glass, {2}, "the destination factor of colour ONE in place of"),
        ("mask ignored", masked, {2}, "mask 15 in place of 5"),
        ("scissor ignored", cut, {2}, "scissor off"),
        ("scissor one wider", cut, {1}, "right 7 in place of 6"),
        ("front face ignored", [captures.raster("back", True), square(0, 0, 8, 8)], {1}, ""),
        ("cull exchanged", [captures.raster("front"), square(0, 0, 8, 8)], {1}, "cull "),
        ("depth function", hidden, {1}, "depth"),
        ("depth test ignored", behind, {2}, "depth test off"),
        ("linear drawn flat", [flat | {"interp": "linear"}], {1}, "flat in place of linear"),
        ("flat by last corner", [flat], {1}, "the last corner's colour in flat triangles"),
        ("factor ignored", factor, {1, 2}, ""),
        ("four subpixel bits", [triangle((0.53, 0), (8, 0), (0.53, 8))], {1}, ""),
    )


class Planted(Driven):
    """Faults that are planted in a driver without any."""

    def test_the_features_that_mean_it(self):
        self.assertEqual(set(MARKED), set(plants.PLANTS))
        for plant, (wanted, others) in MARKED.items():
            with self.subTest(plant):
                rows = self.tried(
                    "--scenes",
                    "1",
                    "--bits",
                    "8",
                    "--plant",
                    plant,
                    *(word for name in wanted + others for word in ("--only", name)),
                )
                self.assertEqual({name for name, row in rows.items() if row["verdict"] == "differs"}, set(wanted))

    def test_a_factor(self):
        row = self.tried(
            "--scenes", "1", "--bits", "8", "--plant", "factor ignored", "--only", "source factor BLEND_FACTOR"
        )["source factor BLEND_FACTOR"]
        self.assertEqual((row["verdict"], row["breaks"]), ("differs", "both"))

    def test_kinds(self):
        """Each is told apart from the others by compare."""
        front = [captures.raster("front"), square(0, 0, 8, 8)]
        cut = [captures.scissor(2, 2, 6, 6), captures.raster("none", scissor=True), square(0, 0, 8, 8)]
        hidden = [captures.depth(), square(0, 0, 8, 8, color=RED, z=100), square(1, 1, 4, 4, color=GREEN, z=9000)]
        for plant, events, kind in (
            ("cull exchanged", front, {"cull": 64}),
            ("scissor ignored", cut, {"scissor": 48}),
            ("scissor one wider", cut, {"scissor": 4}),
            ("depth test ignored", hidden, {"depth test": 73}),
            ("four subpixel bits", [triangle((0.53, 0), (8, 0), (0.53, 8))], {"coverage": 8}),
        ):
            self.assertEqual(self.compared(frame(events), "--plant", plant)["sums"], kind, plant)

    def test_blame(self):
        """What a driver ignored or mixed up is named, by a change after which no pixel differs."""
        cases = blamed_plants()
        self.assertEqual({plant for plant, *_ in cases}, set(plants.PLANTS) - {"depth writes always"})
        for plant, events, named, says in cases:
            with self.subTest(plant):
                answer = self.compared(frame(events), "--plant", plant, "--blame")["blame"]["change"]
                self.assertIn(answer["event"], named, answer)
                self.assertEqual(answer["differ"], 0, answer)
                self.assertIn(says, answer["change"])

    def test_what_blame_does_not_name(self):
        """It is told by its kind alone: depths that are written are in no picture of colours."""
        left = [
            captures.depth(True, False, "LESS"),
            square(0, 0, 8, 8, color=RED, z=100),
            captures.depth(),
            square(1, 1, 4, 4, color=GREEN, z=9000),
        ]
        told = self.compared(frame(left), "--plant", "depth writes always")
        self.assertEqual((told["first"]["event"], told["sums"]), (2, {"depth by more": 64}))


class Compared(Driven):
    CULLED = [captures.raster("front"), square(0, 0, 8, 8), captures.raster("none"), square(2, 2, 4, 4, color=RED)]

    def test_a_report(self):
        path = self.written(frame(self.CULLED), "culled.json")
        ran = launched("compare", path, "--plant", "cull exchanged", "--all", "--blame", "--program", PROGRAM)
        lines = ran.stdout.splitlines()
        self.assertEqual((ran.returncode, ran.stderr), (1, ""))
        self.assertRegex(lines[0], "^driver  llvmpipe .*, 8 subpixel bits$")
        self.assertEqual(
            lines[1:6],
            [
                "frame   culled.json: 8 x 8, 4 events",
                "event 2: draw 2 flat, 0 pixels changed: 64 cull",
                "event 4: draw 2 flat, 4 pixels changed: alike",
                "first   beyond rounding: event 2, pixel 0 0, cull: framedbg 0 0 0 0, the driver 255 255 255 255",
                "history 2 0 culled 255 255 255 255 0 0 0 0 0 0 0 0 0 65535 65535",
            ],
        )
        self.assertRegex(lines[6], "^blame   the driver drew event 2 as with event 1, .*: no pixel differs after it$")
        self.assertRegex(lines[7], r"^in all  2 events judged, 4 pixels changed: 64 cull; \d+\.\d s$")

    def test_json(self):
        value = self.compared(frame(self.CULLED), "--plant", "cull exchanged")
        self.assertEqual(
            value["events"],
            [
                {"event": 2, "kind": "draw", "changed": 0, "differ": {"cull": 64}},
                {"event": 4, "kind": "draw", "changed": 4, "differ": {}},
            ],
        )
        self.assertEqual(
            value["first"],
            {
                "event": 2,
                "pixel": [0, 0],
                "kind": "cull",
                "framedbg": [0] * 4,
                "driver": [255] * 4,
                "left_open_by_opengl": False,
                "history": ["2 0 culled 255 255 255 255 0 0 0 0 0 0 0 0 0 65535 65535"],
            },
        )
        self.assertEqual((value["changed"], value["sums"]), (4, {"cull": 64}))

    def test_each_event_alone(self):
        """What differs is mended after its event, or goes on."""
        events = [
            square(0, 0, 8, 8, color=(90, 90, 90, 90)),
            captures.blend(True, ("ONE", "ONE", "ADD"), ("ONE", "ONE", "ADD"), 1),
            square(0, 0, 8, 8, color=(5, 5, 5, 5)),
            captures.blend(True, ("ONE", "ONE", "ADD"), ("ONE", "ONE", "ADD"), 15),
            square(0, 0, 8, 8, color=(7, 7, 7, 7)),
        ]
        for words, last in (([], {}), (["--going-on"], {"by more": 64})):
            told = self.compared(frame(events), "--plant", "mask ignored", *words)["events"]
            self.assertEqual([event["differ"] for event in told], [{}, {"by more": 64}, last])

    def test_depths_that_are_off_by_1(self):
        """They stay as the driver has them: a second pass by EQUAL meets its own."""
        steep = [vertex(-3.2, -1, RED, 0), vertex(40, 3, RED, 65535), vertex(3, 37, RED, 30000)]
        events = [
            captures.raster("none"),
            captures.depth(True, True, "ALWAYS"),
            captures.draw(steep),
            captures.depth(True, False, "EQUAL"),
            captures.draw([corner | {"color": list(GREEN)} for corner in steep]),
        ]
        made = captures.frame(32, 32, events)
        self.assertEqual(set(self.compared(made)["sums"]) - {"depth by 1"}, set())
        self.assertGreater(self.compared(made, driver="softpipe")["sums"]["depth test"], 100)

    # a product that llvmpipe rounds to another byte
    PRODUCT = [
        square(0, 0, 8, 8, color=(229, 229, 229, 229)),
        captures.blend(True, ("DEST_COLOR", "ZERO", "ADD")),
        square(0, 0, 8, 8, color=(152, 152, 152, 152)),
    ]

    def test_roundings(self):
        """They differ, unless they are allowed."""
        path = self.written(frame(self.PRODUCT))
        self.assertEqual(self.compared(path)["sums"], {"by 1": 64})
        self.assertEqual(
            [
                launched("compare", path, "--program", PROGRAM, *words).returncode
                for words in ([], ["--tolerance", "1"])
            ],
            [1, 0],
        )

    def test_the_first_beyond_rounding(self):
        """It is told in the place of roundings before it."""
        events = [*self.PRODUCT, captures.blend(False, mask=5), square(2, 3, 4, 4, color=(5, 5, 5, 5))]
        told = self.compared(frame(events), "--plant", "mask ignored")
        self.assertEqual(told["sums"], {"by 1": 64, "by more": 2})
        self.assertEqual(
            (told["first"]["event"], told["first"]["kind"], told["first"]["pixel"]), (5, "by more", [2, 3])
        )

    def test_junit(self):
        report = self.folder / "report.xml"
        launched(
            "compare",
            self.written(frame(self.CULLED)),
            "--plant",
            "cull exchanged",
            "--junit",
            report,
            "--program",
            PROGRAM,
        )
        suite = xml.etree.ElementTree.parse(report).getroot()
        self.assertEqual(
            [(case.get("name"), [part.get("message") for part in case]) for case in suite],
            [
                ("event 2: draw 2 flat", ["event 2: draw 2 flat, 0 pixels changed: 64 cull"]),
                ("event 4: draw 2 flat", []),
            ],
        )

    def test_bits(self):
        """Corners that a driver of four bits can't hold are moved for both."""
        made = frame([triangle((0.53, 0), (8, 0), (0.53, 8))])
        self.assertEqual(
            [self.compared(made, "--plant", "four subpixel bits", "--bits", bits)["sums"] for bits in ("8", "4")],
            [{"coverage": 8}, {}],
        )


class Found(Driven):
    """The captures of faults that were found: framedbg draws them as the reference does, and the drivers as the page
    says."""

    ON_SOFTPIPE = {
        "softpipe_tie_in_x": {"coverage"},
        "softpipe_depth_drifts": {"depth by more"},
        "softpipe_equal_again": {"depth test"},
    }

    def kinds(self, name, *words, driver="llvmpipe"):
        return {
            kind
            for kind in self.compared(FOUND / f"{name}.json", *words, driver=driver)["sums"]
            if kind in ("coverage", "depth test", "depth by more", "by more")
        }

    def test_softpipe(self):
        for name, kinds in self.ON_SOFTPIPE.items():
            self.assertLessEqual(kinds, self.kinds(name, driver="softpipe"), name)
            self.assertEqual(self.kinds(name), set(), name)

    def test_llvmpipe_loses_a_triangle(self):
        for api, driver, wanted in (
            ("gl", "llvmpipe", {"coverage"}),
            ("vulkan", "llvmpipe", {"coverage"}),
            ("gl", "softpipe", set()),
        ):
            self.assertEqual(
                self.kinds("llvmpipe_loses_a_triangle", "--viewport", "16384", "--api", api, driver=driver),
                wanted,
                (api, driver),
            )
        self.assertEqual(self.kinds("llvmpipe_loses_a_triangle"), set())

    def test_noperspective(self):
        for driver in ("llvmpipe", "softpipe"):
            wrong = self.kinds(
                "mesa_noperspective_clipped", "--viewport", "target", "--linear", "noperspective", driver=driver
            )
            self.assertEqual((wrong, self.kinds("mesa_noperspective_clipped", driver=driver)), ({"by more"}, set()))

    def test_what_is_right(self):
        """framedbg's side of a difference is the reference's."""
        for path in sorted(FOUND.glob("softpipe_*.json")):
            first = self.compared(path, driver="softpipe")["first"]
            (colour, depth), _ = reference.Frame(json.loads(path.read_text())).replay(first["event"], *first["pixel"])
            self.assertEqual(
                first["framedbg"], [depth] if first["kind"].startswith("depth by") else list(colour), path.name
            )


class Reduced(Driven):
    def reduced(self, capture, *words, driver="llvmpipe"):
        ran = launched("reduce", self.written(capture), "--program", PROGRAM, *words, driver=driver)
        return ran.returncode, ran.stdout, ran.stderr.splitlines()

    def test_a_tie(self):
        """A scene of softpipe's becomes one triangle on one pixel, which is a capture that still differs so."""
        scene = json.loads(launched("try", "--scene", "top-left rule 1").stdout)
        status, text, told = self.reduced(scene, "--kind", "coverage", driver="softpipe")
        small = json.loads(text)
        self.assertEqual((status, small["width"], small["height"], small["version"]), (1, 1, 1, 1))
        self.assertEqual([(event["kind"], len(event["vertices"])) for event in small["events"]], [("draw", 3)])
        self.assertIsNone(reference.fault(text.encode()))
        self.assertRegex(
            told[0], r"^5 events became 1, with 1 triangle on 1 x 1 pixels; \d+ captures tried in \d+\.\d s$"
        )
        self.assertRegex(told[1], "^event 1, pixel 0 0, coverage, on an edge, which OpenGL leaves open: framedbg ")
        self.assertEqual(self.compared(small, driver="softpipe")["sums"], {"coverage": 1})

    def test_a_mask(self):
        """A planted fault becomes one state and one draw."""
        events = [
            captures.clear(9, 9, 9, 9),
            captures.raster("none"),
            captures.factor(1, 2, 3, 4),
            square(0, 0, 30, 30, color=GREEN),
            captures.blend(False, mask=5),
            captures.marker("here"),
            square(3, 3, 9, 9, color=RED),
            triangle((8.25, 8), (20.5, 9.75), (4, 19.125), color=GLASS),
        ]
        status, text, _ = self.reduced(captures.frame(32, 32, events), "--plant", "mask ignored")
        small = json.loads(text)
        self.assertEqual((status, sorted(event["kind"] for event in small["events"])), (1, ["blend", "draw"]))
        self.assertEqual(
            (small["width"], len([event for event in small["events"] if event["kind"] == "draw"][0]["vertices"])),
            (1, 3),
        )

    def test_indices(self):
        """They are taken for what they name, before any is left out."""
        square_ = [vertex(x, y, RED) for x, y in ((0, 0), (16, 0), (0, 16), (16, 16))]
        events = [
            captures.raster("none"),
            captures.blend(False, mask=5),
            captures.draw(square_[::-1], "flat", [3, 2, 1]),
        ]
        status, text, _ = self.reduced(captures.frame(16, 16, events), "--plant", "mask ignored")
        draws = [event for event in json.loads(text)["events"] if event["kind"] == "draw"]
        self.assertEqual((status, [len(draw["vertices"]) for draw in draws], "indices" in draws[0]), (1, [3], False))
        self.assertLess(draws[0]["vertices"][0]["x"], draws[0]["vertices"][1]["x"] + draws[0]["vertices"][2]["x"])

    def test_nothing(self):
        status, text, told = self.reduced(frame([square(0, 0, 8, 8)]))
        self.assertEqual((status, text, told), (0, "", ["framedbg-driver: the driver's picture doesn't differ by any"]))

    def test_little_time(self):
        """What is written then still differs, and is hardly smaller."""
        scene = json.loads(launched("try", "--scene", "top-left rule 1").stdout)
        status, text, _ = self.reduced(scene, "--kind", "coverage", "--seconds", "0.001", driver="softpipe")
        self.assertEqual(status, 1)
        self.assertGreater(json.loads(text)["width"], 1)
        self.assertIn("coverage", self.compared(json.loads(text), driver="softpipe")["sums"])


class Ended(Driven):
    """What can't be done ends with a status and a sentence."""

    def ended(self, *words, **how):
        ran = launched(*words, **how)
        return ran.returncode, ran.stdout, ran.stderr.splitlines()[-1]

    def test_no_driver(self):
        status, out, told = self.ended(
            "draw", EXAMPLES / "two_triangles.json", __EGL_VENDOR_LIBRARY_FILENAMES="/absent"
        )
        self.assertEqual((status, out), (3, ""))
        self.assertRegex(told, "^framedbg-driver: EGL has no display here")

    def test_no_context(self):
        status, _, told = self.ended("try", "--program", PROGRAM, MESA_GL_VERSION_OVERRIDE="2.1")
        self.assertEqual(status, 3)
        self.assertRegex(told, "^framedbg-driver: the driver gives no context of gl: EGL's error 0x")

    def test_no_vulkan(self):
        status, _, told = self.ended(
            "draw",
            EXAMPLES / "two_triangles.json",
            "--api",
            "vulkan",
            VK_ICD_FILENAMES="/absent",
            VK_DRIVER_FILES="/absent",
        )
        self.assertEqual(status, 3, told)
        self.assertRegex(told, "^framedbg-driver: ")

    def test_no_such_device(self):
        self.assertEqual(
            self.ended("try", "--device", "9", "--program", PROGRAM),
            (3, "", "framedbg-driver: there is no device 9: EGL has 1, counted from 0"),
        )

    def test_captures_that_are_refused(self):
        bad = self.written({"format": "framedbg", "version": 1, "width": 1, "height": 1, "events": [{"kind": "clear"}]})
        for command in ("draw", "compare", "reduce"):
            status, out, told = self.ended(command, bad)
            self.assertEqual((status, out), (2, ""))
            self.assertIn("capture refused 8 bad field 1: line 1, column", told)
        self.assertIn("there is no position 2", self.ended("draw", EXAMPLES / "two_triangles.json", "--at", "2")[2])

    def test_no_framedbg(self):
        status, _, told = self.ended("compare", EXAMPLES / "two_triangles.json", "--program", "/absent/framedbg")
        self.assertEqual((status, told), (2, "framedbg-driver: /absent/framedbg: No such file or directory"))

    def test_a_framedbg_that_ends(self):
        dead = self.written("#!/bin/sh\nexit 7\n", "framedbg")
        dead.chmod(0o755)
        status, _, told = self.ended("compare", EXAMPLES / "two_triangles.json", "--program", dead)
        self.assertEqual((status, told), (4, "framedbg-driver: framedbg has ended (status 7)"))

    def test_a_full_disk(self):
        with full_device() as full:
            if not full:
                self.skipTest(LACKING)
            words = [sys.executable, TOOLS / "framedbg-driver", "draw", EXAMPLES / "two_triangles.json"]
            with open(full, "w") as out:
                ran = subprocess.run(
                    words, env=environment("llvmpipe"), stdout=out, stderr=subprocess.PIPE, text=True, check=False
                )
        self.assertEqual(
            (ran.returncode, ran.stderr), (4, "framedbg-driver: standard output: No space left on device\n")
        )

    def test_interrupted(self):
        """It says so, and leaves no file."""
        room = self.folder / "room"
        room.mkdir()
        words = [sys.executable, TOOLS / "framedbg-driver", "try", "--program", PROGRAM]
        for sent in (signal.SIGINT, signal.SIGTERM):
            with subprocess.Popen(
                words,
                env=environment("llvmpipe", TMPDIR=str(room)),
                stdout=subprocess.PIPE,
                stderr=subprocess.PIPE,
                text=True,
            ) as run:
                for _ in range(4):
                    run.stdout.readline()
                run.send_signal(sent)
                _, told = run.communicate(timeout=60)
                self.assertEqual((run.returncode, told), (130, "framedbg-driver: interrupted\n"))
        self.assertEqual(list(room.iterdir()), [])


if __name__ == "__main__":
    unittest.main()
