"""fdb over the captures of a frame's targets, without a terminal."""
import json
import unittest

import folders

from fdb_testing import Folder, batch


class Targets(Folder):
    """Two captures of one frame: the last draw of the one reads the other."""

    def setUp(self):
        super().setUp()
        clear = lambda red: {"kind": "clear", "color": [red, 0, 0, 255]}
        self.shown, self.lit = (
            self.written(
                name,
                json.dumps(
                    {
                        "format": "framedbg",
                        "version": 1,
                        "width": 1,
                        "height": 1,
                        "events": [clear(red + number) for number in range(count)],
                    }
                ),
            )
            for name, red, count in (("target_7.json", 10, 2), ("target_3.json", 20, 4))
        )
        self.listed()

    def listed(self, **more):
        frame = {
            "format": "framedbg frame",
            "shown": 7,
            "targets": [
                {"target": 3, "name": "lit", "capture": "target_3.json"},
                {"target": 7, "name": "", "capture": "target_7.json"},
            ],
            "reads": [{"target": 7, "position": 2, "reads": 3, "made": 9, "at": 3}],
        }
        self.written("frame.json", json.dumps({**frame, **more}))

    def test_into_and_out(self):
        lines = ["off 1", "into", "p 0 0", "off 2", "out", "p 0 0", "events"]
        told = self.told([*lines, "into 3", "mark here", "events", "out", "marks"], capture=self.shown)
        there = ["target_3.json", "at 3", "3 on clear 22 0 0 255"]
        back = ["target_7.json", "at 2", "2 on clear 11 0 0 255"]
        self.assertEqual(
            told,
            [
                "at 2",
                *there,
                "pixel 22 0 0 255",
                "at 3",
                *back,
                "pixel 11 0 0 255",
                "events 2 at 2",
                "1 off clear 10 0 0 255",
                "2 on clear 11 0 0 255",
                *there,
                "mark here at 3",
                "events 4 at 3",
                *(f"{number} on clear {19 + number} 0 0 255" for number in (1, 2, 3, 4)),
                *back,
                "no marks",
            ],
        )

    def test_nowhere(self):
        nothing = "fdb: standard input:1: event 2 reads no target that frame.json knows\n"
        self.assertEqual(batch(self.shown, ["into 7"])[::2], (1, nothing))
        self.assertEqual(batch(self.lit, ["into"], "--at", "2")[::2], (1, nothing))
        self.assertEqual(batch(self.shown, ["into"], "--at", "1")[::2], (1, nothing.replace("event 2", "event 1")))
        self.assertEqual(batch(self.shown, ["out"])[::2], (1, "fdb: standard input:1: into went nowhere from here\n"))
        self.assertEqual(batch(self.shown, ["into 1 2"])[0], 1)
        both = [{"target": 7, "position": 2, "reads": number, "made": 9, "at": 1} for number in (3, 7)]
        self.listed(reads=both)
        said = "fdb: standard input:1: the draw here reads 3 lit and 7: into TARGET names one\n"
        self.assertEqual(batch(self.shown, ["into"])[2], said)
        for wrong in (
            {"format": "x"},
            {"reads": [{}]},
            {"targets": []},
            {
                "targets": [
                    {"target": 7, "name": "", "capture": "target_7.json"},
                    {"target": 3, "name": "", "capture": "../target_3.json"},
                ]
            },
            {"targets": 7},
        ):
            self.listed(**wrong)
            self.assertEqual(batch(self.shown, ["into"])[::2], (1, nothing), wrong)
        self.listed(
            reads=both[:1],
            targets=[
                {"target": 7, "name": "", "capture": "target_7.json"},
                {"target": 3, "name": "", "capture": "gone.json"},
            ],
        )
        status, _, said = batch(self.shown, ["into"])
        self.assertEqual(
            (status, said),
            (1, f"fdb: standard input:1: {self.shown.with_name('gone.json')}: No such file or directory\n"),
        )

    def test_which_pixel_a_pixel_shows(self):
        """Of 6 by 2 pixels over 12 by 8: straight, and upside down, where the upper row shows what lies below."""
        targets = [
            {"target": 3, "name": "lit", "capture": "target_3.json", "width": 12, "height": 8},
            {"target": 7, "name": "", "capture": "target_7.json", "width": 6, "height": 2},
        ]
        read = {"target": 7, "position": 2, "reads": 3, "made": 9, "at": 3}
        there = ["target_3.json", "at 3", "3 on clear 22 0 0 255"]
        for laid, y, down in (("straight", 0, 2), ("straight", 1, 6), ("upside down", 0, 6), ("upside down", 1, 2)):
            self.listed(targets=targets, reads=[{**read, "laid": laid}])
            for words in (f"4 {y}", f"lit 4 {y}", f"3 4 {y}"):
                told = self.told([f"into {words}"], capture=self.shown)
                self.assertEqual(told, [*there, f"pixel 4 {y} shows 9 {down} of it"])
        nothing = "fdb: standard input:1: which pixel 4 0 shows isn't told\n"
        wide, (lit, own) = lambda target, **more: {**target, **more}, targets
        for wrong in (
            {"reads": [read]},
            {"reads": [wide(read, laid=["straight"])]},
            {"targets": [wide(lit, width="x"), own]},
            {"targets": [lit, wide(own, width=4)]},
            {"targets": [lit, wide(own, height=0)]},
        ):
            self.listed(**{"targets": targets, "reads": [{**read, "laid": "straight"}], **wrong})
            self.assertEqual(batch(self.shown, ["into 4 0"])[::2], (1, nothing), wrong)

    def test_by_name_and_by_a_long_number(self):
        """RenderDoc's own numbers have up to 20 digits, and names may have spaces."""
        long, there = 1000000000000000371, ["target_3.json", "at 3", "3 on clear 22 0 0 255"]
        both = [{"target": 7, "position": 2, "reads": number, "made": 9, "at": 3} for number in (long, 7)]
        self.listed(
            reads=both,
            targets=[
                {"target": long, "name": "the sky", "capture": "target_3.json"},
                {"target": 7, "name": 4, "capture": "target_7.json"},
            ],
        )
        for word in ("the sky", str(long)):
            self.assertEqual(self.told([f"into {word}"], capture=self.shown), there)
        for word, said in (
            ("sky", "no target of the frame is called sky"),
            ("9" * 21, f"TARGET is a whole number, and not {'9' * 21}"),
            (str(long + 1), "event 2 reads no target that frame.json knows"),
        ):
            self.assertEqual(batch(self.shown, [f"into {word}"])[::2], (1, f"fdb: standard input:1: {said}\n"))


if __name__ == "__main__":
    unittest.main()
