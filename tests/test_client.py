#!/usr/bin/env python3
"""test_client: framedbg_client's values, against docs/FORMATS.md, build/reference.py's images and the replies in
examples/; its endings; docs/CLIENTS.md.

    tests/test_client.py [TEST ..]

FRAMEDBG names another program.
"""
import json
import os
import pathlib
import re
import shutil
import struct
import subprocess
import sys
import tempfile
import unittest
import zlib
from unittest import mock

from folders import TOP

from fdb_testing import EXAMPLES, PROGRAM, ROOT, TOOLS, stand_in

import framedbg_client
import reference
from framedbg_client import (
    At,
    Bad,
    Bye,
    Client,
    Colour,
    Depths,
    DepthState,
    Ended,
    Entry,
    Event,
    Fault,
    Garbled,
    Pixel,
    Refusal,
    Refused,
    Reply,
    State,
    Stopped,
    read_pam,
)
from framedbg_client import program as client_program

HOUSE = EXAMPLES / "house.json"
STATE = (
    "state cull none ccw 1 scissor 0 rect -3 4 116 30 blend 1 SRC_ALPHA INV_SRC_ALPHA ADD ONE ZERO MAX mask 12 "
    "factor 1 2 3 4"
)


def client(capture=HOUSE, **how):
    return Client(capture, PROGRAM, **how)


class Values(unittest.TestCase):
    """Each reply of docs/FORMATS.md, as its value."""

    def test_moves_and_refusals(self):
        for text, value in (
            ("at 13", At(13)),
            ("stopped 4", Stopped(4)),
            ("refused 3 no such position", Refused(3, "no such position")),
            ("bad 1 unknown command", Bad(1, "unknown command")),
            ("bye", Bye()),
        ):
            self.assertEqual(Reply(text).value, value)

    def test_pixels(self):
        self.assertEqual(Reply("pixel 125 95 55 128").value, Pixel(Colour(125, 95, 55, 128)))
        self.assertEqual(Reply("pixel 71 77 84 255 65535").value, Pixel(Colour(71, 77, 84, 255), 65535))

    def test_entries(self):
        lines = ("2 - drawn 0 0 0 255 1 2 3 4 5 6 7 8", "11 3 culled 190 60 50 128 60 130 60 255 60 130 61 255")
        self.assertEqual(
            Reply("history 2", lines).value.entries,
            [
                Entry(2, None, "drawn", Colour(0, 0, 0, 255), Colour(1, 2, 3, 4), Colour(5, 6, 7, 8)),
                Entry(11, 3, "culled", Colour(190, 60, 50, 128), Colour(60, 130, 60, 255), Colour(60, 130, 61, 255)),
            ],
        )
        entry = Reply(
            "history 1", ("9 57 depthfailed 59 67 75 255 71 77 84 255 71 77 84 254 45215 65534 65535",)
        ).value.entries[0]
        self.assertEqual(
            (entry.depths, entry.after, entry.is_drawn), (Depths(45215, 65534, 65535), Colour(71, 77, 84, 254), False)
        )
        entry = Reply(
            "history 1", ("3 0 discarded 0 0 0 0 100 100 100 100 100 100 100 100 500 65535 65535",)
        ).value.entries[0]
        self.assertEqual((entry.verdict, entry.source, entry.is_drawn), ("discarded", Colour(0, 0, 0, 0), False))

    def test_states(self):
        state = State(
            "none",
            True,
            False,
            (-3, 4, 116, 30),
            True,
            ("SRC_ALPHA", "INV_SRC_ALPHA", "ADD"),
            ("ONE", "ZERO", "MAX"),
            12,
            Colour(1, 2, 3, 4),
        )
        self.assertEqual(Reply(STATE).value, state)
        self.assertEqual(Reply(STATE + " depth 1 0 LESS").value.depth, DepthState(True, False, "LESS"))

    def test_events(self):
        lines = (
            "1 on marker sun  and hills",
            "2 off clear 0 1 2 255",
            "3 on marker ",
            "4 on blend 0 ONE ZERO ADD ONE ZERO ADD 15",
        )
        value = Reply("events 4 at 3", lines).value
        self.assertEqual((value.position, [event.on for event in value.events]), (3, [True, False, True, True]))
        self.assertEqual([event.name for event in value.events[::2]], ["sun  and hills", ""])
        self.assertEqual(value.events[1], Event(2, False, "clear", ("0", "1", "2", "255")))
        self.assertEqual((value.events[1].colour, value.events[3].colour), (Colour(0, 1, 2, 255), None))

    def test_what_is_no_reply(self):
        for text in (
            "",
            "at",
            "at x",
            "hello",
            "pixel 1 2 3",
            "refused x y",
            "history x",
            STATE.replace("mask", "mesk"),
            STATE + " depth 1",
        ):
            with self.assertRaises(Garbled, msg=text):
                Reply(text).value
        for text in ("history x", "pam -1", "events", "pam \u00b2"):
            with self.assertRaises(Garbled, msg=text):
                framedbg_client.replies.extent(text)


class Images(unittest.TestCase):
    PAM = b"P7\nWIDTH 2\nHEIGHT 1\nDEPTH 4\nMAXVAL 255\nTUPLTYPE RGB_ALPHA\nENDHDR\n\x01\x02\x03\x04\x05\x06\x07\x08"

    def test_pam(self):
        image = read_pam(self.PAM)
        self.assertEqual((image.width, image.height, image.pixel(1, 0), image.pam()), (2, 1, (5, 6, 7, 8), self.PAM))

    def test_what_is_no_image(self):
        for wrong in (
            self.PAM[:-1],
            self.PAM + b"\0",
            self.PAM.replace(b"P7", b"P6"),
            self.PAM.replace(b"ENDHDR", b"END"),
            self.PAM.replace(b"DEPTH 4", b"DEPTH 3"),
            self.PAM.replace(b"255", b"65535"),
            self.PAM.replace(b"RGB_ALPHA", b"RGB"),
            self.PAM.replace(b"WIDTH 2", b"WIDTH -2"),
            b"",
        ):
            with self.assertRaises(Fault, msg=wrong):
                read_pam(wrong)

    def test_png(self):
        """The colours alone, eight bits each, in rows without a filter: of the client, and of tools/pam_to_png,
        which takes the most trouble to pack them."""
        for pam, width, height in ((self.PAM, 2, 1), (shown_house(), 96, 64)):
            ours, theirs = (
                read_pam(pam).png(),
                subprocess.run([TOOLS / "pam_to_png"], input=pam, capture_output=True, check=True).stdout,
            )
            colours = [pam[-4 * width * height :][at : at + 3] for at in range(0, 4 * width * height, 4)]
            rows = b"".join(
                b"\0" + b"".join(colours[start : start + width]) for start in range(0, width * height, width)
            )
            for png, packed in ((ours, zlib.compress(rows)), (theirs, zlib.compress(rows, 9))):
                self.assertEqual(png[:8], b"\x89PNG\r\n\x1a\n")
                self.assertEqual(
                    chunks(png),
                    {b"IHDR": struct.pack(">IIBBBBB", width, height, 8, 2, 0, 0, 0), b"IDAT": packed, b"IEND": b""},
                )
        ran = subprocess.run([TOOLS / "pam_to_png"], input=self.PAM[:-1], capture_output=True, check=False)
        self.assertEqual((ran.returncode, ran.stdout), (1, b""))
        self.assertRegex(ran.stderr, rb"^pam_to_png: [^\n]+\n$")


def shown_house():
    """The image that build/reference.py made of the house."""
    replies = (EXAMPLES / "house_show.expected").read_bytes()
    head, _, rest = replies.partition(b"\npam ")
    size, _, rest = rest.partition(b"\n")
    return rest[: int(size)]


def chunks(png):
    found, at = {}, 8
    while at < len(png):
        size, kind = struct.unpack(">I4s", png[at : at + 8])
        data = png[at + 8 : at + 8 + size]
        assert struct.unpack(">I", png[at + 8 + size : at + 12 + size])[0] == zlib.crc32(kind + data)
        found[kind], at = data, at + 12 + size
    return found


def sessions():
    """The names of examples' sessions and their captures, without those that take their time."""
    for line in (EXAMPLES / "sessions.txt").read_text().splitlines():
        name, capture = line.split()
        if not name.startswith("crowd") and not name.endswith("show"):
            yield name, EXAMPLES / f"{capture}.json"


class Asked(unittest.TestCase):
    def test_each_session(self):
        for name, capture in sessions():
            lines = (EXAMPLES / f"{name}.session").read_text().splitlines()
            with client(capture) as frame:
                replies = frame.ask_all(lines)
            told = b"".join(
                "".join(text + "\n" for text in (reply.text, *reply.lines)).encode() + (reply.data or b"")
                for reply in replies
            )
            self.assertEqual(told, (EXAMPLES / f"{name}.expected").read_bytes(), name)
            for reply in replies:
                self.assertIsNotNone(reply.value)

    def test_calls(self):
        with client() as frame:
            self.assertEqual((frame.goto(13), frame.position, len(frame.events())), (13, 13, 13))
            self.assertEqual(frame.pixel(50, 50).colour, (125, 95, 55, 128))
            self.assertEqual([entry.event for entry in frame.history(50, 50)], [2, 3, 6, 11])
            self.assertTrue(frame.state().blend)
            self.assertEqual((frame.switch(8, False), frame.off, frame.switches), (13, {8}, 1))
            self.assertEqual(frame.pixel(50, 50).colour, (190, 60, 50, 128))
            self.assertEqual((frame.back(), frame.back(), frame.step()), (12, 11, 12))
            self.assertEqual(frame.switch(8, True), 12)
            self.assertEqual((frame.off, frame.switches), (set(), 2))

    def test_images_and_many_pixels(self):
        with client() as frame:
            frame.goto(13)
            image = frame.image()
            self.assertEqual(image.pam(), shown_house())
            places = [(x, y) for y in range(64) for x in range(96)]
            self.assertEqual([pixel.colour for pixel in frame.pixels(places)], [image.pixel(x, y) for x, y in places])

    def test_histories_of_many_pixels(self):
        """More lines than a pipe holds, in one go; where one is refused, the replies to the others are read."""
        wanted = reference.Frame(json.loads((EXAMPLES / "crossing.json").read_text()))
        places = [(x, y) for y in range(3, 9) for x in range(2, 14)]
        with client(EXAMPLES / "crossing.json") as frame:
            frame.goto(3)
            found = [
                [(entry.event, entry.verdict, tuple(entry.after), entry.depths.after) for entry in entries]
                for entries in frame.histories(places)
            ]
            self.assertEqual(
                found,
                [
                    [(entry[0], entry[2], tuple(entry[5]), entry[8]) for entry in wanted.replay(3, x, y)[1]]
                    for x, y in places
                ],
            )
            with self.assertRaises(Refusal):
                frame.histories([(0, 0), (9999, 0), (1, 0)])
            self.assertEqual((frame.goto(1), frame.histories([])), (1, []))
        with client() as frame:
            frame.goto(13)
            found = frame.histories([(x, y) for y in range(64) for x in range(96)])
            self.assertEqual((len(found), found[50 * 96 + 50]), (96 * 64, frame.history(50, 50)))

    def test_depths_of_an_area(self):
        """More lines than a pipe holds, in one go; and what is no depth."""
        wanted = reference.Frame(json.loads((EXAMPLES / "crossing.json").read_text()))
        with client(EXAMPLES / "crossing.json") as frame:
            for position in (0, 2, 3):
                frame.goto(position)
                depths = [wanted.replay(position, x, y)[0][1] for y in range(3, 9) for x in range(2, 14)]
                self.assertEqual(frame.depths(2, 3, 14, 9), depths)
            self.assertEqual((frame.depths(4, 4, 4, 9), frame.position), ([], 3))
        with client(EXAMPLES / "crowd.json") as frame:
            self.assertEqual(len(frame.depths(0, 0, 256, 200)), 256 * 200)
            self.assertEqual(frame.goto(1), 1)
        with client() as frame:
            with self.assertRaises(Garbled):
                frame.depths(0, 0, 2, 2)
            for _ in range(2):
                with self.assertRaises(Garbled):
                    frame.depths(0, 0, 1, 1)
        with client(EXAMPLES / "crossing.json") as frame:
            frame.connection.process.kill()
            for _ in range(2):
                with self.assertRaises(Ended):
                    frame.depths(0, 0, 2, 2)

    def test_refusals(self):
        with client() as frame:
            for line, reply in (
                ("back", Refused(2, "at start")),
                ("goto 14", Refused(3, "no such position")),
                ("off 0", Refused(4, "no such event")),
                ("on 8", Refused(5, "already so")),
                ("pixel 96 0", Refused(6, "no such pixel")),
                ("warp", Bad(1, "unknown command")),
                ("goto", Bad(2, "arguments")),
            ):
                with self.assertRaises(Refusal) as refusal:
                    frame.value(line)
                self.assertEqual(refusal.exception.reply, reply)
            self.assertEqual((frame.position, frame.off, frame.switches), (0, set(), 0))
            with self.assertRaises(ValueError):
                frame.ask("goto 1\ngoto 2")
            self.assertEqual(frame.goto(3), 3)

    def test_endings(self):
        with tempfile.TemporaryDirectory() as folder:
            (pathlib.Path(folder) / "no.json").write_text("[]")
            with client(pathlib.Path(folder) / "no.json") as frame, self.assertRaises(Ended) as ended:
                frame.events()
        self.assertEqual(
            (ended.exception.status, ended.exception.said), (2, "framedbg: capture refused 3 not a capture")
        )
        with client() as frame:
            frame.connection.process.kill()
            for _ in range(2):
                with self.assertRaises(Ended):
                    frame.goto(1)
            self.assertEqual((frame.restart(), frame.goto(13)), (0, 13))
        self.assertIsNotNone(frame.connection.process.returncode)

    def test_a_capture_that_is_not_there(self):
        """It is told at once, and not at the first call."""
        with tempfile.TemporaryDirectory() as folder:
            for path, fault in ((pathlib.Path(folder) / "no.json", FileNotFoundError), (folder, IsADirectoryError)):
                with self.assertRaises(fault) as seen:
                    client(path)
                self.assertEqual(str(seen.exception.filename), str(path))

    def test_what_is_off_is_a_copy(self):
        with client() as frame:
            before = frame.off
            frame.switch(8, False)
            self.assertEqual((before, frame.off, hasattr(frame.off, "add")), (set(), {8}, False))
            with self.assertRaises(AttributeError):
                frame.off = set()

    def test_a_name_of_any_bytes(self):
        with tempfile.TemporaryDirectory() as folder:
            path = os.path.join(folder, os.fsdecode(b"caf\xe9.json"))
            shutil.copy(HOUSE, path)
            with client(path) as frame:
                self.assertEqual(frame.goto(3), 3)

    def test_another_run(self):
        with client(workers=2) as frame:
            frame.goto(12)
            frame.switch(8, False)
            first = frame.connection.process
            self.assertEqual((frame.restart(11), frame.position, frame.off), (11, 11, {8}))
            self.assertEqual([event.number for event in frame.events() if not event.on], [8])
            self.assertEqual(frame.pixel(50, 50).colour, (190, 60, 50, 128))
            self.assertIsNotNone(first.returncode)

    def test_a_reply_that_was_not_read(self):
        with client() as frame:
            with mock.patch.object(frame.connection, "line", side_effect=KeyboardInterrupt), self.assertRaises(
                KeyboardInterrupt
            ):
                frame.goto(13)
            with self.assertRaises(Garbled):
                frame.ask("state")
            frame.restart()
            self.assertEqual(frame.goto(2), 2)

    def test_want_of_memory(self):
        with tempfile.TemporaryDirectory() as folder:
            environment = {"ASKED": f"{folder}/asked", "MOST": "2", "END": "state"}
            with mock.patch.dict(os.environ, environment), Client(HOUSE, stand_in(folder)) as frame:
                self.assertEqual((frame.goto(3), frame.position), (2, 2))
                with self.assertRaisesRegex(Ended, r"framedbg: memory \(status 5\)"):
                    frame.state()

    def test_a_program_that_is_another(self):
        with Client(HOUSE, shutil.which("yes")) as frame, self.assertRaises(Garbled):
            frame.events()
        with self.assertRaises(FileNotFoundError):
            Client(HOUSE, "/nowhere/framedbg")

    def test_where_the_program_is(self):
        with tempfile.TemporaryDirectory() as folder:
            built, installed, on_path = (
                pathlib.Path(folder) / name for name in ("built", "installed", "path/framedbg")
            )
            on_path.parent.mkdir()
            with mock.patch.object(client_program, "PLACES", (built, installed)), mock.patch.dict(
                os.environ, {"PATH": str(on_path.parent)}
            ):
                self.assertIsNone(client_program.find_program())
                with self.assertRaises(FileNotFoundError):
                    Client(HOUSE)
                for path in (on_path, installed, built):
                    path.write_text("#!/bin/sh\n")
                    path.chmod(0o755)
                    self.assertEqual(client_program.find_program(), str(path))
        self.assertEqual(
            client_program.PLACES, (TOP / "crates/framedbg/out/framedbg", TOP.parent.parent / "bin/framedbg")
        )


class Page(unittest.TestCase):
    def test_errors(self):
        """The page has a row for each that the client has of its own, and for those of Python that a call raises."""
        rows = re.findall(
            r"^\| `(\w+)` \| (.*) \|$", (TOP / "docs/CLIENTS.md").read_text().partition("| Error | ")[2], re.M
        )
        told = {name for row, text in rows for name in [row, *re.findall(r"`(\w+)`, which is one", text)]}
        own = {
            name
            for name in framedbg_client.__all__
            if isinstance(what := getattr(framedbg_client, name), type) and issubclass(what, Exception)
        }
        self.assertEqual(told, own | {"OSError", "ValueError"})

    """docs/CLIENTS.md: its scripts say what they are shown to say."""

    def test_each_script(self):
        page = (ROOT / "docs/CLIENTS.md").read_text()
        found = re.findall(r"```(python|sh)\n((?:(?!```).)*)```\n+It says:\n+```text\n(.*?)```", page, re.S)
        self.assertEqual([kind for kind, *_ in found], ["python", "sh"])
        with tempfile.TemporaryDirectory() as folder:
            room = pathlib.Path(folder)
            (room / "bin").mkdir()
            (room / "bin/framedbg").symlink_to(PROGRAM)
            shutil.copy(HOUSE, room)
            environment = {**os.environ, "PATH": f"{room / 'bin'}:{os.environ['PATH']}", "PYTHONPATH": str(TOOLS)}
            for kind, script, says in found:
                words = [sys.executable, "-c", script] if kind == "python" else ["sh", "-eu", "-c", script]
                ran = subprocess.run(
                    words, cwd=room, env=environment, capture_output=True, text=True, timeout=60, check=False
                )
                self.assertEqual((ran.returncode, ran.stdout, ran.stderr), (0, says, ""))
                self.assertLessEqual(len(script.splitlines()), 22)


if __name__ == "__main__":
    unittest.main()
