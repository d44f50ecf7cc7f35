"""The viewer without a browser: its server's doors, its run, captures beside it, its stops, the file that hands the
address over."""
import json
import os
import pathlib
import signal
import socket
import stat
import subprocess
import sys
import tempfile
import threading
import time
import unittest
from unittest import mock

from folders import TOOLS

import captures
from viewer_testing import EXAMPLES, HOLDING, PROGRAM, Viewer, capture_of, file_of, image, program_of, replies
from viewer import session as viewer_session
from viewer.capture import Capture
from viewer.doors import MAX_BODY
from viewer.handover import Handover
from viewer.session import Ended, Session, Stopped

HOUSE = EXAMPLES / "house.json"
VIEW = TOOLS / "view"


class Doors(unittest.TestCase):
    """Each door, opened wrongly."""

    @classmethod
    def setUpClass(cls):
        cls.viewer = Viewer(HOUSE)
        cls.port = cls.viewer.server.server_address[1]

    @classmethod
    def tearDownClass(cls):
        cls.viewer.__exit__()

    def status(self, **given):
        return self.viewer.request(**given)[0]

    def test_loopback(self):
        self.assertEqual(self.status(), 200)
        with self.assertRaises(OSError):
            socket.create_connection(("127.0.0.2", self.port), timeout=2).close()  # another address of this machine

    def test_host(self):
        for host in (
            "evil.example",
            f"evil.example:{self.port}",
            f"localhost:{self.port}",
            "127.0.0.1",
            f"127.0.0.1:{self.port}.evil.example",
            None,
        ):
            self.assertEqual(self.status(Host=host), 403, host)
            self.assertEqual(self.status(Host=host, method="GET", path="/"), 403, host)
        self.assertEqual(self.status(more=[("Host", "evil.example")]), 403)

    def test_origin(self):
        own = self.viewer.server.origin
        for origin in (
            "http://evil.example",
            "null",
            f"https://127.0.0.1:{self.port}",
            f"http://localhost:{self.port}",
            own + ".evil.example",
            own + "/",
        ):
            self.assertEqual(self.status(Origin=origin), 403, origin)
        self.assertEqual(self.status(Origin=own, more=[("Origin", "http://evil.example")]), 403)
        self.assertEqual(self.status(Origin=own), 200)

    def test_site(self):
        for site in ("cross-site", "same-site", "x"):
            self.assertEqual(self.status(Sec_Fetch_Site=site), 403, site)
        self.assertEqual(self.status(Sec_Fetch_Site="same-origin"), 200)

    def test_token(self):
        own = self.viewer.server.token
        self.assertGreaterEqual(len(own), 43)  # 256 bits in letters of six bits
        for token in (None, "", "x", own[:-1], own + "x", own.swapcase()):
            for call in (
                {},
                {"path": "/triangle", "body": b"11 0"},
                {"path": "/draw", "body": b"11"},
                {"path": "/restart", "body": b""},
                {"path": "/stop", "body": b""},
                {"method": "GET", "path": "/capture"},
                {"method": "GET", "path": "/sources"},
            ):
                self.assertEqual(self.status(X_Token=token, **call), 403, (token, call))
        self.assertEqual(self.status(more=[("X-Token", own)]), 403)

    def test_paths(self):
        for path in (
            "/..",
            "/../session.py",
            "/viewer.js?x",
            "//etc/passwd",
            "/%2e%2e/session.py",
            "/__pycache__",
            "/commands",
            "/page/viewer.js",
            "/etc/passwd",
        ):
            self.assertEqual(self.status(method="GET", path=path), 404, path)
        for path in ("/quit", "/", "/viewer.js", "/commands/"):
            self.assertEqual(self.status(path=path), 404, path)

    def test_lengths(self):
        for length in (None, "", "-1", "+1", "1e3", "x", "9" * 30, "\u00b2"):
            self.assertEqual(self.status(Content_Length=length), 411, length)
        self.assertEqual(self.status(Content_Length=str(MAX_BODY + 1)), 413)

    def test_bodies(self):
        for body in (
            b"",
            b"quit\n",
            b"  quit\n",
            b"state\nquit",
            b"a" * 257,
            b"state\x00\n",
            b"state\tx\n",
            b"\xff\n",
            b"state\n" * 4097,
        ):
            self.assertEqual(self.status(body=body), 400, body[:20])
        for window in ("", "1 2 3", "1 2 3 4 5 6", "-1 0 2 2", "a 0 1 1", "0 0 1 11111111111"):
            self.assertEqual(self.status(X_Window=window), 400, window)
        for base in ("", "-1", "a", "1 2", "11111111111"):
            self.assertEqual(self.status(X_Base=base), 400, base)
        for body in (b"", b"1", b"1 2 3", b"-1 0", b"a b", b"1 11111111111", b"\xb2 1"):
            self.assertEqual(self.status(path="/triangle", body=body), 400, body)
        for body in (b"", b"1 2", b"-1", b"a", b"11111111111"):
            self.assertEqual(self.status(path="/draw", body=body), 400, body)
        self.assertEqual(self.viewer.ask("nonsense")[0]["replies"], [{"text": "bad 1 unknown command"}])

    def test_methods(self):
        for method in ("OPTIONS", "PUT", "DELETE", "HEAD"):
            self.assertEqual(self.status(method=method), 501, method)

    def test_policy(self):
        for path in ("/", "/viewer.js", "/nothing"):
            headers = self.viewer.request(method="GET", path=path, body=b"")[1]
            policy = dict(part.split(" ", 1) for part in headers["Content-Security-Policy"].split("; "))
            self.assertEqual(policy["default-src"], "'none'")
            self.assertEqual(
                (policy["script-src"], policy["connect-src"], policy["frame-ancestors"]), ("'self'", "'self'", "'none'")
            )
            self.assertIsNone(headers["Access-Control-Allow-Origin"])
            self.assertEqual((headers["X-Content-Type-Options"], headers["Cache-Control"]), ("nosniff", "no-store"))
            self.assertEqual(
                (headers["Referrer-Policy"], headers["Cross-Origin-Resource-Policy"]), ("no-referrer", "same-origin")
            )


class Run(unittest.TestCase):
    def test_triangles(self):
        with Viewer(HOUSE) as viewer:
            corners = lambda body: json.loads(viewer.request(path="/triangle", body=body)[2])
            self.assertEqual(corners(b"11 0"), [[44, 36], [76, 36], [44, 60]])
            for body in (b"11 2", b"10 0", b"0 0", b"99 0", b"11 4294967296"):
                self.assertIn(corners(body), (None, []), body)

    def test_draws(self):
        with Viewer(HOUSE) as viewer:
            draw = lambda body: json.loads(viewer.request(path="/draw", body=body)[2])
            event = json.loads(HOUSE.read_text())["events"][10]
            self.assertEqual(
                draw(b"11"),
                {
                    "interp": "flat",
                    "vertices": [[v["x"], v["y"], None, v["color"]] for v in event["vertices"]],
                    "indices": event.get("indices"),
                },
            )
            for body in (b"10", b"0", b"14", b"4294967296"):
                self.assertIsNone(draw(body), body)

    def test_depths_of_version_1(self):
        """They are passed over, whatever they are."""
        corners = [
            {"x": x << 16, "y": y << 16, "z": z, "color": [9] * 4}
            for x, y, z in ((0, 0, "deep"), (4, 0, None), (0, 4, [2]))
        ]
        drawn = capture_of(4, 4, [{"kind": "draw", "interp": "flat", "vertices": corners}])
        with tempfile.TemporaryDirectory() as folder, Viewer(file_of(folder, drawn)) as viewer:
            told = json.loads(viewer.request(path="/draw", body=b"1")[2])
            self.assertEqual(
                told["vertices"], [[0, 0, None, [9] * 4], [4 << 16, 0, None, [9] * 4], [0, 4 << 16, None, [9] * 4]]
            )
            self.assertEqual(
                [reply["text"] for reply in viewer.ask("goto 1", "pixel 0 0")[0]["replies"]], ["at 1", "pixel 9 9 9 9"]
            )

    def test_draws_with_pictures(self):
        """The box of the picture, and no colours, of a file that is too large to be read but for its pictures."""
        corners = [captures.corner(x << 16, y << 16, 5) for x, y in ((0, 0), (9, 0), (0, 9))]
        large = captures.picture_draw(corners, captures.picture(0, 0, 4096, 2048, bytes(1 << 25)), [0, 1, 2])
        small = captures.picture_draw(
            [{**corner, "color": None} for corner in corners], captures.picture(3, 1, 2, 2, bytes(16), [0, 0, 0, 1])
        )
        with tempfile.TemporaryDirectory() as folder:
            capture = Capture(file_of(folder, capture_of(64, 48, [large, small], 3)))
            told = {"interp": "picture", "vertices": [[0, 0, 5, None], [9 << 16, 0, 5, None], [0, 9 << 16, 5, None]]}
            self.assertEqual(capture.draw(1), {**told, "indices": [0, 1, 2], "picture": [0, 0, 4096, 2048]})
            self.assertEqual(capture.draw(2), {**told, "indices": None, "picture": [3, 1, 2, 2]})
            self.assertEqual(capture.triangle(2, 0), [[0, 0], [9, 0], [0, 9]])
            self.assertEqual(
                (capture.boxes_between(0, 1), capture.boxes_between(1, 2)), ([(0, 0, 9, 9)], [(3, 1, 5, 3)])
            )
            away = captures.picture_draw(corners, captures.picture(20, 0, 2, 2, bytes(16)))
            self.assertEqual(Capture(file_of(folder, capture_of(64, 48, [away], 3))).boxes_between(0, 1), [])

    def test_a_session_is_answered_as_framedbg_answers_it(self):
        for line in (EXAMPLES / "sessions.txt").read_text().splitlines():
            name, capture = line.split()
            if name.startswith("hunts/") or name.startswith("crowd"):
                continue  # those take their time
            commands = [c for c in (EXAMPLES / f"{name}.session").read_text().splitlines() if c != "quit"]
            session = Session(PROGRAM, str(EXAMPLES / f"{capture}.json"), 4)
            told, images, _ = session.answer([c.encode() for c in commands])
            session.close()
            lines = [text for reply in told for text in [reply["text"], *reply.get("lines", [])]]
            self.assertEqual(lines, replies(EXAMPLES / f"{capture}.json", commands))
            self.assertEqual([len(image) for image in images], [r["image"]["bytes"] for r in told if "image" in r])

    def test_a_refused_capture_and_a_lost_run(self):
        with tempfile.NamedTemporaryFile("w", suffix=".json") as file:
            file.write("[]")
            file.flush()
            session = Session(PROGRAM, file.name, 4)
            with self.assertRaisesRegex(Ended, "capture refused 3 not a capture \\(status 2\\)"):
                session.answer([b"state"])
        with Viewer(HOUSE) as viewer:
            viewer.session.run.kill()
            viewer.session.run.wait()
            self.assertEqual(viewer.request()[0], 410)
            self.assertEqual(viewer.request()[0], 410)
            self.assertEqual(viewer.request(path="/restart", body=b"")[0], 200)
            self.assertEqual(viewer.ask("goto 13")[0]["replies"], [{"text": "at 13"}])

    def test_many_pixels_at_once(self):
        with Viewer(HOUSE) as viewer:
            lines = [f"pixel {i % 96} {i // 96}" for i in range(4000)]
            told, _ = viewer.ask("goto 13", *lines, "state")
            samples, _ = image(HOUSE)
            for i, reply in enumerate(told["replies"][1:-1]):
                self.assertEqual(reply["text"], "pixel " + " ".join(map(str, samples[4 * i : 4 * i + 4])))
            self.assertTrue(told["replies"][-1]["text"].startswith("state "))

    def test_switches_are_counted(self):
        with Viewer(HOUSE) as viewer:
            counts = [
                viewer.ask(*lines)[0]["switches"]
                for lines in (["off 8"], ["off 8", "on 99", "goto 3"], ["on 8", "off 9"], ["state"])
            ]
            self.assertEqual(counts, [[1, 2], [2, 2], [2, 4], [4, 4]])
            viewer.request(path="/restart", body=b"")
            self.assertEqual(viewer.ask("state")[0]["switches"], [5, 5])


class Refusals(unittest.TestCase):
    def test_a_refused_capture_is_explained(self):
        """Before any page comes: the member, with line and column."""
        with tempfile.TemporaryDirectory() as folder:
            file = pathlib.Path(folder) / "wrong.json"
            file.write_text(
                '{"format":"framedbg","version":1,"width":4,"height":4,\n"events":[{"kind":"clear","color":[1,2,'
                '3,4]},\n  {"kind":"clear","color":[1,2,300,4]}]}\n'
            )
            run = subprocess.run(
                [VIEW, "--no-browser", "--program", PROGRAM, file], capture_output=True, text=True, timeout=30
            )
            self.assertEqual(
                (run.returncode, run.stderr),
                (
                    1,
                    "view: framedbg: capture refused 8 bad field 2 (status 2)\n"
                    "line 3, column 32: event 2 (clear), color 2: a whole number from 0 to 255 is wanted, not 300\n",
                ),
            )

    def test_what_can_not_be_served(self):
        """A line, and no traceback: a port that is another's, or none, and a capture that can't be read."""
        with socket.socket() as other, tempfile.TemporaryDirectory() as folder:
            other.bind(("127.0.0.1", 0))
            other.listen()
            number = other.getsockname()[1]
            for words, status, said in (
                ([HOUSE, "--port", str(number)], 1, f"view: port {number}: Address already in use\n"),
                ([folder], 1, f"view: {folder}/frame.json: No such file or directory\n"),
                ([f"{folder}/a\x1b[2J"], 1, f"view: {folder}/a\\x1b[2J: No such file or directory\n"),
                ([HOUSE, "--port", "70000"], 2, "a number from 0 to 65535 is wanted\n"),
                ([HOUSE, "--port", "-1"], 2, "a number from 0 to 65535 is wanted\n"),
            ):
                run = subprocess.run(
                    [VIEW, "--no-browser", "--program", PROGRAM, *words], capture_output=True, text=True, timeout=30
                )
                self.assertEqual(
                    (run.returncode, run.stdout, run.stderr[-len(said) :], "Traceback" in run.stderr),
                    (status, "", said, False),
                )


class Beside(unittest.TestCase):
    """Runs beside the page's own: they stand elsewhere, and the same events are off there."""

    def ask(self, viewer, *lines, run="end"):
        told = viewer.request(body="".join(line + "\n" for line in lines).encode(), X_Run=run)[2].partition(b"\n")[0]
        return [reply["text"] for reply in json.loads(told)["replies"]]

    def test_each_stands_where_it_stands(self):
        with Viewer(HOUSE) as viewer:
            viewer.ask("goto 4")
            self.assertEqual(self.ask(viewer, "goto 13", "pixel 50 50"), ["at 13", "pixel 125 95 55 128"])
            self.assertEqual(self.ask(viewer, "goto 10", "pixel 50 50", run="depths"), ["at 10", "pixel 60 130 60 255"])
            self.assertEqual(
                [
                    viewer.ask("events")[0]["replies"][0]["text"],
                    *self.ask(viewer, "events"),
                    *self.ask(viewer, "events", run="depths"),
                ],
                ["events 13 at 4", "events 13 at 13", "events 13 at 10"],
            )

    def test_the_last_lines_of_a_call(self):
        """The page's own run answers the first, and that at the end the others, with what the first switched off."""
        with Viewer(HOUSE) as viewer:
            body = b"goto 13\noff 8\ngoto 4\npixel 50 50\ngoto 13\npixel 50 50\n"
            told = json.loads(viewer.request(body=body, X_End="2")[2].partition(b"\n")[0])
            self.assertEqual(
                [reply["text"] for reply in told["replies"]],
                ["at 13", "at 13", "at 4", "pixel 174 205 236 255", "at 13", "pixel 190 60 50 128"],
            )
            self.assertEqual(told["switches"], [1, 2])
            self.assertEqual(
                [viewer.ask("events")[0]["replies"][0]["text"], *self.ask(viewer, "events")],
                ["events 13 at 4", "events 13 at 13"],
            )
            self.assertEqual(viewer.request(body=b"state\n", X_End="-1")[0], 400)

    def test_the_same_events_are_off(self):
        with Viewer(HOUSE) as viewer:
            self.ask(viewer, "goto 13")
            for lines in (["off 8"], ["off 10", "off 12"], ["on 8", "on 10", "off 3"], ["on 12", "on 3"]):
                own = viewer.ask("goto 13", *lines, "goto 13", "pixel 50 50", "events")[0]["replies"]
                told = json.loads(
                    viewer.request(body=b"goto 13\npixel 50 50\nevents\n", X_Run="end")[2].partition(b"\n")[0]
                )["replies"]
                self.assertEqual(told, own[-3:])
            viewer.ask("off 8")
            viewer.request(path="/restart", body=b"")
            self.assertEqual(self.ask(viewer, "goto 13", "pixel 50 50"), ["at 13", "pixel 125 95 55 128"])

    def test_the_bound_on_lines(self):
        """Before a run has no lines left another stands in its place, with the same events off."""
        with mock.patch.object(viewer_session, "MOST_LINES", 10), mock.patch.object(
            viewer_session, "BEGUN_BEFORE", 0
        ), Viewer(HOUSE) as viewer:
            viewer.ask("off 8")
            processes = set()
            for _ in range(4):
                self.assertEqual(
                    self.ask(viewer, "goto 13", *["pixel 50 50"] * 3), ["at 13", *["pixel 190 60 50 128"] * 3]
                )
                processes.add(viewer.server.runs.beside["end"].run.pid)
                self.assertLessEqual(viewer.server.runs.beside["end"].lines, 10)
            self.assertEqual(len(processes), 2)

    def test_one_that_ends_is_no_ending(self):
        """The next call has another."""
        with Viewer(HOUSE) as viewer:
            self.ask(viewer, "goto 13")
            viewer.server.runs.beside["end"].run.kill()
            self.assertEqual(viewer.request(X_Run="end")[0], 410)
            self.assertEqual(self.ask(viewer, "goto 13", "pixel 50 50"), ["at 13", "pixel 125 95 55 128"])
            self.assertEqual(viewer.request()[0], 200)

    def test_a_stop_reaches_them(self):
        with tempfile.TemporaryDirectory() as folder:
            hold, held = (pathlib.Path(folder) / name for name in ("hold", "held"))
            with Viewer(HOUSE, program_of(HOLDING, folder)) as viewer:
                hold.touch()
                found = []
                caller = threading.Thread(
                    target=lambda: found.append(viewer.request(body=b"goto 3\n", X_Run="end")), daemon=True
                )
                caller.start()
                end = time.time() + 10
                while not held.exists() and time.time() < end:
                    time.sleep(0.01)
                self.assertEqual(viewer.request(path="/stop", body=b"")[0], 200)
                caller.join(10)
                self.assertEqual((found[0][0], json.loads(found[0][2])["stopped"]), (410, True))

    def test_others_are_refused(self):
        with Viewer(HOUSE) as viewer:
            for name in ("", "main", "END", "../end"):
                self.assertEqual(viewer.request(X_Run=name)[0], 400, name)


class Stops(unittest.TestCase):
    """A run that is held in the midst of an answer."""

    def setUp(self):
        self.folder = tempfile.TemporaryDirectory()
        self.hold, self.held = (pathlib.Path(self.folder.name) / name for name in ("hold", "held"))
        self.hold.touch()
        self.session = Session(program_of(HOLDING, self.folder.name), "no capture", 1)

    def tearDown(self):
        self.within(self.session.close)
        self.folder.cleanup()

    def within(self, job, *given):
        """What a job gives or raises; it may not wait for ever."""
        done = []

        def attempt():
            try:
                done.append(job(*given))
            except Ended as ended:
                done.append(type(ended))

        thread = threading.Thread(target=attempt, daemon=True)
        thread.start()
        thread.join(20)
        self.assertTrue(done, "it waits for ever")
        return done[0]

    def in_the_midst_of(self, lines, job):
        """What a job gives while a call is answered, and what the call comes to."""
        found = []
        caller = threading.Thread(target=lambda: found.append(self.within(self.session.answer, lines)), daemon=True)
        caller.start()
        end = time.time() + 20
        while not self.held.exists() and time.time() < end:
            time.sleep(0.01)
        self.assertTrue(self.held.exists())
        given = self.within(job)
        caller.join(20)
        self.held.unlink()
        return given, found[0]

    def events(self):
        replies, *_ = self.within(self.session.answer, [b"events"])
        return [replies[0]["text"], *(line.split()[1] for line in replies[0]["lines"])]

    def test_a_stop_waits_for_nobody(self):
        self.within(self.session.answer, [b"off 2", b"off 3", b"on 2", b"goto 1"])
        _, call = self.in_the_midst_of([b"goto 3"], self.session.stop)
        self.assertEqual(call, Stopped)
        self.assertEqual(self.events(), ["events 3 at 0", "on", "on", "off"])

    def test_what_the_stopped_call_switched_is_as_it_was(self):
        self.within(self.session.answer, [b"off 3"])
        _, call = self.in_the_midst_of([b"off 1", b"on 3", b"goto 3"], self.session.stop)
        self.assertEqual((call, self.events()), (Stopped, ["events 3 at 0", "on", "on", "off"]))
        self.within(self.session.start)
        self.assertEqual(self.events(), ["events 3 at 0", "on", "on", "on"])
        self.within(self.session.stop)
        self.assertEqual(self.events(), ["events 3 at 0", "on", "on", "on"])

    def test_a_call_that_waits_finds_the_flags(self):
        """Whoever comes first after a stop finds the other run whole."""
        self.within(self.session.answer, [b"off 1"])
        others = []

        def stop():
            waiting = threading.Thread(target=lambda: others.append(self.events()), daemon=True)
            waiting.start()
            self.session.stop()
            waiting.join(20)

        self.in_the_midst_of([b"goto 3"], stop)
        self.assertEqual(others, [["events 3 at 0", "off", "on", "on"]])

    def test_the_end_waits_for_nobody(self):
        _, call = self.in_the_midst_of([b"goto 3"], self.session.close)
        self.assertEqual(call, Ended)

    def test_the_call_of_the_page(self):
        with Viewer("no capture", program_of(HOLDING, self.folder.name)) as viewer:
            answers = []
            caller = threading.Thread(target=lambda: answers.append(viewer.request(body=b"goto 3\n")), daemon=True)
            caller.start()
            while not self.held.exists() and caller.is_alive():
                time.sleep(0.01)
            self.assertEqual(viewer.request(path="/stop", body=b"")[0], 200)
            caller.join(20)
            ((status, _, told),) = answers
            self.assertEqual((status, json.loads(told)), (410, {"ended": "stopped", "stopped": True}))
            viewer.session.run.kill()
            viewer.session.run.wait()
            self.assertFalse(json.loads(viewer.request()[2])["stopped"])
            self.assertEqual(viewer.request(path="/stop", body=b"", X_Token="")[0], 403)


# A browser that tells what it was given and what it was answered, and then stays
BROWSER = """
import os, signal, sys, urllib.request
page = open(sys.argv[1].removeprefix("file://")).read().replace("\\n", " ")
with open(os.environ["TOLD"], "w") as told:
    print(os.getpid(), " ".join(sys.argv[1:]), page, sep="\\n", file=told, flush=True)
    print(urllib.request.urlopen(page.split("url=")[1].split("#")[0]).status, file=told, flush=True)
signal.pause()
"""


class AddressForTheBrowser(unittest.TestCase):
    def test_only_the_user_reads_the_file(self):
        handover = Handover("http://127.0.0.1:1/#secret")
        mode = lambda path: stat.S_IMODE(os.stat(path).st_mode)
        self.assertEqual((mode(handover.folder), mode(handover.page)), (0o700, 0o600))
        self.assertIn("url=http://127.0.0.1:1/#secret", handover.page.read_text())
        handover.close()
        self.assertFalse(handover.folder.exists())

    def opened(self, script):
        """The launcher with a browser that is a script: its first lines on both outputs, and what the browser told."""
        folder = pathlib.Path(self.folder.name)
        told, browser = folder / "told", folder / "browser"
        browser.write_text(f"#!{sys.executable}\n{script}")
        browser.chmod(0o755)
        environment = {**os.environ, "BROWSER": f"{browser} %s", "TMPDIR": str(folder), "TOLD": str(told)}
        words = [sys.executable, VIEW, "--program", program_of(HOLDING, folder), HOUSE]
        run = subprocess.Popen(words, stdout=subprocess.PIPE, stderr=subprocess.PIPE, env=environment, text=True)
        self.addCleanup(self.ended, run, told)
        return run, told

    def ended(self, run, told):
        run.terminate()
        run.wait(20)
        run.stdout.close()
        run.stderr.close()
        if told.exists():
            try:
                os.kill(int(told.read_text().split("\n")[0]), signal.SIGKILL)
            except ProcessLookupError:
                pass
        self.assertEqual(
            [p.name for p in pathlib.Path(self.folder.name).iterdir() if p.name.startswith("framedbg-view")], []
        )

    def setUp(self):
        self.folder = tempfile.TemporaryDirectory()
        self.addCleanup(self.folder.cleanup)

    def tells(self, told, lines):
        """What the browser has told, as soon as there are so many lines."""
        end = time.time() + 20
        while time.time() < end and not (told.exists() and told.read_text().count("\n") >= lines):
            time.sleep(0.02)
        return told.read_text().split("\n") if told.exists() else []

    def test_the_words_of_the_browser_have_no_token(self):
        run, told = self.opened(BROWSER)
        address = run.stdout.readline().strip()
        token = address.partition("#")[2]
        _, words, page, *_ = self.tells(told, 4)
        self.assertNotIn(token, words)
        self.assertIn(address, page)

    def test_a_browser_that_stays_in_the_foreground(self):
        """The page is served while a browser runs that Python doesn't know."""
        _, told = self.opened(BROWSER)
        self.assertEqual(self.tells(told, 4)[3:4], ["200"])

    def test_a_browser_that_does_not_come(self):
        """One that ends at once with a fault, and one that ends and never asks."""
        run, _ = self.opened("raise SystemExit(1)")
        root = " (as root most refuse to start)" if os.geteuid() == 0 else ""
        self.assertEqual(
            run.stderr.readline(), f"view: no browser could be opened{root}: open the address above in one\n"
        )
        for comes, opener, expected in (
            (False, "pass", ["no browser has come yet"]),
            (True, "pass", []),
            (False, "raise SystemExit(1)", ["no browser could be opened"]),
            (False, "import time; time.sleep(600)", ["no browser has come yet"]),
            (True, "raise SystemExit(1)", []),
        ):
            handover, trouble = Handover("http://127.0.0.1:1/#secret"), []
            if comes:
                handover.close()
            opened = subprocess.Popen([sys.executable, "-c", opener])
            if "sleep" not in opener:
                opened.wait()
            handover.watch(opened, trouble.append, 0.01)
            opened.kill()
            opened.wait()
            handover.close()
            self.assertEqual(trouble, expected)


if __name__ == "__main__":
    unittest.main()
