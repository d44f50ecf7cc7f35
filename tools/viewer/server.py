"""The page's server: static files and a few calls, for this machine's own browser alone.

It listens on 127.0.0.1 and answers what passes the doors (doors.py). Nothing of a request names a file or reaches a
shell: the page's files are read once at the start and found by exact name, and a call is a few lines for framedbg's
standard input.

    POST /commands   lines for framedbg; the answer is a line of JSON, {switches: [before, after], replies: [{text,
    lines?, left_out?, image?}]},
                     and then the bytes of the images in their order. The header X-Window, four numbers, names the
                     part of the images that is wanted, a fifth every how many pixels;
                     X-Base, the number of the image that came last, has of the next one the changed rows alone,
                     {base, bands: [[first row, rows]]};
                     X-Run, `end` or `depths`, has a run beside answer them, which stands anywhere and has the same
                     events off; X-End, a number, has `end` answer so many of the last lines
    POST /depths     six numbers: a position, left, top, every how many pixels, columns and rows; the answer is a
    depth of two bytes for each, the lower one first
    POST /triangle   an event's and a triangle's number; the answer is its three corners in pixels, as JSON
    POST /draw       an event's number; the answer is its vertices and indices as the file has them, as JSON
    POST /blame      a picture as PAM, and how far each channel may be off in X-Tolerance; the answer is a line of
    JSON, who made the image at the end of
                     the frame differ, as `framedbg-blame --json` says it, and then the samples of the picture after
                     the best change
    POST /changed    a change of an event as JSON (changed.py); the answer is a line of JSON with width and height,
    and the samples of the picture after it
    POST /changed/capture is answered with that capture
    POST /blame/stop ends that search, which is answered with {"stopped": true}
    POST /card       a capture of the page's own, for its view of the card; the answer is the number of a run of it,
    {"run": number}, in the place of the last one
    POST /card/commands lines for that run, whose number is in X-Card: answered like /commands, with images that are
    whole. /card/end ends it
    POST /restart    a new run of the same capture, after one that has ended
    POST /stop       a new run with the same events off, in the place of one that takes long: the call that it was at
    is answered with "stopped"
    POST /beside     another capture, which is shown beside from then on, its name in X-Name as JSON; or nothing, and
    there is none any more
    POST /beside/pictures is answered with lines of text as JSON: where the pictures of both first differ
    GET  /beside     what differs in both, as JSON (beside.py), or null
    GET  /capture    the capture's name, as JSON; /capture/file is its file
    GET  /frame      of a frame with more targets their tabs, and which draw here reads which, as JSON (tabs.py);
    null without
    GET  /sources    the calls of a captured program that events come from, as JSON
"""
import http.server
import json
import pathlib
import secrets
from collections.abc import Callable
from typing import Any

from captures import MOST_BYTES

from . import beside, doors
from .blame import Blame
from .capture import Capture
from .card import Card
from .changed import Changed
from .doors import Refused
from .image import Pixels
from .runs import OTHER, Runs
from .sent import Sent, whole
from .session import Ended, Session, Stopped

PAGE = pathlib.Path(__file__).parent / "page"
TYPES = {
    ".html": "text/html; charset=utf-8",
    ".css": "text/css; charset=utf-8",
    ".js": "text/javascript; charset=utf-8",
}
FILES = {
    "/" if p.name == "index.html" else f"/{p.name}": (TYPES[p.suffix], p.read_bytes())
    for p in PAGE.iterdir()
    if p.suffix in TYPES
}


class Server(http.server.ThreadingHTTPServer):
    daemon_threads = True

    tabs: dict[str, Any] | None

    def __init__(
        self, session: Session, capture: Capture, port: int = 0, on_first_call: Callable[[], None] = lambda: None
    ) -> None:
        self.card = Card(session.words[0])
        self.blame = Blame(*session.words[:2])  # which server_close() asks, also where the port isn't to be had
        super().__init__(("127.0.0.1", port), Handler)
        self.runs, self.capture, self.sent, self.on_first_call = Runs(session), capture, Sent(), on_first_call
        self.changed = Changed(*session.words[:2])
        self.tabs = None  # of a frame with more targets (tabs.py)
        self.token = secrets.token_urlsafe(32)
        self.host = f"127.0.0.1:{self.server_address[1]}"
        self.origin = f"http://{self.host}"
        self.address = f"{self.origin}/#{self.token}"  # a fragment stays in the browser, and in no log

    def server_close(self) -> None:
        super().server_close()
        self.blame.stop()
        self.card.end()

    def handle_error(self, request: Any, client_address: Any) -> None:
        pass  # a browser that went away in the middle of an answer

    def differs(self) -> dict[str, Any] | None:
        return self.runs.other.differs() if self.runs.other else None

    def called(self) -> None:
        told, self.on_first_call = self.on_first_call, lambda: None
        told()


class Handler(http.server.BaseHTTPRequestHandler):
    server: Server
    timeout = 30  # seconds for a request to arrive
    server_version, sys_version = "framedbg-view", ""

    def do_GET(self) -> None:
        self.attempt(self.get)

    def do_POST(self) -> None:
        self.attempt(self.post)

    def attempt(self, answer: Callable[[], None]) -> None:
        try:
            doors.check_caller(self.headers, self.server.host, self.server.origin)
            answer()
        except Refused as refusal:
            self.close_connection = True
            self.send(refusal.status, "text/plain; charset=utf-8", f"{refusal}\n".encode())
        except Ended as ended:
            self.send_json({"ended": str(ended), "stopped": isinstance(ended, Stopped)}, 410)

    def check_token(self) -> None:
        doors.check_token(self.headers, self.server.token)
        self.server.called()

    def get(self) -> None:
        if self.path == "/capture":
            self.check_token()
            return self.send_json({"name": self.server.capture.name})
        if self.path == "/frame":
            self.check_token()
            return self.send_json(self.server.tabs)
        if self.path == "/beside":
            self.check_token()
            return self.send_json(self.server.differs())
        if self.path == "/sources":
            self.check_token()
            return self.send_json(self.server.capture.sources())
        if self.path == "/capture/file":
            self.check_token()
            return self.send(200, "application/json", self.server.changed.file())
        if self.path not in FILES:
            raise Refused(404, "no such page")
        self.send(200, *FILES[self.path])

    def post(self) -> None:
        self.check_token()
        calls = {
            "/commands": self.commands,
            "/depths": self.depths,
            "/triangle": self.triangle,
            "/draw": self.draw,
            "/restart": self.restart,
            "/stop": self.stop,
            "/blame": self.blame,
            "/blame/stop": self.stop_blame,
            "/changed": self.changed,
            "/changed/capture": self.changed_capture,
            "/card": self.card,
            "/card/commands": self.card_commands,
            "/card/end": self.end_card,
            "/beside": self.put_beside,
            "/beside/pictures": self.pictures,
        }
        if self.path not in calls:
            raise Refused(404, "no such call")
        most = {"/blame": doors.MAX_PICTURE, "/card": doors.MAX_PICTURE, "/beside": MOST_BYTES}.get(
            self.path, doors.MAX_BODY
        )
        calls[self.path](self.rfile.read(doors.body_length(self.headers, most)))

    def commands(self, body: bytes) -> None:
        window = self.headers.get("X-Window")
        window = None if window is None else doors.numbers(window, 4, 5)
        base = doors.numbers(self.headers.get("X-Base", "0"), 1)[0]
        ending = doors.numbers(self.headers.get("X-End", "0"), 1)[0]
        run = doors.beside(self.headers)
        if run == OTHER and not self.server.runs.other:
            raise Refused(400, "no other capture")
        replies, images, switches = self.server.runs.answer(doors.commands(body), window, run, ending)
        shown = [reply for reply in replies if "image" in reply]
        sent = [(reply["image"], data) for reply, data in zip(shown, images)]
        sent = whole(sent) if run == OTHER else self.server.sent.shortened(sent, base)
        for reply, (image, _) in zip(shown, sent):
            reply["image"] = image
        told = json.dumps({"switches": switches, "replies": replies}, separators=(",", ":"))
        self.send(200, "application/octet-stream", told.encode() + b"\n", *(data for _, data in sent))

    def depths(self, body: bytes) -> None:
        position, *part = doors.numbers(body.decode("latin-1"), 6)
        if not 1 <= part[-1] * part[-2] <= doors.MAX_DEPTHS:
            raise Refused(400, f"from 1 to {doors.MAX_DEPTHS} depths are wanted")
        depths = self.server.runs.depths(position, part)
        if depths is None:
            raise Refused(400, "no such depths")
        self.send(200, "application/octet-stream", depths)

    def triangle(self, body: bytes) -> None:
        self.send_json(self.server.capture.triangle(*doors.numbers(body.decode("latin-1"), 2)))

    def draw(self, body: bytes) -> None:
        self.send_json(self.server.capture.draw(*doors.numbers(body.decode("latin-1"), 1)))

    def blame(self, picture: bytes) -> None:
        tolerance = doors.numbers(self.headers.get("X-Tolerance", "0 0 0 0"), 4)
        told, samples = self.server.blame.answer(
            picture, [min(by, 255) for by in tolerance], set(self.server.runs.session.off)
        )
        self.send(200, "application/octet-stream", json.dumps(told).encode() + b"\n", samples)

    def stop_blame(self, _: bytes) -> None:
        self.server.blame.stop()
        self.send_json({})

    def changed(self, change: bytes) -> None:
        width, height, samples = self.server.changed.picture(change, set(self.server.runs.session.off))
        self.send(
            200, "application/octet-stream", json.dumps({"width": width, "height": height}).encode() + b"\n", samples
        )

    def changed_capture(self, change: bytes) -> None:
        self.send(200, "application/json", self.server.changed.text(change, set(self.server.runs.session.off)))

    def card(self, capture: bytes) -> None:
        self.send_json({"run": self.server.card.start(capture)})

    def card_commands(self, body: bytes) -> None:
        replies, images = self.server.card.answer(
            doors.numbers(self.headers.get("X-Card", ""), 1)[0], doors.commands(body)
        )
        self.send(
            200,
            "application/octet-stream",
            json.dumps({"replies": replies}, separators=(",", ":")).encode() + b"\n",
            *images,
        )

    def end_card(self, number: bytes) -> None:
        self.server.card.end(*doors.numbers(number.decode("latin-1"), 1))
        self.send_json({})

    def put_beside(self, capture: bytes) -> None:
        runs = self.server.runs
        runs.put_beside(beside.sent(runs.session.words, capture, doors.name(self.headers)) if capture else None)
        self.send_json(self.server.differs())

    def pictures(self, _: bytes) -> None:
        if not self.server.runs.other:
            raise Refused(400, "no other capture")
        self.send_json(self.server.runs.other.pictures())

    def restart(self, _: bytes) -> None:
        self.server.runs.start()
        self.send_json({})

    def stop(self, _: bytes) -> None:
        self.server.runs.stop()
        self.send_json({})

    def send_json(self, told: Any, status: int = 200) -> None:
        self.send(status, "application/json", json.dumps(told).encode())

    def send(self, status: int, kind: str, *pieces: Pixels) -> None:
        self.send_response(status)
        self.send_header("Content-Type", kind)
        self.send_header("Content-Length", str(sum(map(len, pieces))))
        for name, value in doors.HEADERS.items():
            self.send_header(name, value)
        self.end_headers()
        for piece in pieces:
            self.wfile.write(piece)

    def log_message(self, *_: object) -> None:
        pass
