"""What the viewer's tests stand on: the program, captures, pictures in files, and a server for the time of a test."""
import http.client
import json
import os
import pathlib
import struct
import subprocess
import threading
import zlib

from folders import TOP

import captures
from captures import PIXEL, clear, depth, depth_clear, draw, raster, scissor
from framedbg_client import read_pam
from framedbg_client.program import tried_program
from framedbg_client.replies import lines_of
from viewer.capture import Capture
from viewer.server import Server
from viewer.session import Session

PROGRAM = tried_program()
EXAMPLES = pathlib.Path(os.environ.get("EXAMPLES", TOP / "examples")).resolve()
HOUSE = EXAMPLES / "house.json"


def vertices(*corners):
    """Corners as (x, y, colour) in pixels, or (x, y, z, colour)."""
    return [captures.vertex(x * PIXEL, y * PIXEL, colour, *z) for x, y, *z, colour in corners]


def capture_of(width, height, events, version=1):
    return json.dumps(captures.frame(width, height, events, version))


RED, GREEN, BLUE = [255, 0, 0, 255], [0, 255, 0, 0], [0, 0, 255, 128]
WINDOW = capture_of(
    64,
    48,
    [
        clear(30, 60, 90, 255),
        raster("none", scissor=True),
        scissor(8, 4, 40, 30),
        draw(vertices((0, 0, RED), (64, 0, GREEN), (0, 48, BLUE)), "linear"),
    ],
)
# A near triangle, then a farther one that fails the test where the near one is, on 8 by 8 pixels
DEPTH = capture_of(
    8,
    8,
    [
        clear(40, 40, 40, 255),
        depth(),
        draw(vertices((0, 0, 1000, RED), (8, 0, 1000, RED), (0, 8, 1000, RED))),
        draw(vertices((0, 0, 2000, BLUE), (16, 0, 2000, BLUE), (0, 16, 2000, BLUE))),
        depth(write=False, func="GREATER_EQUAL"),
        depth_clear(3000),
    ],
    2,
)
# Answers as framedbg does where memory is wanted on the way forward: it never comes past position 2
STOPPING = """#!/usr/bin/env python3
import sys
position = 0
for line in sys.stdin:
    word, *rest = line.split()
    if word == "events":
        reply = f"events 3 at {position}\\n" + "".join(f"{i} on clear 1 2 3 4\\n" for i in (1, 2, 3))
    elif word == "goto":
        wanted, position = int(rest[0]), min(int(rest[0]), 2)
        reply = f"at {position}\\n" if wanted == position else f"stopped {position}\\n"
    elif word == "show":
        reply = "pam 69\\nP7\\nWIDTH 1\\nHEIGHT 1\\nDEPTH 4\\nMAXVAL 255\\nTUPLTYPE RGB_ALPHA\\nENDHDR\\n" + chr(position) * 4
    elif word == "state":
        reply = "state cull back ccw 0 scissor 0 rect 0 0 0 0 blend 0 ONE ZERO ADD ONE ZERO ADD mask 15 factor 255 255 255 255\\n"
    else:
        print("framedbg: memory", file=sys.stderr)
        sys.exit(5)
    sys.stdout.write(reply)
    sys.stdout.flush()
"""

# Answers for three clears, and goes to no position from 2 on while the file beside it is there: then it says so in
# another file, and stays silent
HOLDING = """#!/usr/bin/env python3
import pathlib
import signal
import sys
here = pathlib.Path(__file__).parent
position, on = 0, [True] * 3
for line in sys.stdin:
    word, *rest = line.split()
    if word == "events":
        reply = f"events 3 at {position}\\n" + "".join(f"{i + 1} {'on' if on[i] else 'off'} clear 1 2 3 4\\n" for i in range(3))
    elif word in ("on", "off"):
        on[int(rest[0]) - 1] = word == "on"
        reply = f"at {position}\\n"
    elif word == "goto":
        position = int(rest[0])
        if position > 1 and (here / "hold").exists():
            (here / "held").touch()
            signal.pause()
        reply = f"at {position}\\n"
    elif word == "show":
        reply = "pam 69\\nP7\\nWIDTH 1\\nHEIGHT 1\\nDEPTH 4\\nMAXVAL 255\\nTUPLTYPE RGB_ALPHA\\nENDHDR\\n" + chr(position) * 4
    elif word == "pixel":
        reply = f"pixel {position} 2 3 4\\n"
    elif word == "history":
        reply = f"history 1\\n1 - drawn 1 2 3 4 0 0 0 0 1 2 3 4\\n"
    else:
        reply = "state cull back ccw 0 scissor 0 rect 0 0 0 0 blend 0 ONE ZERO ADD ONE ZERO ADD mask 15 factor 255 255 255 255\\n"
    sys.stdout.write(reply)
    sys.stdout.flush()
"""


def file_of(folder, text, name="capture.json"):
    """A capture as a file in a folder."""
    file = pathlib.Path(folder) / name
    file.write_text(text)
    return file


def program_of(text, folder):
    """A program in a folder that a test has for itself."""
    program = pathlib.Path(folder) / "program"
    program.write_text(text)
    program.chmod(0o755)
    return str(program)


def asked(program, capture, commands):
    return subprocess.run(
        [program, "run", str(capture)], input="".join(c + "\n" for c in commands).encode(), capture_output=True
    )


def replies(capture, commands):
    """What framedbg itself answers, images left out."""
    return lines_of(asked(PROGRAM, capture, commands).stdout)


def image(capture):
    """The samples of the last image, and the header before them."""
    pam = subprocess.run([PROGRAM, "image", str(capture)], capture_output=True, check=True).stdout
    samples = read_pam(pam).samples
    return bytearray(samples), pam.removesuffix(samples)


def png(samples, width, height):
    """A PNG of four channels that goes through the five filters, row by row."""

    def predicted(filter, a, b, c):
        near = min((abs(b - c), 0, a), (abs(a - c), 1, b), (abs(a + b - 2 * c), 2, c))[2]
        return (0, a, b, (a + b) // 2, near)[filter]

    rows, stride, at = bytearray(), 4 * width, lambda x, y: samples[y * 4 * width + x] if x >= 0 and y >= 0 else 0
    for y in range(height):
        rows.append(y % 5)
        rows += bytes(
            (at(x, y) - predicted(y % 5, at(x - 4, y), at(x, y - 1), at(x - 4, y - 1))) % 256 for x in range(stride)
        )
    chunk = lambda kind, data: struct.pack(">I", len(data)) + kind + data + struct.pack(">I", zlib.crc32(kind + data))
    packed = zlib.compress(bytes(rows))
    return (
        b"\x89PNG\r\n\x1a\n"
        + chunk(b"IHDR", struct.pack(">IIBBBBB", width, height, 8, 6, 0, 0, 0))
        + chunk(b"IDAT", packed[:100])
        + chunk(b"IDAT", packed[100:])
        + chunk(b"IEND", b"")
    )


class Viewer:
    """A server over a run, for the time of a test. A page that asks while it closes complains in one of several
    ways, so a browser leaves first."""

    def __init__(self, capture, program=PROGRAM):
        self.leave = lambda: None
        its = Capture(capture)
        self.session = Session(program, str(capture), 2, its.boxes_between if program == PROGRAM else None)
        self.server = Server(self.session, its)
        self.thread = threading.Thread(target=self.server.serve_forever, args=(0.02,))
        self.thread.start()

    def __enter__(self):
        return self

    def __exit__(self, *_):
        try:
            self.leave()
        finally:
            self.server.shutdown()
            self.server.server_close()
            self.server.runs.close()
            self.thread.join()

    def request(self, method="POST", path="/commands", body=b"state\n", more=(), **headers):
        """Status, headers and body of an answer. A header that is None isn't sent, one in `more` is sent once more."""
        connection = http.client.HTTPConnection(self.server.host, timeout=60)
        given = {"Host": self.server.host, "X-Token": self.server.token, "Content-Length": str(len(body))}
        given.update((name.replace("_", "-"), value) for name, value in headers.items())
        connection.putrequest(method, path, skip_host=True)
        for name, value in [*given.items(), *more]:
            if value is not None:
                connection.putheader(name, value)
        connection.endheaders(body)
        answer = connection.getresponse()
        text = answer.read()
        connection.close()
        return answer.status, answer.headers, text

    def ask(self, *lines, window=None):
        """The replies to some lines, by the server's call, and the images' bytes behind them."""
        given = {"X_Window": " ".join(map(str, window))} if window else {}
        told, _, images = self.request(body="".join(line + "\n" for line in lines).encode(), **given)[2].partition(
            b"\n"
        )
        return json.loads(told), images
