"""What the tests of fdb and of the client stand on: the program, one that stands in for it, and a terminal."""
import codecs
import fcntl
import io
import json
import os
import pathlib
import pty
import re
import select
import signal
import struct
import subprocess
import sys
import tempfile
import termios
import time
import unittest
from unittest import mock

from folders import TOOLS, TOP as ROOT

import debugger.batch
from debugger import command_line
from framedbg_client.program import tried_program

EXAMPLES = ROOT / "examples"
HUNTS = EXAMPLES / "hunts"
HOUSE = EXAMPLES / "house.json"
PROGRAM = tried_program()
FDB = TOOLS / "fdb"
PATIENCE = int(os.environ.get("FDB_PATIENCE", "60"))  # seconds for what must come
ESCAPES = re.compile(r"\x1b\[[0-9;?]*[A-Za-z]|\x01|\x02")
PROMPT_SHOWN = re.compile(r"(?:\x1b\[1m\(\d+/\d+\) \x1b\[0m|(?<!m)\(\d+/\d+\) )$")

# Two clears of a target of 4 by 2, and between them a draw that colours two of its pixels; the third clear has the
# second one's colour
STEPS = {
    "format": "framedbg",
    "version": 1,
    "width": 4,
    "height": 2,
    "events": [
        {"kind": "clear", "color": [10, 20, 30, 40]},
        {"kind": "raster", "cull": "none", "front_ccw": False, "scissor": False},
        {
            "kind": "draw",
            "interp": "flat",
            "vertices": [
                {"x": x << 16, "y": y << 16, "color": [200, 100, 50, 255]}
                for x, y in ((0, 0), (2, 0), (0, 1), (2, 0), (2, 1), (0, 1))
            ],
        },
        {"kind": "clear", "color": [1, 2, 3, 4]},
        {"kind": "marker", "name": "again"},
        {"kind": "clear", "color": [1, 2, 3, 4]},
    ],
}

# Answers as framedbg does over three clears of one pixel, by a rule of its own: in its words stand the command that it
# never answers, as long as
# the file isn't there (which it makes), the command that it ends at, and the command that finds no memory past position
# 2
STANDING_IN = (
    f"#!{sys.executable} -SE"
    + """
import os, sys
position, off = 0, set()
for line in sys.stdin:
    line = line.strip()
    word, *rest = line.split()
    if line == os.environ.get("HANG") and not os.path.exists(os.environ["HUNG"]):
        open(os.environ["HUNG"], "w").close()
        sys.stdin.read()         # until its client has ended
        sys.exit()
    if line == os.environ.get("END"):
        print("framedbg: memory", file=sys.stderr)
        sys.exit(5)
    with open(os.environ["ASKED"], "a") as asked:
        asked.write(line + "\\n")
    if word == "events":
        reply = f"events 3 at {position}\\n" + "".join(f"{i} {'off' if i in off else 'on'} clear {i} 2 3 4\\n" for i in (1, 2, 3))
    elif word in ("goto", "step", "back"):
        wanted = {"step": position + 1, "back": position - 1}.get(word) if word != "goto" else int(rest[0])
        position = min(wanted, int(os.environ.get("MOST", "3")))
        reply = f"at {position}\\n" if wanted == position else f"stopped {position}\\n"
    elif word in ("on", "off"):
        (off.add if word == "off" else off.discard)(int(rest[0]))
        reply = f"at {position}\\n"
    elif word == "show":
        reply = "pam 69\\nP7\\nWIDTH 1\\nHEIGHT 1\\nDEPTH 4\\nMAXVAL 255\\nTUPLTYPE RGB_ALPHA\\nENDHDR\\n" + chr(position) * 4
    elif word == "pixel":
        reply = f"pixel {position} 2 3 4\\n"
    elif word == "state":
        reply = "state cull back ccw 0 scissor 0 rect 0 0 0 0 blend 0 ONE ZERO ADD ONE ZERO ADD mask 15 factor 255 255 255 255\\n"
    else:
        reply = "bad 1 unknown command\\n"
    sys.stdout.write(reply)
    sys.stdout.flush()
"""
)


def stand_in(folder):
    path = pathlib.Path(folder) / "standing_in"
    path.write_text(STANDING_IN)
    path.chmod(0o755)
    return path


def batch(capture, lines, *words, program=PROGRAM, **environment):
    """What a run without a prompt told, in this process: (status, lines, standard error)."""
    given = io.TextIOWrapper(io.BytesIO("".join(line + "\n" for line in lines).encode()))
    told, errors = io.TextIOWrapper(io.BytesIO(), "utf-8"), io.StringIO()
    with mock.patch.multiple(sys, stdin=given, stdout=told, stderr=errors), mock.patch.dict(os.environ, environment):
        status = debugger.batch.run(command_line.words([str(capture), "--batch", "--program", str(program), *words]))
    told.flush()
    return status, told.buffer.getvalue().decode().split("\n")[:-1], errors.getvalue()


def launched(*words, given=b"", **how):
    """What fdb did as a program of its own: (status, standard output, standard error)."""
    ran = subprocess.run(
        [sys.executable, FDB, *map(str, words)], input=given, capture_output=True, timeout=60, check=False, **how
    )
    return ran.returncode, ran.stdout.decode(), ran.stderr.decode()


class Terminal:
    """fdb at a terminal of a given size: it is typed to, and what it shows is read."""

    def __init__(self, capture, *words, program=PROGRAM, size=(24, 80), folder=None, cwd=None, **environment):
        self.room = tempfile.TemporaryDirectory()
        self.ours, theirs = pty.openpty()
        self.resize(*size, tell=False)
        given = {
            name: value
            for name, value in os.environ.items()
            if name not in ("NO_COLOR", "TMUX", "STY", "KITTY_WINDOW_ID", "TERM_PROGRAM", "COLUMNS", "LINES")
        }
        given |= {
            "TERM": "xterm-256color",
            "LC_ALL": "C.UTF-8",
            "FDB_HISTORY": str(pathlib.Path(folder or self.room.name) / "history"),
            "INPUTRC": os.devnull,
            "HOME": self.room.name,
        } | environment
        words = [sys.executable, FDB, str(capture), "--program", str(program), *words]
        self.run = subprocess.Popen(
            words,
            stdin=theirs,
            stdout=theirs,
            stderr=theirs,
            env=given,
            preexec_fn=own_terminal,
            close_fds=True,
            cwd=cwd,
        )
        os.close(theirs)
        self.shown, self.decoder = "", codecs.getincrementaldecoder("utf-8")("replace")

    def __enter__(self):
        return self

    def __exit__(self, *_):
        if self.run.poll() is None:
            os.killpg(self.run.pid, signal.SIGKILL)
        self.run.wait()
        os.close(self.ours)
        self.room.cleanup()

    def resize(self, rows, columns, tell=True):
        fcntl.ioctl(self.ours, termios.TIOCSWINSZ, struct.pack("HHHH", rows, columns, 0, 0))
        if tell:
            os.killpg(self.run.pid, signal.SIGWINCH)

    def type(self, text):
        os.write(self.ours, text.encode())

    def until(self, wanted, patience=PATIENCE):
        """All that is shown up to a text or a pattern, and taken away from what is looked at next."""
        pattern, end = (
            wanted if hasattr(wanted, "search") else re.compile(re.escape(wanted)),
            time.monotonic() + patience,
        )
        while not (found := pattern.search(self.shown)):
            left = end - time.monotonic()
            if left <= 0 or not select.select([self.ours], [], [], left)[0]:
                raise AssertionError(f"{pattern.pattern!r} wasn't shown, but {self.shown!r}")
            try:
                self.shown += self.decoder.decode(os.read(self.ours, 65536))
            except OSError:
                raise AssertionError(f"{pattern.pattern!r} wasn't shown before the end, but {self.shown!r}") from None
        told, self.shown = self.shown[: found.end()], self.shown[found.end() :]
        return told

    def interrupt(self):
        """Ctrl-C at the prompt, until there is another one: Python may be about to wait for a key, and not see the
        first."""
        end = time.monotonic() + PATIENCE
        while time.monotonic() < end:
            self.type("\x03")
            try:
                return self.until(PROMPT_SHOWN, 3)
            except AssertionError:
                pass
        raise AssertionError("no prompt after Ctrl-C")

    def ask(self, line):
        """What comes between a typed line and the next prompt, as lines, with their colours."""
        self.type(line + "\n")
        self.until("\n")  # the line itself, as it was typed
        told = self.until(PROMPT_SHOWN)
        return told.replace("\r", "").split("\n")[:-1]

    def prompt(self):
        return ESCAPES.sub("", self.until(PROMPT_SHOWN)).split("\n")[-1].strip("\r")

    def ended(self):
        """The status, once it has ended."""
        end = time.monotonic() + PATIENCE
        while self.run.poll() is None and time.monotonic() < end:
            if select.select([self.ours], [], [], 0.02)[0]:
                try:
                    self.shown += self.decoder.decode(os.read(self.ours, 65536))
                except OSError:
                    break
        return self.run.wait(PATIENCE)


def own_terminal():
    """A session of its own, whose terminal standard input is."""
    os.setsid()
    fcntl.ioctl(0, termios.TIOCSCTTY, 0)


def plain(lines):
    """Without colours, and with one space for several."""
    return [re.sub(" +", " ", ESCAPES.sub("", line)).strip() for line in lines]


class Folder(unittest.TestCase):
    """Tests that want files."""

    def setUp(self):
        temporary = tempfile.TemporaryDirectory()
        self.addCleanup(temporary.cleanup)
        self.folder = pathlib.Path(temporary.name)

    def written(self, name, text):
        path = self.folder / name
        path.write_text(text)
        return path

    def steps(self):
        return self.written("steps.json", json.dumps(STEPS))

    def told(self, lines, *words, capture=None, **how):
        """The lines that a run which ends well tells."""
        status, lines, errors = batch(capture or self.steps(), lines, *words, **how)
        self.assertEqual((status, errors), (0, ""), lines)
        return lines


def cells(line):
    """The two colours of each half block of a line."""
    found, style = [], None
    for escape, block in re.findall(r"\x1b\[([0-9;]*)m|(▀)", line):
        if block:
            found.append(style)
        elif escape != "0":
            numbers = list(map(int, escape.split(";")))
            style = tuple(numbers[2:5]), tuple(numbers[7:10]) if numbers[5] == 48 else None
    return found


def unsixeled(text):
    """The colours of a sixel picture in hundredths, by the protocol."""
    head, wide, high, body = re.fullmatch(r'\x1bP(q)"1;1;(\d+);(\d+)(.*)\x1b\\', text, re.S).groups()
    colours = {
        int(number): tuple(map(int, rest.split(";"))) for number, rest in re.findall(r"#(\d+);2;(\d+;\d+;\d+)", body)
    }
    rows = [[None] * int(wide) for _ in range(int(high))]
    x = top = 0
    for number, new, count, letter, control in re.findall(r"#(\d+)(;[\d;]+)?|(?:!(\d+))?([?-~])|([$-])", body):
        if number:
            colour = colours[int(number)]
        elif letter:
            for _ in range(int(count or 1)):
                for bit in range(6):
                    if ord(letter) - 63 >> bit & 1:
                        rows[top + bit][x] = colour
                x += 1
        else:
            x, top = 0, top + 6 * (control == "-")
    return rows
