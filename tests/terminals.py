"""What framedbg tells somebody at a terminal: that it waits, that an image's bytes follow, how far a long move has
come, and nothing else."""
import concurrent.futures
import os
import pty
import re
import select
import shutil
import subprocess
import termios
import time

import passed_over
from captures import PIXEL, compact, draw, frame, raster, vertex

HEAD = b"P7\nWIDTH 1\nHEIGHT 1\nDEPTH 4\nMAXVAL 255\nTUPLTYPE RGB_ALPHA\nENDHDR\n"
SHOWN = b"\x0a\x14\x1e\x28"
WAITS, SPILLS = (
    rb"framedbg: waiting for commands[^\n]+\n",
    rb"framedbg: the bytes of an image go to this terminal[^\n]+\n",
)
ERASED = b"\r\x1b[K"
# draws from corner to corner of the target, each as thin as can be: a move over them takes several parts, by their
# boxes, and what they draw looks as before
EVENTS = 400
THIN = draw([vertex(x * PIXEL, y * PIXEL, (0, 0, 0, 0)) for x, y in ((0, 0), (2048, 2047), (2048, 2048))])
LONG = compact(frame(2048, 2048, [raster("none")] + [THIN] * (EVENTS - 1), version=1)).encode()
SECONDS = 60


def terminal():
    """Both ends of a terminal that shows no word that is typed."""
    ours, theirs = pty.openpty()
    settings = termios.tcgetattr(theirs)
    settings[3] &= ~termios.ECHO
    termios.tcsetattr(theirs, termios.TCSANOW, settings)
    return ours, theirs


def shown(ours):
    """What a run over the commands up to `quit` wrote to a terminal."""
    seen = b""
    while not seen.endswith(b"bye\r\n") and select.select([ours], [], [], 10)[0]:
        seen += os.read(ours, 4096)
    return seen.replace(b"\r\n", b"\n")


def read_to_end(ours):
    """What comes to a terminal until nobody else has it open."""
    text = b""
    try:
        while part := os.read(ours, 65536):
            text += part
    except OSError:  # so Linux says that the other end is closed
        pass
    return text


def told(check, words, given=b""):
    """A run whose standard error alone is a terminal, with its standard output, and what it wrote to the terminal."""
    ours, theirs = terminal()
    with concurrent.futures.ThreadPoolExecutor(1) as reader:
        ran = subprocess.Popen(
            [check.program, *words], cwd=check.room, stdin=subprocess.PIPE, stdout=subprocess.PIPE, stderr=theirs
        )
        os.close(theirs)
        text = reader.submit(read_to_end, ours)
        try:
            out, _ = ran.communicate(given, timeout=SECONDS)
        finally:
            ran.kill()
            ran.wait()
    os.close(ours)
    return ran.returncode, out, text.result()


def check_typing(check):
    """Typed at a terminal, a run says on standard error what it waits for, and where replies go to a terminal,
    before each image that its bytes follow."""
    ours, theirs = terminal()
    words, how = [check.program, "run", "a.json"], {"cwd": check.room, "timeout": SECONDS, "check": False}
    os.write(ours, b"step\nshow\nquit\n")
    ran = subprocess.run(words, stdin=theirs, capture_output=True, **how)
    check.expect(
        ran.returncode == 0 and ran.stdout.startswith(b"at 1\npam ") and re.fullmatch(WAITS, ran.stderr),
        f"at a terminal: {ran}",
    )
    os.write(ours, b"step\nquit\n")
    ran = subprocess.run(words, stdin=theirs, stdout=theirs, stderr=subprocess.PIPE, **how)
    check.expect(ran.returncode == 0 and re.fullmatch(WAITS, ran.stderr), f"at a terminal on both sides: {ran}")
    shown(ours)
    ran = subprocess.run(words, input=b"show\nstep\nshow\nquit\n", stdout=theirs, stderr=theirs, **how)
    seen = re.sub(SPILLS, b"spills\n", shown(ours))
    wanted = b"spills\npam 69\n" + HEAD + bytes(4) + b"at 1\nspills\npam 69\n" + HEAD + SHOWN + b"bye\n"
    check.expect((ran.returncode, seen) == (0, wanted), f"images at a terminal: {ran}, {seen}")
    ran = subprocess.run([check.program, "image", "a.json"], stdout=theirs, stderr=subprocess.PIPE, **how)
    check.expect(ran.returncode == 0 and re.fullmatch(SPILLS, ran.stderr), f"an image alone at a terminal: {ran}")
    os.close(ours)
    os.close(theirs)


def check_files(check):
    """An image that goes to a file or a pipe is not told of at a terminal on standard error."""
    for words, given, out in (["image", "a.json"], b"", HEAD + SHOWN), (
        ["run", "a.json"],
        b"step\nshow\nquit\n",
        b"at 1\npam 69\n" + HEAD + SHOWN + b"bye\n",
    ):
        found = told(check, words, given)
        check.expect(found == (0, out, b""), f"{words} into a pipe, with a terminal for errors: {found}")


def check_progress(check):
    """A long move tells a terminal on standard error how far it has come, and takes that away before it replies,
    once; no other file is told."""
    (check.room / "long.json").write_bytes(LONG)
    black = HEAD.replace(b"1\n", b"2048\n", 2) + bytes(4 * 2048 * 2048)
    runs = [
        (
            ["run", "long.json"],
            b"goto %d\ngoto 5\npixel 0 0\nquit\n" % EVENTS,
            b"at %d\nat 5\npixel 0 0 0 0\nbye\n" % EVENTS,
        ),
        (["image", "long.json"], b"", black),
    ]
    for words, given, out in runs:
        status, replies, text = told(check, words, given)
        check.expect((status, replies) == (0, out), f"{words} with a long move: status {status}, {replies[:80]}")
        check.expect(
            re.fullmatch(rb"(\rframedbg: at \d+ of %d)+" % EVENTS + re.escape(ERASED), text),
            f"{words} tells the terminal {text[-120:]}",
        )
        at = [int(number) for number in re.findall(rb"at (\d+) of", text)]
        rises = at == sorted(set(at)) and all(0 < number < EVENTS for number in at)
        check.expect(
            rises and len(at) >= 3 and EVENTS // 2 <= at[-1], f"{words} tells the terminal of the positions {at}"
        )
        check.ends(words, 0, out, b"", given=given)


def has_screen():
    return shutil.which("tmux") is not None


def check_screen(check):
    """After a long move a terminal shows the commands and the replies alone: tmux is one that draws what it is told."""
    if not has_screen():
        passed_over.note("check_program, what a screen shows", "tmux isn't installed")
        return
    (check.room / "long.json").write_bytes(LONG)
    asked = {f"goto {EVENTS}": f"at {EVENTS}", "pixel 0 0": "pixel 0 0 0 0", "quit": "bye"}
    tmux = ["tmux", "-f", os.devnull, "-S", check.room / "screen"]
    subprocess.run(
        [*tmux, "new-session", "-d", "-x", "120", "-y", "20", "./framedbg run long.json; exec sleep 600"],
        cwd=check.room,
        check=True,
    )
    try:
        for command, reply in asked.items():
            subprocess.run([*tmux, "send-keys", command, "Enter"], check=True)
            lines = until(lambda: screen(tmux), lambda lines, reply=reply: any(line.endswith(reply) for line in lines))
    finally:
        subprocess.run([*tmux, "kill-server"], check=False)
    check.expect(lines == [line for both in asked.items() for line in both], f"the screen shows {lines}")


def screen(tmux):
    """The lines that a screen shows, but for those that say that a run waits."""
    lines = subprocess.run(
        [*tmux, "capture-pane", "-p"], capture_output=True, text=True, check=True
    ).stdout.splitlines()
    return [line for line in lines if line and not line.startswith("framedbg: waiting for commands")]


def until(look, is_so):
    end = time.monotonic() + SECONDS
    while not is_so(found := look()) and time.monotonic() < end:
        time.sleep(0.05)
    return found
