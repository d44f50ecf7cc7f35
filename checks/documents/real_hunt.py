"""real_hunt: the hunt of docs/REAL_FRAMES.md, command by command, and the frames of examples/real/.

Each session that the page shows is replayed by build/reference.py, and each other command that is shown with its
output is run. With --built the sessions are replayed by the program. checks/check_frames runs the commands that take
a frame anew.
"""
import re
import subprocess

from folders import TOP

import reference
from wrong_versions import exchanged
from . import Found

PAGE, FRAMES = TOP / "docs/REAL_FRAMES.md", TOP / "examples/real"
BLOCK = re.compile(r"^```\n\$ ([^\n]*)\n(.*?)^```$", re.M | re.S)
SESSION = re.compile(r"framedbg run (examples/real/\w+\.json)")
PICTURE = re.compile(r"\]\((images/[^)]+)\)")
MOST = 400_000  # bytes of a frame


def sessions(page):
    """Each session that the page shows: its first line, its capture, and the lines below."""
    for head, body in BLOCK.findall(page):
        capture = SESSION.fullmatch(head)
        if capture:
            yield head, TOP / capture[1], body.splitlines()


def commands(page):
    """Each other command with the lines that it prints."""
    return [(head, body.splitlines()) for head, body in BLOCK.findall(page) if not SESSION.fullmatch(head)]


def told_apart(capture, lines):
    """The commands of a session that is shown, its replies, and what of these the reference replies otherwise, or
    None."""
    frame = reference.Frame(reference.json_of(capture.read_bytes()))
    asked, replies, rest = [], [], list(lines)
    while rest:
        asked.append(rest.pop(0))
        for reply in reference.reply(frame, asked[-1].encode()).decode().splitlines():
            replies.append(shown := rest.pop(0) if rest else "")
            if shown != reply:
                return asked, replies, f"after {asked[-1]!r} it shows {shown!r}, and the reply is {reply!r}"
    return asked, replies, None


def command_fault(line, shown):
    """What differs of what a command prints, or None."""
    told = subprocess.run(
        ["bash", "-euo", "pipefail", "-c", line],
        cwd=TOP,
        stdin=subprocess.DEVNULL,
        capture_output=True,
        text=True,
        timeout=100,
        check=False,
    )
    return (
        None
        if told.returncode == 0 and told.stdout.splitlines() == shown
        else f"it prints {told.stdout[:300]!r} {told.stderr[:300]!r}"
    )


def frame_fault(data):
    """What is wrong with a frame's bytes, or None."""
    fault = reference.fault(data)
    if fault or len(data) > MOST:
        return f"{len(data)} bytes, {fault}"
    lacking = [
        number
        for number, event in enumerate(reference.json_of(data)["events"], 1)
        if "event" not in event.get("source", {})
    ]
    return f"event {lacking[0]} has no source" if lacking else None


def faults(page, frames):
    """What is wrong with a page and with frames, their bytes by name, a line each."""
    found = [(head, told_apart(capture, lines)[2]) for head, capture, lines in sessions(page)]
    found += [(line, command_fault(line, shown)) for line, shown in commands(page)]
    found += [
        (image, None if (PAGE.parent / image).exists() else "there is no such picture")
        for image in PICTURE.findall(page)
    ]
    yield from (f"docs/REAL_FRAMES.md: {what}: {why}" for what, why in found if why)
    yield from (f"examples/real/{name}: {why}" for name, data in frames.items() if (why := frame_fault(data)))
    if not any(sessions(page)) or not commands(page) or not frames:
        yield "docs/REAL_FRAMES.md has no session, no command or no frame"


def frames():
    return {path.name: path.read_bytes() for path in sorted(FRAMES.glob("*.json"))}


WRONG = {  # a text of the page, and what stands there instead
    "another reply": ("pixel 250 135 175 255 65535", "pixel 250 135 175 254 65535"),
    "a reply left out": ("1 - drawn 0 0 0 0 0 0 0 0 0 0 0 0 0 65535 65535\n", ""),
    "a command that prints otherwise": ("{'event': 431, ", "{'event': 432, "),
    "a command that fails": ('$ grep -rn "255, 0, 90"', '$ grep -rnx "255, 0, 90"'),
    "a picture that isn't there": ("](images/", "](images/no_such_"),
}


def is_seen(page, some, of):
    """Whether what is wrong is told: a line on the page, or on the frame of this name."""
    return any(of in line for line in faults(page, some))


def wrong_versions():
    page, plain = PAGE.read_text(), "no document"
    name, data = next(iter(frames().items()))
    return {
        **{
            what: lambda change=change: is_seen(exchanged(page, *change), {name: data}, "REAL_FRAMES")
            for what, change in WRONG.items()
        },
        "a page without a session": lambda: is_seen(plain, {name: data}, "no session"),
        "no frame": lambda: is_seen(plain, {}, "no frame"),
        "a frame that is none": lambda: frame_fault(data[1:]),
        "a frame that is too large": lambda: frame_fault(data + b" " * MOST),
        "an event without a source": lambda: frame_fault(data.replace(b'"source"', b'"sauce"', 1)),
    }


def found():
    page, some = PAGE.read_text(), frames()
    about = (
        f"{len(list(sessions(page)))} sessions replayed by the reference, {len(commands(page))} commands run, "
        f"{len(some)} frames"
    )
    return Found(about, list(faults(page, some)))


def by_program(program):
    """What the built program replies otherwise than the page shows, a line each."""
    for head, capture, lines in sessions(PAGE.read_text()):
        asked, replies, _ = told_apart(capture, lines)
        told = subprocess.run(
            [program, "run", capture],
            input="".join(line + "\n" for line in asked),
            capture_output=True,
            text=True,
            timeout=300,
            check=False,
        )
        if told.stdout.splitlines() != replies:
            yield f"docs/REAL_FRAMES.md: {head}: the program replies {told.stdout[:300]!r}"
