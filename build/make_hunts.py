#!/usr/bin/env python3
"""make_hunts: writes examples/hunts/: captures with a planted bug and mended, the sessions that find the bugs, and
the images, and by reference.py what each session must be answered with.

Run it at the repository's root, after make_examples.py, whose list of sessions it adds its own to. Nothing of the
program's own output goes into these files. The images take some minutes: reference.py works pixel by pixel.
"""
import argparse
import concurrent.futures
import pathlib
import subprocess
import sys

import folders

from captures import FARTHEST, head, text
from hunts.frames import FRAMES
from hunts.stage import HEIGHT, WIDTH

EXAMPLES = pathlib.Path("examples")
HUNTS = EXAMPLES / "hunts"
PROCESSES = 2


def write_capture(name, frame):
    for event in frame.events:
        for corner in event.get("vertices", []) if frame.version > 1 else []:
            corner.setdefault("z", FARTHEST)
    (HUNTS / f"{name}.json").write_text(text({**head(WIDTH, HEIGHT, frame.version), "events": frame.events}))


def write_session(name, lines, frame):
    places = {
        "end": len(frame.events),
        **frame.labels,
        **{f"before {label}": at - 1 for label, at in frame.labels.items()},
    }
    lines = [line.replace("{", "\0{").replace("}", "}\0") for line in lines]
    words = [
        "".join(str(places[part[1:-1]]) if part[:1] == "{" else part for part in line.split("\0")) for line in lines
    ]
    (HUNTS / f"{name}.session").write_text("".join(line + "\n" for line in [*words, "quit"]))


def write_frame(make):
    """The files of a frame; its sessions as (session, capture)."""
    wrong, mended = make(True), make(False)
    name = wrong.name
    write_capture(name, wrong)
    write_capture(f"{name}_mended", mended)
    write_session(f"{name}_find", wrong.session, wrong)
    write_session(f"{name}_show", ["goto {end}", "show"], wrong)
    write_session(f"{name}_mended_show", ["goto {end}", "show"], mended)
    return [(f"{name}_find", name), (f"{name}_show", name), (f"{name}_mended_show", f"{name}_mended")]


def answer(session, capture):
    with open(HUNTS / f"{session}.session", "rb") as lines, open(HUNTS / f"{session}.expected", "wb") as expected:
        subprocess.run(
            [sys.executable, "build/reference.py", HUNTS / f"{capture}.json"], stdin=lines, stdout=expected, check=True
        )


def add_to_list(path, lines):
    """Puts the hunts' lines behind the others."""
    kept = [line for line in path.read_text().splitlines() if not line.startswith("hunts/")]
    path.write_text("".join(line + "\n" for line in [*kept, *lines]))


def words():
    parser = argparse.ArgumentParser(description=__doc__, formatter_class=argparse.RawDescriptionHelpFormatter)
    parser.add_argument("names", metavar="NAME", nargs="*", help="a frame whose sessions alone are answered anew")
    parser.add_argument("--lists", action="store_true", help="answers no session anew, and writes the lists alone")
    return parser.parse_args()


def main():
    asked = words()
    HUNTS.mkdir(exist_ok=True)
    made = [(make.__name__, write_frame(make)) for make in FRAMES]
    with concurrent.futures.ThreadPoolExecutor(PROCESSES) as pool:
        jobs = [
            pool.submit(answer, *session)
            for name, some in made
            for session in some
            if not asked.lists and (not asked.names or name in asked.names)
        ]
        for job in jobs:
            job.result()
    sessions = [session for _, some in made for session in some]
    add_to_list(EXAMPLES / "sessions.txt", [f"hunts/{session} hunts/{capture}" for session, capture in sessions])
    add_to_list(
        pathlib.Path("crates/worked_sessions/stdout"), [f"hunts/{session}: as expected" for session, _ in sessions]
    )


if __name__ == "__main__":
    main()
