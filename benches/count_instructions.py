#!/usr/bin/env python3
"""count_instructions: how many instructions the program takes, counted by valgrind, which nothing else on the machine changes.

    benches/count_instructions.py [--beside PROGRAM] [SCENE ..]

Each scene is a capture and two runs by one worker: one without what is counted, as reading the capture, and one with
it. Where reading is counted, the one without it reads a capture of half the events. The difference is printed, and how
much of it falls on a pixel, a triangle or a draw. With --beside another program is counted too, and its count to this
one's. FRAMEDBG names another program than the one that was built.
"""
import argparse
import base64
import os
import pathlib
import re
import signal
import subprocess
import tempfile
from dataclasses import dataclass
from functools import partial

import folders

import captures
import scenes
from framedbg_client.program import BUILT

COLLECTED = re.compile(r"Collected : (\d+)")
SECONDS = 600


@dataclass(frozen=True)
class Scene:
    """A capture, the commands that are counted behind those that aren't, and how many of a unit they draw; where
    reading is counted, also the capture that is read without what is counted."""

    capture: bytes
    commands: str
    unit: str
    count: int
    before: str = ""
    half: bytes | None = None
    # whether the run is stopped behind its last reply, and gives no memory back at an end of its own
    is_stopped: bool = False


def to_the_end(capture, unit, count):
    events = capture.count(b'"kind"')
    return Scene(capture, f"goto {events}\n", unit, count)


def to_the_start(capture, tiles):
    """A move from the end back to the start, of so many tiles."""
    events = capture.count(b'"kind"')
    return Scene(capture, "goto 0\n", "tile", tiles, f"goto {events}\n", is_stopped=True)


def once_more(capture, unit, count):
    """The same way to the end a second time."""
    events = capture.count(b'"kind"')
    return Scene(capture, f"goto {events}\n", unit, count, f"goto {events}\ngoto 0\n", is_stopped=True)


def picture(side, colour):
    """A picture of one colour."""
    texels = bytes(colour) * (side * side)
    return {"left": 0, "top": 0, "width": side, "height": side, "texels": base64.b64encode(texels).decode()}


def squares(side, count, are_pictures):
    """Blended squares over one another, each in two triangles: pictures, or flat ones of the same colours."""
    draws = []
    for number in range(count):
        colour = [(40 * number) % 256, 128, (90 * number) % 256, 128]
        corners = [(0, 0), (side, 0), (0, side), (side, 0), (side, side), (0, side)]
        draw = captures.draw([captures.vertex(x * captures.PIXEL, y * captures.PIXEL, colour, 0) for x, y in corners])
        if are_pictures:
            draw = {**draw, "interp": "picture", "picture": picture(side, colour)}
        draws.append(captures.compact(draw))
    return scenes.frame(side, side, [scenes.BLENDED, *draws], 3)


def small_pictures(side, count):
    """Draws of a triangle over the whole target, of which a small picture lies in the first tile."""
    corners = [(0, 0), (2 * side, 0), (0, 2 * side)]
    vertices = [captures.vertex(x * captures.PIXEL, y * captures.PIXEL, [9, 9, 9, 9], 0) for x, y in corners]
    draw = {**captures.draw(vertices), "interp": "picture", "picture": picture(8, [9, 9, 9, 9])}
    return scenes.frame(side, side, [captures.compact(draw)] * count, 3)


def undrawn(side, count, states, version=1):
    """Draws of a triangle over the whole target that the states before them let draw nothing."""
    corners = [(0, 0), (2 * side, 0), (0, 2 * side)]
    depth = None if version == 1 else 0
    vertices = [captures.vertex(x * captures.PIXEL, y * captures.PIXEL, [9, 9, 9, 9], depth) for x, y in corners]
    events = [*map(captures.compact, states), *[captures.compact(captures.draw(vertices))] * count]
    return scenes.frame(side, side, events, version)


def clear_of_what_was_drawn(side):
    """A clear where all pixels differ from their neighbours."""
    drawn = scenes.large(side, side, 1, "linear").draws(1)
    events = [scenes.BLENDED, *drawn, captures.compact(captures.clear(1, 2, 3, 4))]
    return Scene(scenes.frame(side, side, events), "step\n", "pixel", side * side, "goto 2\n")


def small_draw():
    """Eight pixels in the first tile, in two triangles."""
    corners = [(1, 1), (5, 1), (1, 3), (5, 1), (5, 3), (1, 3)]
    return captures.draw([captures.vertex(x * captures.PIXEL, y * captures.PIXEL, [9, 9, 9, 9]) for x, y in corners])


def over_one_event(command, event, side):
    """A step, or a step back, from between nine events that are alike."""
    return Scene(scenes.frame(side, side, [event] * 9), f"{command}\n", command, 1, "goto 4\n")


def reading(kind, event, count=1000):
    """So many events that are alike, and so many more that are counted."""
    return Scene(
        scenes.frame(64, 64, [event] * (2 * count)), "", kind, count, half=scenes.frame(64, 64, [event] * count)
    )


SMALL_EVENTS = {
    "marker": scenes.MARKER,
    "state": captures.compact(captures.factor(1, 2, 3, 4)),
    "small_draw": captures.compact(small_draw()),
}
READ = {
    "marker": scenes.MARKER,
    "clear": captures.compact(captures.clear(1, 2, 3, 4)),
    "blend": scenes.BLENDED,
    "triangle": captures.compact(captures.draw(small_draw()["vertices"][:3])),
}
STEPS = {
    f"{command}_{name}_{side}": partial(over_one_event, command, event, side)
    for command in ("step", "back")
    for name, event in SMALL_EVENTS.items()
    for side in (64, 2048, 16384)
}
CULLED = [captures.raster("front")]
SHUT = [captures.raster("none", scissor=True), captures.scissor(9, 9, 9, 9)]
NEVER = [captures.depth(True, True, "NEVER")]
SCENES = {
    "flat": lambda: to_the_end(scenes.large(512, 512, 10).capture(), "pixel", 10 * 512 * 512),
    "linear": lambda: to_the_end(scenes.large(512, 512, 10, "linear").capture(), "pixel", 10 * 512 * 512),
    "tested": lambda: to_the_end(
        scenes.tested(512, 512, 10, "alternate", "linear").capture(), "pixel tested", 10 * 512 * 512
    ),
    "pictures": lambda: to_the_end(squares(256, 8, True), "pixel", 8 * 256 * 256),
    "flat_squares": lambda: to_the_end(squares(256, 8, False), "pixel", 8 * 256 * 256),
    "small_pictures": lambda: to_the_end(small_pictures(1024, 10), "draw and tile", 10 * 32 * 32),
    "cleared": lambda: clear_of_what_was_drawn(512),
    "clears": lambda: to_the_end(scenes.clears(2048, 2048, 40), "clear and tile", 40 * 64 * 64),
    "small": lambda: to_the_end(scenes.small(512, 512, 4000, True).capture(25), "triangle", 4000),
    "small_far_apart": lambda: to_the_end(scenes.small(2048, 2048, 32000, True).capture(8), "triangle", 32000),
    "largest_target": lambda: to_the_end(scenes.small(16384, 16384, 16384, True).capture(), "draw", 16384),
    "small_to_the_start": lambda: to_the_start(scenes.small(512, 512, 4000, True).capture(25), 256),
    "small_once_more": lambda: once_more(scenes.small(512, 512, 4000, True).capture(25), "triangle", 4000),
    "linear_to_the_start": lambda: to_the_start(scenes.large(512, 512, 10, "linear").capture(), 256),
    "linear_once_more": lambda: once_more(
        scenes.large(512, 512, 10, "linear").capture(), "pixel", 10 * 512 * 512
    ),
    "culled": lambda: to_the_end(undrawn(2048, 1000, CULLED), "draw", 1000),
    "empty_scissor": lambda: to_the_end(undrawn(2048, 1000, SHUT), "draw", 1000),
    "never": lambda: to_the_end(undrawn(2048, 1000, NEVER, 2), "draw", 1000),
    **STEPS,
    **{f"read_{kind}": partial(reading, kind, event) for kind, event in READ.items()},
}


def counted(program, path, commands, is_stopped):
    """The instructions of a run."""
    words = ["valgrind", "--tool=callgrind", "--callgrind-out-file=/dev/null", program, "run", "--workers", "1", path]
    lines = commands if is_stopped else f"{commands}quit\n"
    with subprocess.Popen(
        words, stdin=subprocess.PIPE, stdout=subprocess.PIPE, stderr=subprocess.PIPE, text=True
    ) as run:
        run.stdin.write(lines)
        run.stdin.flush()
        for _ in range(lines.count("\n")):
            run.stdout.readline()
        if is_stopped:
            run.terminate()
        told = run.communicate(timeout=SECONDS)[1]
    if run.returncode != (-signal.SIGTERM if is_stopped else 0):
        raise subprocess.CalledProcessError(run.returncode, words, stderr=told)
    return int(COLLECTED.search(told)[1])


def measured(program, scene, path):
    """The instructions of what is counted, less those of what isn't."""
    path.write_bytes(scene.capture)
    everything = counted(program, path, scene.before + scene.commands, scene.is_stopped)
    path.write_bytes(scene.capture if scene.half is None else scene.half)
    return everything - counted(program, path, scene.before, scene.is_stopped)


def main():
    parser = argparse.ArgumentParser(description=__doc__, formatter_class=argparse.RawDescriptionHelpFormatter)
    parser.add_argument("--beside", metavar="PROGRAM", help="count this program too")
    parser.add_argument("scenes", nargs="*", metavar="SCENE", choices=[*SCENES, []], help=f"of {' '.join(SCENES)}")
    words = parser.parse_args()
    program = os.environ.get("FRAMEDBG", BUILT)
    with tempfile.TemporaryDirectory() as folder:
        path = pathlib.Path(folder) / "scene.json"
        for name in words.scenes or SCENES:
            scene = SCENES[name]()
            ours = measured(program, scene, path)
            beside = ""
            if words.beside:
                theirs = measured(words.beside, scene, path)
                beside = f"; the other {theirs:,}, {theirs / ours:.2f} times as many"
            print(f"{name}: {ours:,} instructions, {ours / scene.count:,.1f} a {scene.unit}{beside}", flush=True)


if __name__ == "__main__":
    main()
