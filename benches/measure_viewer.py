#!/usr/bin/env python3
"""measure_viewer: how long the viewer takes to open a large capture, beside the program itself, to step, and to tell of a pixel.

    benches/measure_viewer.py [EVENTS [SIDE]]
    benches/measure_viewer.py --capture town.json

It tells too how many pictures a second there are in a film, and while the slider is dragged. It wants Chromium and chromedriver. Times are of this machine as
it is just now: the least of some turns is told, and the middle one. On a busy machine the processor time of a film's picture says more: that of the program, the
server and the browser together.
"""
import argparse
import json
import os
import pathlib
import statistics
import tempfile
import time

import folders

import browser
from captures import clear, draw, factor, marker
from viewer_testing import PROGRAM, Viewer, asked, capture_of, vertices

TURNS = {"ArrowLeft": 12, "ArrowRight": 12, "ArrowUp": 12, "Home": 3, "End": 3}  # of each key
PICKS, OPENINGS = 12, 3
STEP = """const [key, done] = arguments, position = document.getElementById("position"), start = performance.now();
new MutationObserver((_, watch) => { watch.disconnect(); requestAnimationFrame(() => setTimeout(() => done(performance.now() - start))); })
  .observe(position, { childList: true });
document.body.dispatchEvent(new KeyboardEvent("keydown", { key, bubbles: true }));"""

# From a click on the picture until the pixel's history stands in the page, and until the browser has drawn it in its
# next frame; the place is in pixels of the page
PICK = """const [x, y, done] = arguments, place = document.getElementById("place"), stage = document.getElementById("stage"), was = place.textContent, start = performance.now();
const passed = () => performance.now() - start;
new MutationObserver((_, watch) => {
  if (place.textContent === was) return;
  watch.disconnect();
  setTimeout(() => { const told = passed(); requestAnimationFrame(() => setTimeout(() => done([told, passed()]))); });
}).observe(place, { childList: true });
for (const kind of ["pointerdown", "pointerup"]) stage.dispatchEvent(new PointerEvent(kind, { clientX: x, clientY: y, bubbles: true }));"""

# The slider is dragged from one end to the other, a step each frame of the browser
SCRUB = """const [seconds, done] = arguments, slider = document.getElementById("slider"), start = performance.now(), watch = new MutationObserver(() => count++);
let count = 0;
watch.observe(document.getElementById("position"), { childList: true });
const move = () => {
  const passed = (performance.now() - start) / 1000 / seconds;
  if (passed >= 1) { watch.disconnect(); return done(count / seconds); }
  slider.value = Math.round(passed * slider.max);
  slider.dispatchEvent(new Event("input"));
  requestAnimationFrame(move);
};
move();"""

FILM = """const [seconds, done] = arguments, position = document.getElementById("position"), watch = new MutationObserver(() => count++);
let count = 0;
watch.observe(position, { childList: true });
document.body.dispatchEvent(new KeyboardEvent("keydown", { key: "f", bubbles: true }));
setTimeout(() => { watch.disconnect(); document.body.dispatchEvent(new KeyboardEvent("keydown", { key: "f", bubbles: true })); done(count / seconds); }, 1000 * seconds);"""
FILMED = 3  # seconds


def large(events, side):
    """Markers, states and small triangles, as a frame of a game has them."""
    made = [clear(40, 44, 52, 255)]
    while len(made) < events:
        i = len(made)
        x, y = i * 7919 % side, i * 104729 % side
        colour = [i % 256, i // 256 % 256, 128, 255]
        made.append(
            draw(vertices((x, y, colour), (x + 12, y, colour), (x, y + 12, colour)))
            if i % 4
            else marker(f"part {i}")
            if i % 8
            else factor(*colour)
        )
    return capture_of(side, side, made[:events])


def own_time(file, events):
    """What the program takes for the commands that opening gives."""
    lines = [
        "events",
        "goto 0",
        "state",
        "show",
        f"goto {events - 1}",
        "state",
        "show",
        f"goto {events}",
        "state",
        "show",
    ]
    start = time.perf_counter()
    asked(PROGRAM, file, lines)
    return time.perf_counter() - start


def words():
    parser = argparse.ArgumentParser(description=__doc__, formatter_class=argparse.RawDescriptionHelpFormatter)
    parser.add_argument(
        "--capture", metavar="FILE", type=pathlib.Path, help="a capture in the place of one that is made"
    )
    parser.add_argument(
        "events", nargs="?", type=int, default=65536, metavar="EVENTS", help="of the capture that is made [65536]"
    )
    parser.add_argument("side", nargs="?", type=int, default=512, metavar="SIDE", help="of its target, in pixels [512]")
    return parser.parse_args()


def opened(seen, viewer, events):
    """The seconds until the page stands at the end of the frame."""
    start = time.perf_counter()
    seen.open(viewer.server.address)
    seen.until("return document.querySelector('#position b')?.innerText === arguments[0]", str(events), seconds=60)
    return time.perf_counter() - start


def picked(seen):
    """The milliseconds until the history of a pixel is there, and until it is drawn, at places all over the picture;
    the first one starts a run, and isn't told."""
    left, top, wide, high = seen.run(
        "const b = document.getElementById('sheet').getBoundingClientRect(); return [b.left, b.top, b.width, b.height]"
    )
    places = [(left + wide * (i * 37 % 97 + 1) / 99, top + high * (i * 61 % 97 + 1) / 99) for i in range(PICKS + 1)]
    return list(zip(*[seen.run_to_end(PICK, *place) for place in places][1:]))


def measured(file, events):
    """Of each thing that is measured its times in milliseconds, or how many a second there are."""
    seen, found = browser.Browser(), {"opened": []}
    try:
        for turn in range(OPENINGS):
            with Viewer(file) as viewer:
                found["opened"].append(1000 * opened(seen, viewer, events))
                if turn == OPENINGS - 1:
                    found |= hands(seen, events)
            seen.open("about:blank")
    finally:
        seen.close()
    return found


def processor_time():
    """The seconds of processor time of this process, and of all that it has begun."""
    of, parents = {}, {}
    for file in pathlib.Path("/proc").glob("[0-9]*/stat"):
        try:
            words = file.read_text().rpartition(")")[2].split()
        except OSError:
            continue  # it has ended meanwhile
        parents.setdefault(int(words[1]), []).append(int(file.parent.name))
        of[int(file.parent.name)] = (int(words[11]) + int(words[12])) / os.sysconf("SC_CLK_TCK")
    family = [os.getpid()]
    for process in family:
        family += parents.get(process, [])
    return sum(of.get(process, 0) for process in family)


def hands(seen, events):
    """What follows the hand: keys, a film from the midst of the frame, pixels there, and the slider."""
    steps = {key: [seen.run_to_end(STEP, key) for _ in range(turns)] for key, turns in TURNS.items()}
    seen.run("location.hash = arguments[0]", f"#at={events // 2}")
    seen.until("return document.querySelector('#position b').innerText === arguments[0]", str(events // 2), seconds=60)
    before = processor_time()
    film = seen.run_to_end(FILM, FILMED)
    each = 1000 * (processor_time() - before) / max(1, film * FILMED)
    pixel, drawn = picked(seen)
    return {
        "times": {**steps, "a pixel in the midst": pixel, "until it is drawn": drawn},
        "film": film,
        "processor": each,
        "scrub": seen.run_to_end(SCRUB, FILMED),
    }


def main():
    args = words()
    with tempfile.TemporaryDirectory() as folder:
        file = args.capture or pathlib.Path(folder) / "large.json"
        if not args.capture:
            file.write_text(large(args.events, args.side))
        capture = json.loads(file.read_bytes())
        events, side = len(capture["events"]), f"{capture['width']} by {capture['height']}"
        own = min(own_time(file, events) for _ in range(3))
        found = measured(file, events)
    least = min(found["opened"]) / 1000
    print(
        f"{events} events, {side}, a load of {os.getloadavg()[0]:.0f}: the program itself {own:.2f} s, opened "
        f"in {least:.2f} s, so {least - own:.2f} s more"
    )
    for key, times in found["times"].items():
        print(f"{key}: {min(times):.0f} ms, the middle one {statistics.median(times):.0f} ms")
    print(
        f"a film: {found['film']:.1f} pictures a second, {found['processor']:.0f} ms of processor time each; "
        f"the slider dragged: {found['scrub']:.1f}"
    )
    print(
        json.dumps(
            {
                "film": found["film"],
                "processor": found["processor"],
                "scrub": found["scrub"],
                "own": own,
                "opened": least,
                "pixel": statistics.median(found["times"]["a pixel in the midst"]),
                "step": statistics.median(found["times"]["ArrowLeft"] + found["times"]["ArrowRight"]),
            }
        )
    )


if __name__ == "__main__":
    main()
