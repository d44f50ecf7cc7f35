"""Runs of framedbg by chance, by the program and in the page: the output, what is said on standard error and the
ending have to be the same."""
import base64
import collections
import json
import os
import pathlib
import subprocess
import tempfile

import captures
from captures import ALPHA_FACTORS, FACTORS, FARTHEST, FUNCTIONS, INTERPOLATIONS, MOST_POSITION, OPERATIONS, PIXEL

from .module import PROGRAM

EXAMPLES = pathlib.Path(os.environ.get("EXAMPLES", pathlib.Path(__file__).resolve().parents[2] / "examples"))
COLOURS = tuple(name for name in FACTORS if name not in ALPHA_FACTORS)
LINES = [
    b"",
    b" ",
    b"sing",
    b"goto",
    b"goto 4294967296",
    b"goto 0000000001",
    b"step 1",
    b"pixel 1",
    b"x" * 256,
    b"x" * 257,
    b"\xff\xfe",
    b"step\r",
    b"  back  ",
    b"goto -1",
]
BUNCH = 200  # runs that a page is given at once
# The runs in the page, two at a time: [output, errors, ending] of each
IN_PAGE = """
const [runs] = given, text = name => document.getElementById(name).textContent;
const bytes = letters => Uint8Array.from(atob(letters), letter => letter.charCodeAt(0));
const letters = bytes => { let told = ""; for (const byte of bytes) told += String.fromCharCode(byte); return btoa(told); };
const script = URL.createObjectURL(new Blob([text("program")], { type: "text/javascript" }));
const once = (program, { words, capture, input, most }) => new Promise(resolve => {
  const worker = new Worker(script), pieces = [];
  const end = async (errors, ending) => { worker.terminate(); resolve([letters(new Uint8Array(await new Blob(pieces.flat()).arrayBuffer())), errors, ending]); };
  worker.onmessage = ({ data }) => data.pieces ? void pieces.push(data.pieces) : end(data.ended.errors, data.ended.ending);
  worker.onerror = fault => end(fault.message, "fault");
  worker.postMessage({ program, words, capture: bytes(capture), most });
  for (const piece of [...input, ""]) worker.postMessage({ lines: bytes(piece) });
});
const { unpack } = await import("packed.js"), program = await WebAssembly.compile(await unpack(text("module")));
const results = [];
let next = 0;
const lane = async () => { while (next < runs.length) { const i = next++; results[i] = await once(program, runs[i]); } };
await Promise.all([lane(), lane()]);
return results;
"""

# Words after the program's name, a capture's bytes, pieces of the input, and the bytes that a read or a write moves at
# most
Run = collections.namedtuple("Run", "words capture input most")


def by_program(run):
    with tempfile.TemporaryDirectory() as folder:
        (pathlib.Path(folder) / "CAPTURE").write_bytes(run.capture)
        ended = subprocess.run(
            ["framedbg", *run.words],
            executable=PROGRAM,
            cwd=folder,
            input=b"".join(run.input),
            capture_output=True,
            check=False,
        )
    return ended.stdout, ended.stderr.decode(), f"status {ended.returncode}"


def in_page(browser, runs):
    """The same of each run in the page that the browser shows."""
    letters = lambda some: base64.b64encode(some).decode()
    given = [
        {
            "words": ["framedbg", *run.words],
            "capture": letters(run.capture),
            "input": list(map(letters, run.input)),
            "most": run.most,
        }
        for run in runs
    ]
    return [(base64.b64decode(out), errors, ending) for out, errors, ending in browser.within(IN_PAGE, given)]


def compare(browser, runs):
    """What is told of each run that differs."""
    for first in range(0, len(runs), BUNCH):
        bunch = runs[first : first + BUNCH]
        for number, (run, found) in enumerate(zip(bunch, in_page(browser, bunch)), first + 1):
            wanted = by_program(run)
            if found != wanted:
                yield (
                    f"run {number}, {' '.join(run.words)}, at most {run.most} bytes at once: "
                    f"{difference(wanted, found)}"
                )


def difference(wanted, found):
    if wanted[0] == found[0]:
        return f"the program ends with {wanted[1:]}, the page with {found[1:]}"
    at = next(
        (at for at, (one, two) in enumerate(zip(wanted[0], found[0])) if one != two), min(len(wanted[0]), len(found[0]))
    )
    return (
        f"from byte {at} of {len(wanted[0])} on the program writes {wanted[0][at:at + 60]}, the page (of "
        f"{len(found[0])}) {found[0][at:at + 60]}"
    )


# ---- Chance ----------------------------------------------------------------------------------------------


def colour(dice):
    return [dice.choice((0, 255, dice.randrange(256))) for _ in range(4)]


def vertex(dice, width, height):
    place = lambda size: dice.choice(
        (
            dice.randrange(-8, size + 8) * PIXEL,
            dice.randrange(-9 * PIXEL, (size + 9) * PIXEL),
            dice.randrange(-MOST_POSITION, MOST_POSITION + 1),
        )
    )
    x, y, z = place(width), place(height), dice.choice((0, 1000, FARTHEST, dice.randrange(FARTHEST + 1)))
    return captures.vertex(x, y, colour(dice), z)


def draw(dice, width, height):
    interp, vertices = dice.choice(INTERPOLATIONS), [
        vertex(dice, width, height) for _ in range(dice.choice((0, 2, 3, 3, 6, 9, 30)))
    ]
    indices = (
        [dice.randrange(len(vertices)) for _ in range(dice.randrange(12))] if vertices and dice.random() < 0.3 else None
    )
    return captures.draw(vertices, interp, indices)


def picture_draw(dice, width, height):
    """Triangles over a picture that lies on the target, at its edge or beyond it, perhaps with holes."""
    event, wide, high = draw(dice, width, height), dice.choice((1, 3, 32, 33, 70)), dice.choice((1, 2, 8, 31))
    rgba = b"".join(bytes(colour(dice)) for _ in range(wide * high))
    holes = [dice.random() < 0.3 for _ in range(wide * high)] if dice.random() < 0.6 else None
    box = captures.picture(dice.randrange(width + 3), dice.randrange(height + 3) // 2, wide, high, rgba, holes)
    corners = [
        {name: value for name, value in corner.items() if name != "color" or dice.random() < 0.1}
        for corner in event["vertices"]
    ]
    return captures.picture_draw(corners, box, event.get("indices"))


def event(dice, width, height, version):
    kinds = {
        "clear": lambda: captures.clear(*colour(dice)),
        "raster": lambda: captures.raster(
            dice.choice(["none", "none", "front", "back"]), dice.random() < 0.5, dice.random() < 0.3
        ),
        "scissor": lambda: captures.scissor(*(dice.randrange(-9, 60) for _ in range(4))),
        "blend": lambda: captures.blend(
            dice.random() < 0.7,
            [*dice.choices(ALPHA_FACTORS + COLOURS, k=2), dice.choice(OPERATIONS)],
            [*dice.choices(ALPHA_FACTORS, k=2), dice.choice(OPERATIONS)],
            dice.choice((15, 15, dice.randrange(16))),
        ),
        "factor": lambda: captures.factor(*colour(dice)),
        "marker": lambda: captures.marker(dice.choice(["", "a house", "\u00e9" * 32])),
        "draw": lambda: draw(dice, width, height),
    }
    if version > 1:
        kinds["depth"] = lambda: captures.depth(dice.random() < 0.7, dice.random() < 0.7, dice.choice(FUNCTIONS))
        kinds["depth_clear"] = lambda: captures.depth_clear(dice.randrange(FARTHEST + 1))
    made = kinds[dice.choice([*kinds, "draw", "draw", "draw"])]()
    return (
        picture_draw(dice, width, height) if version == 3 and made["kind"] == "draw" and dice.random() < 0.6 else made
    )


def capture(dice):
    version, width, height = dice.choice((1, 2, 3)), dice.choice((1, 7, 64, 65, 200)), dice.choice((1, 9, 64, 130))
    events = [event(dice, width, height, version) for _ in range(dice.randrange(14))]
    return json.dumps(captures.frame(width, height, events, version)).encode()


def disturbed(dice, data):
    """A capture with some bytes changed or cut, which is mostly refused."""
    data = bytearray(data)
    for _ in range(dice.randrange(1, 4)):
        at = dice.randrange(len(data))
        if dice.random() < 0.3:
            del data[at : at + dice.choice((1, 3, len(data)))]
        else:
            data[at] = dice.choice(b'0129-.eE"{}[],: \xff\x00')
        data = data or bytearray(b"{")
    return bytes(data)


def line(dice):
    number = lambda most: b"%d" % dice.randrange(most)
    return dice.choice(
        [
            lambda: b"step",
            lambda: b"back",
            lambda: b"goto " + number(15),
            lambda: b"on " + number(15),
            lambda: b"off " + number(15),
            lambda: b"pixel " + number(70) + b" " + number(66),
            lambda: b"history " + number(70) + b" " + number(66),
            lambda: b"state",
            lambda: b"events",
            lambda: b"show",
            lambda: dice.choice(LINES),
        ]
    )()


def pieces(dice, data):
    """The bytes in pieces of odd sizes: none is empty."""
    cuts = sorted({0, len(data), *(dice.randrange(len(data) + 1) for _ in range(dice.randrange(4)))})
    return [data[start:end] for start, end in zip(cuts, cuts[1:])]


def words(dice):
    workers = dice.choice([[], ["--workers", str(dice.choice((1, 2, 3, 4, 16, 64)))]])
    return dice.choice(
        [["run", *workers, "CAPTURE"]] * 6
        + [
            ["image", *workers, "CAPTURE"],
            ["image", "--at", str(dice.randrange(15)), *workers, "CAPTURE"],
            ["events", "CAPTURE"],
            [],
            ["run"],
            ["--version"],
            ["sing", "CAPTURE"],
            ["run", "--workers", dice.choice(("0", "65", "x", "")), "CAPTURE"],
            ["image", "--at", "99", "CAPTURE"],
        ]
    )


def runs(dice, count):
    known = [
        path.read_bytes()
        for path in sorted(EXAMPLES.glob("*.json"))
        if path.stat().st_size < 1 << 16 and path.stem != "widest_target"
    ]
    for _ in range(count):
        made = capture(dice) if dice.random() < 0.7 else dice.choice(known)
        if dice.random() < 0.1:
            made = disturbed(dice, made)
        lines = [line(dice) for _ in range(dice.randrange(30))] + [b"quit"] * (dice.random() < 0.5)
        given = b"\n".join(lines) + b"\n" * (dice.random() < 0.7)
        yield Run(words(dice), made, pieces(dice, given), dice.choice((1 << 20, 1 << 20, 4096, 100, 7, 1)))
