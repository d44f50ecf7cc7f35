#!/usr/bin/env python3
"""reference.py CAPTURE < SESSION: what framedbg answers, worked out a second time and independently.

A slow and plain replay, pixel by pixel, straight from docs/DEFINITIONS.md and docs/FORMATS.md: it shares no code and
no method with the program (no row is cut by division, no image is kept, every pixel is made anew from a fresh
target), and none with the other tools: its limits and spellings are its own, so that those of captures.py are
compared with them. Its outputs stand in examples/*.expected, and the gate compares what the program writes with
them.

Other tools import it: fault says why a capture is refused, Frame holds one, replay gives a pixel and its history, reply
answers one line of a session.
"""
import base64
import functools
import json
import math
import re
import sys
from fractions import Fraction

FACTORS = [
    "ZERO",
    "ONE",
    "SRC_COLOR",
    "INV_SRC_COLOR",
    "SRC_ALPHA",
    "INV_SRC_ALPHA",
    "DEST_ALPHA",
    "INV_DEST_ALPHA",
    "DEST_COLOR",
    "INV_DEST_COLOR",
    "BLEND_FACTOR",
    "INV_BLEND_FACTOR",
]
DEFAULTS = {
    "raster": ("back", 0, 0),
    "scissor": (0, 0, 0, 0),
    "factor": (255, 255, 255, 255),
    "blend": (0, ("ONE", "ZERO", "ADD"), ("ONE", "ZERO", "ADD"), 15),
    "depth": (0, 1, "LESS"),
}
FRESH = ((0, 0, 0, 0), 65535)  # a pixel before the first event: its colour and its depth
PASSES = {
    "NEVER": lambda source, stored: False,
    "LESS": lambda source, stored: source < stored,
    "EQUAL": lambda source, stored: source == stored,
    "LESS_EQUAL": lambda source, stored: source <= stored,
    "GREATER": lambda source, stored: source > stored,
    "NOT_EQUAL": lambda source, stored: source != stored,
    "GREATER_EQUAL": lambda source, stored: source >= stored,
    "ALWAYS": lambda source, stored: True,
}
REFUSALS = ["", "at end", "at start", "no such position", "no such event", "already so", "no such pixel", "memory"]


FAULTS = [
    "",
    "too long",
    "not json",
    "not a capture",
    "version",
    "size",
    "too many events",
    "unknown event",
    "bad field",
]
OPERATIONS = ["ADD", "SUBTRACT", "REV_SUBTRACT", "MIN", "MAX"]


def no_json(*_):
    raise ValueError


def number_of(text):
    """A number of JSON: whole where it has neither point nor exponent and isn't -0, and none at all where no double
    holds its size."""
    if math.isinf(float(text)):
        raise ValueError
    return int(text) if text.lstrip("-").isdigit() and len(text) < 25 and text != "-0" else float(text)


def unpaired(text):
    return any(0xD800 <= ord(character) < 0xE000 for character in text)


def check_texts(value):
    """Half a surrogate pair is no text."""
    if isinstance(value, str) and unpaired(value):
        raise ValueError
    for part in value if isinstance(value, list) else []:
        check_texts(part)
    return value


def object_of(members):
    for name, value in members:
        check_texts(name)
        check_texts(value)
    return dict(members)


def nesting(text):
    """How deep the arrays and objects of a JSON text nest."""
    depth = deepest = 0
    for bracket in re.findall(r'[\[{\]}]', re.sub(r'"(?:[^"\\]|\\.)*"', "", text)):
        depth += 1 if bracket in "[{" else -1
        deepest = max(deepest, depth)
    return deepest


def json_of(data):
    text = data.decode("utf-8")
    value = json.loads(
        text, parse_constant=no_json, parse_int=number_of, parse_float=number_of, object_pairs_hook=object_of
    )
    return check_texts(value) if nesting(text) <= 127 else no_json()


def whole(value, least, most):
    return type(value) is int and least <= value <= most


def is_color(value):
    return isinstance(value, list) and len(value) == 4 and all(whole(n, 0, 255) for n in value)


def is_part(value, allowed):
    return (
        isinstance(value, list)
        and len(value) == 3
        and value[0] in allowed
        and value[1] in allowed
        and value[2] in OPERATIONS
    )


def is_place(value, version):
    return (
        isinstance(value, dict)
        and all(whole(value.get(name), -(2**30), 2**30) for name in "xy")
        and (version == 1 or whole(value.get("z"), 0, 65535))
    )


def bytes_of(text):
    """The bytes that a text in base64 stands for; none where it isn't their one spelling: padded, with nothing
    between, and zero bits behind the last byte."""
    try:
        data = base64.b64decode(text.encode("ascii"), validate=True)
    except ValueError:
        return None
    return data if base64.b64encode(data).decode() == text else None


def is_data(value, length):
    """Whether a value is a text in base64 of so many bytes."""
    return isinstance(value, str) and len(value) == -(-length // 3) * 4 and len(bytes_of(value) or b"") == length


def is_picture(value):
    if not (
        isinstance(value, dict)
        and all(whole(value.get(name), 0, 16383) for name in ("left", "top"))
        and all(whole(value.get(name), 1, 16384) for name in ("width", "height"))
    ):
        return False
    texels = value["width"] * value["height"]
    return is_data(value.get("texels"), 4 * texels) and (
        "holes" not in value or is_data(value["holes"], -(-texels // 8))
    )


def is_draw(e, version):
    vertices, indices, painted = e.get("vertices"), e.get("indices", []), version == 3 and e.get("interp") == "picture"
    return (
        (is_picture(e.get("picture")) if painted else e.get("interp") in ("flat", "linear"))
        and all(isinstance(list_, list) and len(list_) <= 196608 for list_ in (vertices, indices))
        and all(is_place(v, version) and (painted or is_color(v.get("color"))) for v in vertices)
        and all(whole(i, 0, len(vertices) - 1) for i in indices)
    )


def truths(e, *names):
    return all(isinstance(e.get(name), bool) for name in names)


def is_label(name):
    return (
        isinstance(name, str)
        and len(name.encode()) <= 64
        and not any(character < " " or character == "\x7f" for character in name)
    )


KINDS = {
    "clear": lambda e, version: is_color(e.get("color")),
    "raster": lambda e, version: e.get("cull") in ("none", "front", "back") and truths(e, "front_ccw", "scissor"),
    "scissor": lambda e, version: isinstance(e.get("rect"), list)
    and len(e["rect"]) == 4
    and all(whole(n, -(2**31), 2**31 - 1) for n in e["rect"]),
    "blend": lambda e, version: (
        truths(e, "enable")
        and is_part(e.get("rgb"), FACTORS)
        and whole(e.get("mask"), 0, 15)
        and is_part(e.get("alpha"), [f for f in FACTORS if f[-6:] != "_COLOR"])
    ),
    "factor": lambda e, version: is_color(e.get("color")),
    "draw": is_draw,
    "marker": lambda e, version: is_label(e.get("name")),
    "depth": lambda e, version: truths(e, "enable", "write") and e.get("func") in list(PASSES),
    "depth_clear": lambda e, version: whole(e.get("depth"), 0, 65535),
}
SINCE_VERSION_2 = ("depth", "depth_clear")


def event_fault(e, version):
    if not isinstance(e, dict) or not isinstance(e.get("kind"), str):
        return 8
    if e["kind"] not in KINDS or version == 1 and e["kind"] in SINCE_VERSION_2:
        return 7
    return None if KINDS[e["kind"]](e, version) else 8


def fault(data):
    """Why bytes are refused as a capture: the number of the fault, its name, and the event's number where it has
    one. None: they are one."""
    if len(data) > 67108864:
        return 1, FAULTS[1]
    try:
        capture = json_of(data)
    except (ValueError, RecursionError):
        return 2, FAULTS[2]
    if (
        not isinstance(capture, dict)
        or capture.get("format") != "framedbg"
        or not isinstance(capture.get("events"), list)
    ):
        return 3, FAULTS[3]
    if not whole(capture.get("version"), 1, 3):
        return 4, FAULTS[4]
    if not all(whole(capture.get(name), 1, 16384) for name in ("width", "height")):
        return 5, FAULTS[5]
    if len(capture["events"]) > 1000000:
        return 6, FAULTS[6]
    for number, e in enumerate(capture["events"], 1):
        found = event_fault(e, capture["version"])
        if found:
            return found, FAULTS[found], number
    return None


def nearest_even(value):
    """A coordinate in 1/65536 pixel, snapped to 1/256: the nearest, ties to even."""
    return round(Fraction(value, 256))  # Python rounds a tie to even


def cross(u, v, q):
    return (v[0] - u[0]) * (q[1] - u[1]) - (v[1] - u[1]) * (q[0] - u[0])


def centre(x, y):
    return (256 * x + 128, 256 * y + 128)


def covers(t, x, y):
    p = centre(x, y)
    (ax, ay), (bx, by), (cx, cy) = t
    if (
        not (min(ax, bx, cx) <= p[0] <= max(ax, bx, cx) and min(ay, by, cy) <= p[1] <= max(ay, by, cy))
        or cross(*t) == 0
    ):
        return False
    for i in range(3):
        u, v, c = t[i], t[(i + 1) % 3], t[(i + 2) % 3]
        side, inside = cross(u, v, p), cross(u, v, c)
        if side * inside > 0:
            continue
        if side != 0:
            return False
        top = u[1] == v[1] and u[1] < c[1]
        low, high = (u, v) if u[1] < v[1] else (v, u)
        left = u[1] != v[1] and cross(low, high, c) < 0
        if not (top or left):
            return False
    return True


def verdict(t, depths, picture, state, stored, x, y):
    if not covers(t, x, y):
        return "missed"
    cull, ccw, scissor = state["raster"]
    clockwise = cross(*t) > 0
    front = clockwise != bool(ccw)
    if cull == ("front" if front else "back"):
        return "culled"
    left, top, right, bottom = state["scissor"]
    if scissor and not (left <= x < right and top <= y < bottom):
        return "scissored"
    if picture and picture.texel(x, y) is None:
        return "discarded"
    enable, _, func = state["depth"]
    if enable and not PASSES[func](depth_of(t, depths, x, y), stored):
        return "depthfailed"
    return "drawn"


def nearest_mean(t, values, x, y):
    """The whole number nearest to the mean of three corners' values, weighted by the areas opposite to them; the
    larger on a tie."""
    p = centre(x, y)
    weights = [abs(cross(t[(i + 1) % 3], t[(i + 2) % 3], p)) for i in range(3)]
    whole, rest = divmod(sum(w * v for w, v in zip(weights, values)), abs(cross(*t)))
    return whole + (2 * rest >= abs(cross(*t)))


class Picture:
    """The colours that a draw puts out, pixel by pixel."""

    def __init__(self, value):
        self.left, self.top, self.width, self.height = (value[name] for name in ("left", "top", "width", "height"))
        self.texels, self.holes = bytes_of(value["texels"]), bytes_of(value.get("holes", ""))

    def texel(self, x, y):
        """The colour of a pixel; none outside of the box and on a hole."""
        column, row = x - self.left, y - self.top
        if not (0 <= column < self.width and 0 <= row < self.height):
            return None
        n = row * self.width + column
        if self.holes and self.holes[n // 8] >> n % 8 & 1:
            return None
        return tuple(self.texels[4 * n : 4 * n + 4])


def source(t, colours, interp, x, y, picture=None):
    if interp == "picture":
        return picture.texel(x, y) or (0, 0, 0, 0)
    if interp == "flat":
        return tuple(colours[0])
    return tuple(nearest_mean(t, [c[k] for c in colours], x, y) for k in range(4))


def depth_of(t, depths, x, y):
    """A fragment's depth, in 1/65535: linear, whatever the draw's colours are."""
    return nearest_mean(t, depths, x, y)


@functools.lru_cache(maxsize=None)
def unorm(value):
    """The byte nearest to a value in 1/65025."""
    value = min(max(value, 0), 65025)
    return min(range(256), key=lambda n: abs(255 * n - value))


def factor_value(name, k, factor, src, dst):
    inverse = name.startswith("INV_")
    plain = name[4:] if inverse else name
    value = {
        "ZERO": 0,
        "ONE": 255,
        "SRC_COLOR": src[k],
        "SRC_ALPHA": src[3],
        "DEST_ALPHA": dst[3],
        "DEST_COLOR": dst[k],
        "BLEND_FACTOR": factor[k],
    }[plain]
    return 255 - value if inverse else value


def blend(state, src, dst):
    enable, rgb, alpha, mask = state["blend"]
    out = []
    for k in range(4):
        if not mask >> k & 1:
            out.append(dst[k])
            continue
        if not enable:
            out.append(src[k])
            continue
        s, d, op = rgb if k < 3 else alpha
        if op == "MIN":
            out.append(min(src[k], dst[k]))
            continue
        if op == "MAX":
            out.append(max(src[k], dst[k]))
            continue
        a = src[k] * factor_value(s, k, state["factor"], src, dst)
        b = dst[k] * factor_value(d, k, state["factor"], src, dst)
        out.append(unorm({"ADD": a + b, "SUBTRACT": a - b, "REV_SUBTRACT": b - a}[op]))
    return tuple(out)


class Frame:
    def __init__(self, capture):
        self.version, self.width, self.height = capture["version"], capture["width"], capture["height"]
        self.events = [self.event(e) for e in capture["events"]]
        self.on = [True] * len(self.events)
        self.position = 0

    def event(self, e):
        kind = e["kind"]
        if kind == "draw":
            painted = e["interp"] == "picture"
            places = [(nearest_even(v["x"]), nearest_even(v["y"])) for v in e["vertices"]]
            corners = [
                (place, None if painted else tuple(v["color"]), 0 if self.version == 1 else v["z"])
                for place, v in zip(places, e["vertices"])
            ]
            named = [corners[i] for i in e["indices"]] if "indices" in e else corners
            triangles = [named[i : i + 3] for i in range(0, len(named) - 2, 3)]
            return kind, ([tuple(zip(*t)) for t in triangles], e["interp"], Picture(e["picture"]) if painted else None)
        return (
            kind,
            {
                "clear": lambda: tuple(e["color"]),
                "factor": lambda: tuple(e["color"]),
                "marker": lambda: e["name"],
                "raster": lambda: (e["cull"], int(e["front_ccw"]), int(e["scissor"])),
                "scissor": lambda: tuple(e["rect"]),
                "blend": lambda: (int(e["enable"]), tuple(e["rgb"]), tuple(e["alpha"]), e["mask"]),
                "depth": lambda: (int(e["enable"]), int(e["write"]), e["func"]),
                "depth_clear": lambda: e["depth"],
            }[kind](),
        )

    def replay(self, position, x, y):
        """The pixel's colour and depth at a position, and its history: in each entry the source, what was there,
        what came out, and the three depths."""
        state, (colour, depth), history = dict(DEFAULTS), FRESH, []
        for number, (kind, what) in enumerate(self.events[:position], 1):
            if not self.on[number - 1]:
                continue
            if kind == "clear":
                history.append((number, "-", "drawn", what, colour, what, 0, depth, depth))
                colour = what
            elif kind == "depth_clear":
                history.append((number, "-", "drawn", (0, 0, 0, 0), colour, colour, what, depth, what))
                depth = what
            elif kind == "draw":
                triangles, interp, picture = what
                for i, (t, colours, depths) in enumerate(triangles):
                    v = verdict(t, depths, picture, state, depth, x, y)
                    if v == "missed":
                        continue
                    src, src_depth = source(t, colours, interp, x, y, picture), depth_of(t, depths, x, y)
                    enable, write, _ = state["depth"]
                    after = blend(state, src, colour) if v == "drawn" else colour
                    depth_after = src_depth if v == "drawn" and enable and write else depth
                    history.append((number, i, v, src, colour, after, src_depth, depth, depth_after))
                    colour, depth = after, depth_after
            elif kind != "marker":
                state[kind] = what
        return (colour, depth), history

    def state(self):
        state = dict(DEFAULTS)
        for (kind, what), on in list(zip(self.events, self.on))[: self.position]:
            if on and kind in state:
                state[kind] = what
        return state

    def inside(self, x, y):
        return x < self.width and y < self.height

    def pam(self):
        header = (
            f"P7\nWIDTH {self.width}\nHEIGHT {self.height}\nDEPTH 4\nMAXVAL 255\nTUPLTYPE RGB_ALPHA\nENDHDR\n".encode()
        )
        return header + b"".join(
            bytes(self.replay(self.position, x, y)[0][0]) for y in range(self.height) for x in range(self.width)
        )


def words(*parts):
    return " ".join(str(p) for part in parts for p in (part if isinstance(part, tuple) else (part,)))


def event_line(number, on, kind, what):
    head = words(number, "on" if on else "off", kind)
    if kind == "draw":
        return words(head, len(what[0]), what[1])
    if kind == "blend":
        return words(head, what[0], what[1], what[2], what[3])
    return words(head, what)


def moved(frame, at):
    frame.position = at
    return f"at {at}\n".encode()


def refused(n):
    return f"refused {n} {REFUSALS[n]}\n".encode()


def switch(frame, number, on):
    if not 1 <= number <= len(frame.events):
        return refused(4)
    if frame.on[number - 1] == on:
        return refused(5)
    frame.on[number - 1] = on
    return moved(frame, frame.position)


def of_a_pixel(frame, name, place):
    (colour, depth), history = frame.replay(frame.position, *place)
    if name == "pixel":
        return (words("pixel", colour, depth if frame.version > 1 else ()) + "\n").encode()
    if frame.version == 1:
        history = [entry[:6] for entry in history]
    return "".join(words(*line) + "\n" for line in [("history", len(history))] + history).encode()


def state_line(frame):
    s = frame.state()
    cull, ccw, scissor = s["raster"]
    enable, rgb, alpha, mask = s["blend"]
    told = ["state cull", cull, "ccw", ccw, "scissor", scissor, "rect", s["scissor"]]
    told += ["blend", enable, rgb, alpha, "mask", mask, "factor", s["factor"]]
    told += [("depth",) + s["depth"] if frame.version > 1 else ()]
    return (words(*told) + "\n").encode()


def answer(frame, name, arguments):
    k, n = frame.position, len(frame.events)
    if name == "step":
        return moved(frame, k + 1) if k < n else refused(1)
    if name == "back":
        return moved(frame, k - 1) if k > 0 else refused(2)
    if name == "goto":
        return moved(frame, arguments[0]) if arguments[0] <= n else refused(3)
    if name in ("on", "off"):
        return switch(frame, arguments[0], name == "on")
    if name in ("pixel", "history"):
        return of_a_pixel(frame, name, arguments) if frame.inside(*arguments) else refused(6)
    if name == "state":
        return state_line(frame)
    if name == "events":
        lines = [event_line(i, on, *e) for i, (e, on) in enumerate(zip(frame.events, frame.on), 1)]
        return "".join(line + "\n" for line in [f"events {n} at {k}"] + lines).encode()
    image = frame.pam()
    return f"pam {len(image)}\n".encode() + image


ARGUMENTS = {
    "step": 0,
    "back": 0,
    "goto": 1,
    "on": 1,
    "off": 1,
    "pixel": 2,
    "history": 2,
    "state": 0,
    "events": 0,
    "show": 0,
    "quit": 0,
}


def reply(frame, line):
    line = line[:-1] if line.endswith(b"\r") else line
    if len(line) > 256:
        return b"bad 3 line too long\n"
    parts = [p for p in line.split(b" ") if p]
    name = parts[0].decode("latin-1") if parts else ""
    if name not in ARGUMENTS:
        return b"bad 1 unknown command\n"
    numbers = [p.decode("latin-1") for p in parts[1:]]
    well_formed = all(p.isascii() and p.isdigit() and len(p) <= 10 and int(p) < 1 << 32 for p in numbers)
    if len(numbers) != ARGUMENTS[name] or not well_formed:
        return b"bad 2 arguments\n"
    return b"bye\n" if name == "quit" else answer(frame, name, [int(p) for p in numbers])


def main():
    with open(sys.argv[1], "rb") as f:
        data = f.read()
    found = fault(data)
    if found:
        print("framedbg: capture refused", *found, file=sys.stderr)
        sys.exit(2)
    frame = Frame(json_of(data))
    lines = sys.stdin.buffer.read().split(b"\n")
    for line in lines if lines[-1] else lines[:-1]:
        text = reply(frame, line)
        sys.stdout.buffer.write(text)
        if text == b"bye\n":
            break


if __name__ == "__main__":
    main()
