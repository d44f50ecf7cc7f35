"""The part on reading: long captures beside a plain scanner, and captures made to cost as much as can be."""
from bench import MIB, PROGRAM, ROUNDS
from scenes import captures, compact

MOST_BYTES, MOST_EVENTS = captures.MOST_BYTES, captures.MOST_EVENTS


def filled(before, item, after, size, most=MOST_BYTES):
    """One text with as many items as fit into so many bytes, or the most of them."""
    count = min((size - len(before) - len(after)) // (len(item) + 1), most)
    return (before + ",".join([item] * count) + after).encode()


HEAD = compact(captures.head(1, 1, 1))[:-1] + ","
VERTEX = compact(captures.vertex(12345678, 87654321, (200, 100, 50, 255)))
DEEP = "[" * 120 + "]" * 120
DRAW = compact(captures.draw([])).removesuffix("]}")


def vertices(size):
    """Draws of 3,000 vertices each."""
    draw = DRAW + ",".join([VERTEX] * 3_000) + "]}"
    return filled(HEAD + '"events":[', draw, "]}", size)


def most_vertices(size):
    """One draw with the most vertices and as many indices as fit."""
    count = min(captures.MOST_CORNERS, size // 80)
    indices = ",".join([str(count - 1)] * count)
    event = DRAW + ",".join([VERTEX] * count) + f'],"indices":[{indices}]}}'
    return filled(HEAD + '"events":[', event, "]}", max(size, len(event) + 100))


def hostile(size):
    """What each is made of, and its text, one after another."""
    events, marker, clear = '"events":[', compact(captures.marker("%s")), compact(captures.clear(0, 0, 0, 0))
    for name, item in [
        ("members", '{"a":0}'),
        ("members with escaped names", '{"\\u0061\\u0061":0}'),
        ("arrays 120 deep", DEEP),
        ("clears", clear),
        ("numbers", "0"),
    ]:
        yield f"an ignored list of {name}", filled(HEAD + '"more":[', item, '],"events":[]}', size)
    yield "members in a clear's colour", filled(HEAD + events + '{"kind":"clear","color":[', '{"a":0}', "]}]}", size)
    yield "members in place of vertices", filled(HEAD + events + DRAW, '{"a":0}', "]}]}", size)
    yield "members in place of events", filled(HEAD + events, '{"a":0}', "]}", size)
    yield "numbers as indices", filled(HEAD + events + DRAW + '],"indices":[', "0", "]}]}", size)
    yield "draws of the most vertices and indices", most_vertices(size)
    yield "the most events, markers", filled(HEAD + events, marker % ("n" * 39), "]}", size, MOST_EVENTS)
    yield "the most events, clears", filled(HEAD + events, clear, "]}", size, MOST_EVENTS)
    yield "names of 64 bytes", filled(HEAD + events, marker % ("n" * 64), "]}", size)
    yield "a name of many bytes", (HEAD + events + marker % ("n" * (size - 200)) + "]}").encode()
    yield "names of escapes", filled(HEAD + events, marker % ("\\u006e" * 64), "]}", size)
    yield "one name of escapes", (HEAD + events + marker % ("\\u006e" * ((size - 200) // 6)) + "]}").encode()


def reading(bench):
    """reading alone with one worker, and its peak memory"""
    for name, size in [("41 MB of vertices", 41_000_000), ("64 MiB of vertices", MOST_BYTES)]:
        beside_scanner(bench, name, bench.capture(vertices(bench.scaled(size))), 5, 3, 4)
    for name, data in hostile(bench.scaled(MOST_BYTES)):
        beside_scanner(bench, f"{name}, {len(data) / MIB:.3g} MiB", bench.capture(data), 2)


def beside_scanner(bench, name, path, rounds, time_asked=None, memory_asked=None):
    runs = [bench.usage([PROGRAM, "run", "--workers", "1", path]) for _ in range(min(rounds, ROUNDS))]
    plain = [bench.usage([bench.built("scanner"), path]) for _ in range(min(rounds, ROUNDS))]
    status, _, most, said = runs[0]
    if status:
        name += f" ({said.decode().strip().removeprefix('framedbg: ').removeprefix('capture ')})"
    bench.figure(f"{name}, time", min(run[1] for run in runs), "s", min(run[1] for run in plain), ratio=time_asked)
    bench.figure(f"{name}, peak memory", most / 1e6, "MB", plain[0][2] / 1e6, ratio=memory_asked, most=300)
