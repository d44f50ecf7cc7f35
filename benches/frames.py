"""Parts on whole frames: events that touch no tile, the largest frames, history, memory, growth."""
import subprocess

import scenes
from bench import MIB, ROUNDS, Session
from turns import Work


def events_on_a_tile(bench):
    """events that draw nothing, on one tile"""
    count = bench.scaled(1_000_000)
    for name, data in [("a marker", scenes.markers(32, 32, count)), ("a state event", scenes.states(32, 32, count))]:
        forward, back = bench.there_and_back(bench.capture(data), 0, count)
        bench.figure(f"{name} on a tile, forward", forward / count * 1e9, "ns", most=2)
        bench.figure(f"{name} on a tile, back", back / count * 1e9, "ns", most=2)


def many_events(bench):
    """events by the thousand over many tiles: goto to the end, and the peak memory of the session"""
    side, count = bench.scaled(2048, 32), bench.scaled(65_536)
    work = Work(bench.capture(scenes.markers(side, side, count)), (), (f"goto {count}", "goto 0"), f"at {count}")
    bench.timed(f"{count:,} markers, {side} by {side}, forward and back", work, "s", most=1)
    count = bench.scaled(999_992, 8)
    to_the_end(bench, f"{count:,} markers, {side} by {side}", scenes.markers(side, side, count), count)
    # a capture of 64 MiB holds no million draws of a triangle
    scene = scenes.small(side, side, count // 8, True)
    fresh = to_the_end(
        bench, f"{count:,} draws, one in 8 not empty, {side} by {side}", scene.capture(1, 7), 1 + count, scene, times=5
    )
    if fresh.beside:
        bench.figure(
            "reading and starting, more than the program beside",
            (fresh.here - fresh.beside) / count,
            "bytes an event",
            most=40,
        )
    scene = scenes.small(side, side, bench.scaled(330_000), True)
    number = len(scene.triangles)
    to_the_end(bench, f"{number:,} draws of 8 pixels, {side} by {side}", scene.capture(), 1 + number, scene)


def largest_target(bench):
    """the largest target: goto to the end, a fresh session, image, and their peak memory"""
    side = bench.scaled(16_384, 32)
    scene = scenes.small(side, side, bench.scaled(65_536), True)
    number = len(scene.triangles)
    to_the_end(
        bench, f"{number:,} draws of 8 pixels, {side:,} by {side:,}", scene.capture(), 1 + number, scene, times=40
    )
    for version in [1, 2]:
        path = bench.capture(scenes.frame(side, side, [], version))
        for name, words in [("a fresh session", ["run"]), ("image", ["image"])]:
            whole_run(bench, f"{name}, {side:,} by {side:,}, version {version}", [*words, "--workers", "1", path])


def whole_run(bench, name, words, unit="s", times=None, memory=None):
    """Processor time and peak memory of a program's whole run with these words. Of the time it may be asked how many
    times less it is; `memory` says what of that one."""
    status = []

    def run(program):
        ended, seconds, most, _ = bench.usage([program, *words], subprocess.DEVNULL)
        status.append(ended)
        return seconds, most

    seconds, most = bench.by_turns(run)
    name += f", status {status[0]}" if status[0] else ""
    bench.figure(name, seconds * {"s": 1, "ms": 1e3}[unit], unit, times=times)
    bench.figure(f"{name}, peak memory", most / MIB, "MiB", **(memory or {}))


def to_the_end(bench, name, data, end, scene=None, **asked):
    """goto to the end, and the session's peak memory before and after, which is given; a run that is long isn't made
    again."""
    path = bench.capture(data)

    def run(program):
        with Session(path, program=program) as session:
            fresh = session.memory()
            return session.ask([f"goto {end}"])[0], session.memory(), fresh

    forward, most, fresh = bench.by_turns(run)
    forward_plain, _, memory_plain = bench.plain(scene, min(ROUNDS, 2)) if scene else (None, None, None)
    bench.figure(f"{name}, forward", forward, "s", forward_plain, **asked)
    bench.figure(f"{name}, peak memory", most / MIB, "MiB", memory_plain and memory_plain / MIB)
    bench.figure(f"{name}, peak memory of reading and starting", fresh / MIB, "MiB")
    return fresh


def history(bench):
    """history of one pixel"""
    count, times = bench.scaled(10_000), 10
    scene = scenes.one_pixel(count)
    for name, per_draw in [("as many draws", 1), ("one draw", count)]:
        path = bench.capture(scene.capture(per_draw))
        end = 1 + -(-count // per_draw)
        taken = bench.best(Work(path, (f"goto {end}",), ("history 0 0",) * times, f"history {count}"))
        bench.figure(f"history of {count:,} entries, {name}", taken / times * 1e3, "ms", most=10)


def memory(bench):
    """memory of what was overwritten"""
    side, count = bench.scaled(1024, 32), 60
    kinds = [
        ("clears", scenes.clears(side, side, count), 0, 4.5),
        ("whole-target triangles", scenes.large(side, side, count).capture(), 1, 4.5),
        ("the same, linear", scenes.large(side, side, count, "linear").capture(), 1, 4.5),
        ("with the depth test, level", scenes.tested(side, side, count, "all", "flat").capture(), 3, None),
        ("with the depth test, sloped", scenes.tested(side, side, count, "all", "linear").capture(), 3, None),
    ]
    for name, data, start, asked in kinds:
        with Session(bench.capture(data)) as session:
            sizes = []
            for place in [start, start + count // 2, start + count]:
                session.ask([f"goto {place}"])
                sizes.append(session.memory())
        bench.figure(f"a recorded pixel, {name}", (sizes[2] - sizes[0]) / (side * side * count), "bytes", most=asked)
        bench.figure(
            f"a recorded pixel, {name}, second half alone",
            (sizes[2] - sizes[1]) / (side * side * (count // 2)),
            "bytes",
        )
    side, count = bench.scaled(128, 32), 40
    data, dots = scenes.dots(side, count)
    with Session(bench.capture(data)) as session:
        session.ask(["goto 1"])
        fresh = session.memory()
        session.ask([f"goto {count + 1}"])
        bench.figure(
            "a recorded pixel, each a span of its own", (session.memory() - fresh) / (dots * count), "bytes", most=14
        )
    side, count = bench.scaled(1024, 32), bench.scaled(65_536)
    with Session(bench.capture(scenes.markers(side, side, count))) as session:
        fresh = session.memory()
        session.ask([f"goto {count}"])
        grown_by = session.memory() - fresh
    bench.figure("an untouched tile and event", grown_by / ((side // 32) ** 2 * count), "bytes", most=0.01)


def growth(bench):
    """growth, forward, ms: each line is twice the one before, a side of the target four times"""
    for side in [512, 1024, 2048]:
        grown(
            bench,
            scenes.large(bench.scaled(side, 32), bench.scaled(side, 32), 10),
            1,
            f"10 large triangles, {side} by {side}",
        )
    for count in [10, 20, 40, 80]:
        grown(
            bench,
            scenes.large(bench.scaled(512, 32), bench.scaled(512, 32), count),
            1,
            f"{count} large triangles, 512 by 512",
        )
    for count in [4_000, 8_000, 16_000]:
        grown(
            bench,
            scenes.small(512, 512, bench.scaled(count), False),
            50,
            f"{count:,} small triangles, 50 a draw, 512 by 512",
        )


def grown(bench, scene, per_draw, name):
    end = 1 + -(-len(scene.triangles) // per_draw)
    forward, _ = bench.there_and_back(bench.capture(scene.capture(per_draw)), 1, end)
    bench.figure(name, forward * 1e3, "ms")
