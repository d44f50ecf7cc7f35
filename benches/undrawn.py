"""The part on what was never drawn: fresh sessions, a first clear, the list of a million markers."""
import scenes
from bench import MIB, Session
from frames import whole_run
from scenes import captures, compact
from turns import Work


def never_drawn(bench):
    """fresh sessions and their first clear: processor time and peak memory; a clear forward; the list of a million
    markers"""
    for side, fresh_most, cleared_most in [(2048, 4, 8), (16_384, 100, 150)]:
        side = bench.scaled(side, 32)
        size = f"{side:,} by {side:,}"
        path = bench.capture(scenes.frame(side, side, [scenes.MARKER, *cleared(2)], 2))
        # asked are megabytes of a million bytes
        whole_run(
            bench,
            f"a fresh session, {size}",
            ["run", "--workers", "1", path],
            "ms",
            memory={"most": round(fresh_most * 1e6 / MIB, 1)},
        )
        after_a_clear(bench, f"a fresh session and one clear, {size}", path, round(cleared_most * 1e6 / MIB, 1))
    side, count = bench.scaled(2048, 32), 10
    path = bench.capture(scenes.frame(side, side, cleared(count + 1), 2))
    per_pixel = side * side * count
    taken = bench.timed(
        f"{count} clears after another one, {side} by {side}, forward",
        Work(path, ("goto 1",), (f"goto {count + 1}",), f"at {count + 1}"),
    )
    if bench.counter:
        bench.figure("a clear forward", taken / per_pixel, "instructions a pixel", most=2)
    count = bench.scaled(1_000_000)
    path = bench.capture(scenes.markers(32, 32, count))
    whole_run(
        bench, f"events of {count:,} markers", ["events", path], "ms", times=2.7, memory={"most": round(110e6 / MIB, 1)}
    )


def cleared(count):
    return [compact(captures.clear(number, 1, 2, 3)) for number in range(count)]


def after_a_clear(bench, name, path, most):
    """Processor time and peak memory of a session that goes over a marker and its first clear, without what goes
    before."""

    def run(program):
        with Session(path, program=program) as session:
            return session.ask(["goto 1", "goto 2"])[0], session.memory()

    seconds, peak = bench.by_turns(run)
    bench.figure(name, seconds * 1e3, "ms")
    bench.figure(f"{name}, peak memory", peak / MIB, "MiB", most=most)
