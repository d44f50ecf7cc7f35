"""Parts that draw, side by side with plain C: large triangles, the depth test, small triangles, workers."""
import scenes
from bench import ROUNDS, Session


def large_triangles(bench):
    """whole-target blended triangles"""
    side, count = bench.scaled(1024, 32), 20
    for interp, forward_asked in [("flat", 1.5), ("linear", 2)]:
        bench.same_image(interp, scenes.large(64, 96, 5, interp))
        scene = scenes.large(side, side, count, interp)
        compare(bench, f"whole target, {interp}", scene, 1, side * side * count / 1e9, "ns a pixel", forward_asked, 1.5)


def depth_test(bench):
    """whole-target blended triangles with the depth test on, LESS_EQUAL, a pixel that is tested"""
    side, count = bench.scaled(1024, 32), 20
    for interp, slope in [("flat", "level"), ("linear", "sloped")]:
        for passing in ["all", "alternate", "none"]:
            bench.same_image(passing, scenes.tested(64, 96, 5, passing, interp))
            scene = scenes.tested(side, side, count, passing, interp)
            name = f"depth test, {interp}, {slope}, {passing} pass"
            compare(bench, name, scene, 1, side * side * count / 1e9, "ns a pixel", 2, None if passing == "none" else 2)


def small_triangles(bench):
    """blended triangles with legs of 8 pixels"""
    side, count = bench.scaled(1024, 32), bench.scaled(16_000, 16)
    for per_draw, scattered in [(count, False), (count // 160 or 1, False), (count, True), (count // 160 or 1, True)]:
        scene = scenes.small(side, side, count, scattered)
        bench.same_image("small", scenes.small(128, 64, 100, scattered), per_draw=7)
        draws = -(-count // per_draw)
        order = "in random order" if scattered else "side by side"
        name = f"{count:,} of 8 pixels, {order}, {draws} {'draw' if draws == 1 else 'draws'}"
        compare(bench, name, scene, per_draw, count / 1e6, "us each", 2, 2)


def compare(bench, name, scene, per_draw, divisor, unit, forward_asked, back_asked):
    start = len(scene.setup)
    end = start + -(-len(scene.triangles) // per_draw)
    forward, back = bench.there_and_back(bench.capture(scene.capture(per_draw)), start, end)
    forward_plain, back_plain, _ = bench.plain(scene)
    bench.figure(f"{name}, forward", forward / divisor, unit, forward_plain / divisor, ratio=forward_asked)
    if back_asked:
        bench.figure(f"{name}, back", back / divisor, unit, back_plain / divisor, ratio=back_asked)


def workers(bench):
    """goto to the end with 1, 2 and 4 workers, by the clock, beside as many processes of plain C; the machine must
    be idle"""
    side = bench.scaled(2048, 32)
    count = bench.scaled(65_536)
    # what the machine gives: each process draws its share of the rows, and has nothing in common with the others
    plain = {number: bench.plain_side_by_side(scenes.large(side, side // number, 20), number) for number in [1, 2, 4]}
    makers = [
        ("20 large triangles", scenes.large(side, side, 20).capture(), 21, plain, 3),
        ("16,000 small triangles in 160 draws", scenes.small(side, side, 16_000, False).capture(100), 161, None, None),
        ("3,000 triangles in the middle", scenes.in_the_middle(side, 3_000).capture(), 3_001, None, None),
        (f"{count:,} markers", scenes.markers(side, side, count), count, None, None),
    ]
    for name, data, end, beside, asked in makers:
        path = bench.capture(data)
        alone = None
        for number in [1, 2, 4]:
            clock = min(clock_of(path, number, [f"goto {end}"]) for _ in range(ROUNDS))
            alone = alone or clock
            bench.figure(f"{name}, {number} {'worker' if number == 1 else 'workers'}", clock * 1e3, "ms")
            if number > 1:
                given = beside and beside[1] / beside[number]
                bench.figure(
                    f"{name}, {number} workers, speed-up",
                    alone / clock,
                    "times",
                    given,
                    least=asked if number == 4 else None,
                )


def single_steps(bench):
    """a step and the way back, by the clock"""
    side = bench.scaled(2048, 32)
    for name, data, number in [
        ("a marker, 64 tiles", scenes.markers(256, 256, 1), 5_000),
        ("a clear, 4 tiles", scenes.clears(64, 64, 1), 5_000),
        (f"a clear, {(side // 32) ** 2:,} tiles", scenes.clears(side, side, 1), 10),
    ]:
        path = bench.capture(data)
        for count in [1, 4]:
            # 500 at a time, so that neither end waits for the other one to read
            walk = min(clock_of(path, count, ["step", "back"] * min(number, 500)) for _ in range(ROUNDS))
            bench.figure(
                f"step and back over {name}, {count} {'worker' if count == 1 else 'workers'}",
                walk / min(number, 500) * 1e6,
                "us",
            )


def clock_of(path, workers, lines):
    with Session(path, workers) as session:
        return session.ask(lines)[1]
