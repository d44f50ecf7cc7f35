"""Parts on what touches few tiles of many: draws on ever larger targets, triangles that draw nothing, thin ones,
switches of a state, histories in a mesh."""
import random

import scenes
from frames import to_the_end
from scenes import PIXEL, captures, compact
from turns import Work

SIDE = 2048


def few_tiles(bench):
    """events that touch few tiles or none: goto to the end, and a state switched off and on there"""
    least, taken = bench.scaled(512, 32), []
    triangles = scenes.small(least, least, bench.scaled(1_000), True).triangles
    for side in [512, 1024, 2048]:
        side, end = bench.scaled(side, 32), 1 + len(triangles)
        work = Work(
            bench.capture(scenes.Scene(side, side, triangles).capture()), ("goto 1",), (f"goto {end}",), f"at {end}"
        )
        taken.append(bench.timed(f"the same {len(triangles):,} draws of 8 pixels, {side} by {side}, forward", work))
    # they touch the same tiles of each target
    bench.figure("the same draws, the largest target beside the least", taken[2].over(taken[0]), "times", most=1.1)
    side, count = bench.scaled(SIDE, 32), bench.scaled(65_536)
    to_the_end(
        bench,
        f"{count:,} triangles without an area, one draw, {side} by {side}",
        nothing_drawn(side, count, flat=True),
        2,
        times=500,
    )
    to_the_end(
        bench,
        f"{count:,} culled triangles, one draw, {side} by {side}",
        nothing_drawn(side, count, flat=False),
        2,
        times=100,
    )
    thin = thin_triangles(side, bench.scaled(3_000))
    to_the_end(
        bench,
        f"{len(thin.triangles):,} thin triangles, one draw, {side} by {side}",
        thin.capture(len(thin.triangles)),
        2,
        times=7,
    )
    switches(bench, side)


def in_draws(bench):
    """4,000 triangles anywhere, in draws of 25 and in one draw, and a history in 65,536 of them in random order"""
    count = bench.scaled(4_000, 25)
    for side, most in [(512, 1.5), (SIDE, None)]:
        side, taken = bench.scaled(side, 32), []
        scene, anywhere = scenes.small(side, side, count, True), f"{count:,} triangles anywhere, {side} by {side}"
        for per_draw in [25, count]:
            end = 1 + count // per_draw
            work = Work(bench.capture(scene.capture(per_draw)), ("goto 1",), (f"goto {end}",), f"at {end}")
            taken.append(
                bench.timed(f"{anywhere}, {'one draw' if per_draw == count else 'draws of 25'}, forward", work)
            )
        bench.figure(f"{anywhere}, draws of 25 beside one draw", taken[0].over(taken[1]), "times", most=most)
    scene = scenes.shuffled_mesh(bench.scaled(SIDE, 32), bench.scaled(65_536))
    path, (x, y, _, _), times = bench.capture(scene.capture(len(scene.triangles))), scene.triangles[0][0], 100
    # the corner's own pixel is its triangle's, and no other one covers it
    work = Work(path, ("goto 2",), (f"history {x} {y}",) * times, "history 1")
    bench.timed(f"a hundred histories in {len(scene.triangles):,} triangles in random order", work)


def nothing_drawn(side, count, flat):
    """One draw of triangles over the whole target, by indices of one digit, so that the capture is short: without an
    area, or culled."""
    places = [(0, 0), (side // 2, side // 2), (side, side)] if flat else [(0, 0), (0, side), (side, 0)]
    draw = compact(
        captures.draw(
            [captures.vertex(x * PIXEL, y * PIXEL, (9, 9, 9, 255)) for x, y in places], indices=[0, 1, 2] * count
        )
    )
    # what is culled stands in the state that a frame begins with
    return scenes.frame(side, side, [scenes.BOTH_SIDES if flat else scenes.MARKER, draw])


def thin_triangles(side, count):
    """Triangles a pixel wide at one end, from one border of the target to the opposite one."""
    generator = random.Random(1)
    triangles = []
    for number in range(count):
        top, bottom = generator.randrange(side), generator.randrange(side)
        colour = (number % 256, 99, 9, 255)
        triangles.append([(top, 0, 0, colour), (top + 1, 0, 0, colour), (bottom, side, 0, colour)])
    return scenes.Scene(side, side, triangles)


def switches(bench, side):
    """Draws anywhere, each ten with a blending of their own; the one in the middle is switched off and on at the
    end."""
    scene = scenes.small(side, side, bench.scaled(3_000), True)
    opaque = scenes.BLENDED.replace('"SRC_ALPHA","INV_SRC_ALPHA","ADD"', '"ONE","ONE","ADD"', 1)
    events = []
    for number, draw in enumerate(scene.draws(1)):
        if number % 10 == 0:
            events.append(opaque if number % 20 else scenes.BLENDED)
        events.append(draw)
    middle = 1 + 11 * (len(scene.triangles) // 20)
    end = len(events)
    work = Work(
        bench.capture(scenes.frame(side, side, events)),
        (f"goto {end}",),
        (f"off {middle}", f"on {middle}"),
        f"at {end}",
    )
    bench.timed(f"a state of {end:,} events off and on at the end, {side} by {side}", work)
