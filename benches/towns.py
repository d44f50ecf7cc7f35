"""Parts on the frame of a town, whole and cut into draws of three triangles: to the end, back, a state switched
there, an image."""
from bench import HERE, SCALE
from frames import whole_run
from town import Town
from turns import Work

CUT = 3  # triangles a draw
REAL = [HERE.parent / "examples/real" / name for name in ("cube.json", "gears.json")]


def town_frame(bench):
    """the frame of a town: goto to the end, back to the start and half way, a state event in its middle off and on
    at the end; images of it and of two real frames"""
    town = Town(scale=SCALE)
    path, end = bench.capture(town.capture()), len(town.events)
    half, middle = end // 2, town.middle_change()
    name = f"a town, {town.side} by {town.side}"
    bench.timed(f"{name}, to the end", Work(path, (), (f"goto {end}",), f"at {end}"))
    bench.timed(f"{name}, back to the start", Work(path, (f"goto {end}",), ("goto 0",), "at 0"), times=15)
    bench.timed(f"{name}, half way back", Work(path, (f"goto {end}",), (f"goto {half}",), f"at {half}"), times=5)
    bench.timed(
        f"{name}, a state event off and on",
        Work(path, (f"goto {end}",), (f"off {middle}", f"on {middle}"), f"at {end}"),
        times=30,
    )
    for of, picture in [(name, path), *((f"examples/real/{real.name}", real) for real in REAL)]:
        for workers in ["1", "4"]:
            how = "image" if workers == "1" else "image, 4 workers"
            whole_run(bench, f"{of}, {how}", ["image", "--workers", workers, picture], "ms", memory={"times": 2})


def cut_town(bench):
    """the same town cut into draws of three triangles: goto to the end, a state event in its middle off and on there"""
    town = Town(pieces=CUT, scale=SCALE)
    path, end, middle = bench.capture(town.capture()), len(town.events), town.middle_change()
    name = f"a town in draws of three triangles, {town.side} by {town.side}"
    bench.timed(f"{name}, to the end", Work(path, (), (f"goto {end}",), f"at {end}"), times=2.5)
    bench.timed(
        f"{name}, a state event off and on",
        Work(path, (f"goto {end}",), (f"off {middle}", f"on {middle}"), f"at {end}"),
    )
