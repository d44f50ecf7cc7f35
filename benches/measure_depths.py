#!/usr/bin/env python3
"""measure_depths: what a depth of each pixel costs a client; each is asked for by a `pixel` line, and no other way is.

    benches/measure_depths.py [WIDTH HEIGHT]

Three clients ask for the same depths, 800 by 600 of them: one has all lines on their way while replies come in, and
looks at a word of each, as `Client.depths` does; one sends 512 lines and makes values of their replies, as
`Client.pixels` does; and one waits for each reply. A line a figure is printed, the ratio to the first client first.
Times are the wall's, the best of some rounds by turns.
"""
import argparse
import json
import pathlib
import tempfile
import time

import folders

import captures
from captures import PIXEL, clear, depth, draw, raster, vertex
from framedbg_client import Client
from framedbg_client.program import tried_program

ROUNDS, FEW = 5, 20  # rounds by turns; the client that waits asks for one depth of so many
FARTHEST = 60_000


def words_given():
    how = argparse.RawDescriptionHelpFormatter
    parser = argparse.ArgumentParser(description=__doc__, formatter_class=how)
    parser.add_argument(
        "size", metavar="SIZE", nargs="*", type=int, default=[800, 600], help="width and height [800 600]"
    )
    words = parser.parse_args()
    if len(words.size) != 2 or min(words.size) < 1 or max(words.size) > captures.MOST_SIDE:
        parser.error("WIDTH and HEIGHT are wanted")
    return words


def slope(width, height):
    """A capture whose depths grow to the right, over all of the target."""
    corners = [(-width, -height, 0), (3 * width, -height, FARTHEST), (-width, 3 * height, 0)]
    return captures.frame(
        width,
        height,
        [
            clear(0, 0, 0, 255),
            raster("none"),
            depth(),
            draw([vertex(x * PIXEL, y * PIXEL, [9, 9, 9, 9], z) for x, y, z in corners]),
        ],
    )


def one_by_one(client, width, height):
    return [client.pixel(x, y).depth for y in range(height) for x in range(0, width, FEW)]


def in_bundles(client, width, height):
    return [pixel.depth for pixel in client.pixels([(x, y) for y in range(height) for x in range(width)])]


def at_once(client, width, height):
    return client.depths(0, 0, width, height)


WAYS = [("all on their way", at_once, 1), ("512 at a time", in_bundles, 1), ("one at a time", one_by_one, FEW)]


def measured(path, width, height):
    """Seconds of each way for all depths. A run answers a million lines, so each round has runs of its own."""
    best, wanted = {}, None
    for _ in range(ROUNDS):
        for name, way, every in WAYS:
            with Client(path, tried_program()) as client:
                client.goto(4)
                start = time.perf_counter()
                found = way(client, width, height)
                seconds = (time.perf_counter() - start) * width * height / len(found)
            best[name] = min(best.get(name, seconds), seconds)
            wanted = wanted or found
            if found != [depth for row in range(height) for depth in wanted[row * width : (row + 1) * width : every]]:
                raise SystemExit(f"measure_depths: {name}: other depths")
    return best


def main():
    width, height = words_given().size
    with tempfile.TemporaryDirectory() as folder:
        path = pathlib.Path(folder) / "slope.json"
        path.write_text(json.dumps(slope(width, height)))
        best = measured(path, width, height)
    least = best[WAYS[0][0]]
    for name, seconds in best.items():
        print(f"{seconds / least:.3g}  {name}: {seconds:.3g} s, {seconds / width / height * 1e6:.3g} us a depth")


if __name__ == "__main__":
    main()
