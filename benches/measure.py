#!/usr/bin/env python3
"""measure: measures the program itself, beside plain C doing the same (plain.c, scanner.c) or beside another program, and prints a line a figure, the ratio first.

All parts are run, or those that are named. Times are the processor's, user and system, of one worker, the best of ROUNDS runs (5): of commands, what the
child's clock says behind them less what it said before, and of a whole run its resource usage. Only what is about several workers is by the wall's clock. A
figure that misses what is asked has a "!". All parts together take more than ten minutes. Those on the largest target want 4 GiB of memory, the others less
than one. What took ten seconds is not run once more.

--beside measures another build of the program too, in the same run: the two take turns, and the ratio is this one's figure to the other one's. Then only parts
that know how are run. --write writes what was measured into the table of docs/MEASURED.md, row by row: a row of which a figure wasn't measured stays as it
stands, and so do the marks of older builds; a row that the page lists as not measured yet gets its place in the table.

FRAMEDBG names another program than the one that was built. SCALE=N makes all sizes N times smaller, to try the parts.
"""
import argparse
import os
import pathlib
import sys
import tempfile

import folders

import drawing
import few_tiles
import frames
import reading
import short_memory
import table
import towns
import undrawn
from bench import SCALE, Bench

PARTS = [
    drawing.large_triangles,
    drawing.depth_test,
    drawing.small_triangles,
    frames.events_on_a_tile,
    frames.many_events,
    frames.largest_target,
    few_tiles.few_tiles,
    few_tiles.in_draws,
    towns.town_frame,
    towns.cut_town,
    undrawn.never_drawn,
    frames.history,
    frames.memory,
    frames.growth,
    short_memory.going_on,
    drawing.workers,
    drawing.single_steps,
    reading.reading,
]
ALONE = [
    frames.memory,
    short_memory.going_on,
    drawing.workers,
    drawing.single_steps,
    reading.reading,
]  # these measure one program

PAGE = pathlib.Path(os.environ.get("MEASURED", pathlib.Path(__file__).resolve().parent.parent / "docs/MEASURED.md"))


def write(figures):
    """Writes the rows of the page that were measured."""
    page, count = table.written(PAGE.read_text(), figures)
    PAGE.write_text(page)
    print(f"{PAGE}: {count} of {len(table.ROWS)} rows written")


def words_given():
    names = [part.__name__ for part in PARTS]
    parser = argparse.ArgumentParser(
        description=__doc__, epilog=f"parts: {' '.join(names)}", formatter_class=argparse.RawDescriptionHelpFormatter
    )
    parser.add_argument("--beside", metavar="PROGRAM", help="measure this program too, by turns")
    parser.add_argument(
        "--instructions", action="store_true", help="count instructions too, where `perf stat -e instructions:u` can"
    )
    parser.add_argument("--markdown", action="store_true", help="print rows of a table")
    parser.add_argument("--write", action="store_true", help="write the rows of docs/MEASURED.md that were measured")
    parser.add_argument("parts", nargs="*", metavar="PART", choices=[*names, []], help="all if none is named")
    words = parser.parse_args()
    alone = [part.__name__ for part in ALONE]
    if words.beside and set(words.parts) & set(alone):
        parser.error(f"--beside: these parts measure one program alone: {' '.join(alone)}")
    if words.write and SCALE != 1:
        sys.exit("measure: with SCALE the sizes aren't those of the page, so nothing is written")
    words.parts = [
        part
        for part in PARTS
        if (part.__name__ in words.parts or not words.parts) and not (words.beside and part in ALONE)
    ]
    return words


def main():
    words = words_given()
    with tempfile.TemporaryDirectory() as folder:
        bench = Bench(folder, words.markdown, words.beside, words.instructions)
        for part in words.parts:
            bench.title(f"{part.__name__}: {' '.join(part.__doc__.split())}")
            part(bench)
        if words.write:
            write(bench.figures)


if __name__ == "__main__":
    try:
        main()
    except table.Fault as fault:
        sys.exit(f"measure: {fault}")
