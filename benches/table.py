"""The table of docs/MEASURED.md: which figures each of its rows shows, and the row that they make."""
import re
from dataclasses import dataclass

from bench import short

WAITING = "## Not measured yet"  # the heading of the list of rows without figures
HEAD = "| Work | ratio to plain C | framedbg | plain C |"
MARKS = re.compile(r"(?: (?:†|\\\*))+$")  # behind a row's work: an older build, another host


class Fault(Exception):
    """Why no row can be written."""


@dataclass(frozen=True)
class Row:
    work: str
    figures: tuple  # their names, or for a range a tuple of names

    def names(self):
        return [name for figure in self.figures for name in ([figure] if isinstance(figure, str) else figure)]


MARKERS, ANYWHERE, LARGEST = "65,536 markers", "2048 by 2048", "16,384 by 16,384"
FRUGAL = ("", ", one arena", ", one arena and small stacks")
SMALL = {
    order: (f"16,000 of 8 pixels, {order}, 1 draw", f"16,000 of 8 pixels, {order}, 160 draws")
    for order in ("side by side", "in random order")
}
TESTED = {
    slope: [f"depth test, {slope}, {which} pass" for which in ("all", "alternate", "none")]
    for slope in ("flat, level", "linear, sloped")
}
TOWN, CUT = f"a town, {ANYWHERE}", f"a town in draws of three triangles, {ANYWHERE}"
SIDES = ("2,048 by 2,048", LARGEST)
MILLION, MANY, FAR = (
    f"999,992 draws, one in 8 not empty, {ANYWHERE}",
    f"330,000 draws of 8 pixels, {ANYWHERE}",
    f"65,536 draws of 8 pixels, {LARGEST}",
)


def with_workers(what, counts):
    return tuple(f"{what}, {count} {'worker' if count == 1 else 'workers'}" for count in counts)


def least_space(frugally):
    return tuple(
        f"{workers}{frugally}: least address space of one jump to the end"
        for workers in ("1 worker", "4 workers", "64 workers")
    )


ROWS = [
    Row("flat blended triangles over 1024 by 1024, forward", ("whole target, flat, forward",)),
    Row("the same, linear", ("whole target, linear, forward",)),
    Row("back over the flat ones, the linear ones", ("whole target, flat, back", "whole target, linear, back")),
    Row(
        "with the depth test, level: all pass, every other triangle passes, none passes",
        tuple(f"{name}, forward" for name in TESTED["flat, level"]),
    ),
    Row(
        "with the depth test, sloped and linear: the same three",
        tuple(f"{name}, forward" for name in TESTED["linear, sloped"]),
    ),
    Row(
        "back over them where all or every other one passed: level, sloped",
        tuple(tuple(f"{name}, back" for name in names[:2]) for names in TESTED.values()),
    ),
    Row(
        "16,000 triangles with legs of 8 pixels side by side, in one draw, in 160 draws, forward",
        tuple(f"{name}, forward" for name in SMALL["side by side"]),
    ),
    Row("the same in random order", tuple(f"{name}, forward" for name in SMALL["in random order"])),
    Row(
        "back over them: side by side, in random order",
        tuple(f"{name}, back" for names in SMALL.values() for name in names),
    ),
    Row("reading 41 MB, and 64 MiB, of vertices: time", ("41 MB of vertices, time", "64 MiB of vertices, time")),
    Row("the same: peak memory", ("41 MB of vertices, peak memory", "64 MiB of vertices, peak memory")),
    Row(
        "a history of 10,000 entries: one draw, as many draws",
        ("history of 10,000 entries, one draw", "history of 10,000 entries, as many draws"),
    ),
    Row(
        "a marker, a state event on a tile, forward",
        ("a marker on a tile, forward", "a state event on a tile, forward"),
    ),
    Row("65,536 markers over 2048 by 2048 to the end: one worker, four", with_workers(MARKERS, (1, 4))),
    Row(
        "a million draws over 2048 by 2048, of which one in eight has a triangle: to the end", (f"{MILLION}, forward",)
    ),
    Row("the same: peak memory", (f"{MILLION}, peak memory",)),
    Row("330,000 draws of a small triangle over 2048 by 2048: to the end", (f"{MANY}, forward",)),
    Row("the same: peak memory", (f"{MANY}, peak memory",)),
    Row(
        "the largest target, 16,384 by 16,384: a fresh session, an image",
        tuple(
            tuple(f"{what}, {LARGEST}, version {version}" for version in (1, 2))
            for what in ("a fresh session", "image")
        ),
    ),
    Row(
        "the same: peak memory",
        tuple(
            tuple(f"{what}, {LARGEST}, version {version}, peak memory" for version in (1, 2))
            for what in ("a fresh session", "image")
        ),
    ),
    Row("65,536 small draws on it to the end", (f"{FAR}, forward",)),
    Row("the same: peak memory", (f"{FAR}, peak memory",)),
    Row(
        "memory of a recorded pixel: clears, flat triangles, linear ones",
        tuple(f"a recorded pixel, {what}" for what in ("clears", "whole-target triangles", "the same, linear")),
    ),
    Row(
        "the same with the depth test: level, sloped",
        ("a recorded pixel, with the depth test, level", "a recorded pixel, with the depth test, sloped"),
    ),
    Row(
        "20 large triangles over 2048 by 2048 to the end: one worker, four", with_workers("20 large triangles", (1, 4))
    ),
    Row(
        "the same: how much faster four workers are, beside four processes of plain C",
        ("20 large triangles, 4 workers, speed-up",),
    ),
    Row(
        "3,000 linear triangles in the middle of 2048 by 2048: one worker, four",
        with_workers("3,000 triangles in the middle", (1, 4)),
    ),
    Row("the same: how much faster four workers are", ("3,000 triangles in the middle, 4 workers, speed-up",)),
    *(
        Row(
            f"the least address space of a jump over 60 clears{', ' * bool(how)}{how}: 1, 4, 64 workers",
            least_space(frugally),
        )
        for how, frugally in zip(("", "`MALLOC_ARENA_MAX=1`", "`ulimit -s 256` too"), FRUGAL, strict=True)
    ),
    Row("a town's frame of 3,250 draws and 104,000 triangles over 2048 by 2048: to the end", (f"{TOWN}, to the end",)),
    Row("the same: back to the start, half way back", (f"{TOWN}, back to the start", f"{TOWN}, half way back")),
    Row("the same: a state event in its middle off and on at the end", (f"{TOWN}, a state event off and on",)),
    Row(
        "an image of that town: peak memory with one worker, with four",
        (f"{TOWN}, image, peak memory", f"{TOWN}, image, 4 workers, peak memory"),
    ),
    Row(
        "the same town in draws of three triangles: to the end, a state event off and on",
        (f"{CUT}, to the end", f"{CUT}, a state event off and on"),
    ),
    Row(
        "the same 1,000 draws of 8 pixels over 512 by 512, 1024 by 1024, 2048 by 2048",
        tuple(f"the same 1,000 draws of 8 pixels, {side} by {side}, forward" for side in (512, 1024, 2048)),
    ),
    *(
        Row(
            f"4,000 triangles of 8 pixels anywhere over {size}: in draws of 25, in one draw",
            tuple(f"4,000 triangles anywhere, {size}, {how}, forward" for how in ("draws of 25", "one draw")),
        )
        for size in ("512 by 512", ANYWHERE)
    ),
    Row(
        "65,536 triangles without an area, as many culled ones, 3,000 thin ones, in one draw over 2048 by 2048",
        tuple(
            f"{what} triangles{without}, one draw, {ANYWHERE}, forward"
            for what, without in (("65,536", " without an area"), ("65,536 culled", ""), ("3,000 thin", ""))
        ),
    ),
    Row(
        "a hundred histories in 65,536 triangles in random order",
        ("a hundred histories in 65,536 triangles in random order",),
    ),
    Row(
        "a fresh session with depths: 2048 by 2048, 16,384 by 16,384",
        tuple(f"a fresh session, {size}" for size in SIDES),
    ),
    Row("the same: peak memory, fresh", tuple(f"a fresh session, {size}, peak memory" for size in SIDES)),
    Row(
        "the same: peak memory, after one clear",
        tuple(f"a fresh session and one clear, {size}, peak memory" for size in SIDES),
    ),
    Row("the list of a million markers", ("events of 1,000,000 markers",)),
    Row("the list of a million markers: peak memory", ("events of 1,000,000 markers, peak memory",)),
]


def shown(values):
    """One value, or the least and the greatest of several."""
    least, greatest = short(min(values)), short(max(values))
    return least if least == greatest else f"{least} to {greatest}"


def cells(row, figures):
    """The cells of a row, of figures by name: each a value, its unit, and plain C's value or none."""
    groups = [[figures[name] for name in ([figure] if isinstance(figure, str) else figure)] for figure in row.figures]
    units = list(dict.fromkeys(unit for group in groups for _, unit, _ in group))
    if len(units) != 1:
        raise Fault(f"'{row.work}' has figures in {' and '.join(units)}")
    has_plain = all(plain for group in groups for *_, plain in group)
    ratio = ", ".join(shown([value / plain for value, _, plain in group]) for group in groups) if has_plain else ""
    plain = ", ".join(shown([plain for *_, plain in group]) for group in groups) if has_plain else ""
    return [
        row.work,
        ratio,
        ", ".join(shown([value for value, *_ in group]) for group in groups) + f" {units[0]}",
        plain,
    ]


def lines_of(page):
    """The place of the table's rows in a page's lines: the first, and the one behind the last."""
    lines = page.splitlines()
    if HEAD not in lines:
        raise Fault("the page has no table")
    first = lines.index(HEAD) + 2
    return first, next((number for number in range(first, len(lines)) if not lines[number].startswith("|")), len(lines))


def works(page):
    """The works that the rows of a page's table tell of, without their marks."""
    first, behind = lines_of(page)
    return [MARKS.sub("", line.strip("|").split("|")[0].strip()) for line in page.splitlines()[first:behind]]


def waiting_lines(lines):
    """The places in a page's lines of the list of what isn't measured yet: its heading, and what stands behind it.
    The same place twice where there is none."""
    if WAITING not in lines:
        return len(lines), len(lines)
    first = lines.index(WAITING)
    return first, next((number for number in range(first + 1, len(lines)) if lines[number].startswith("#")), len(lines))


def waiting(page):
    """The works that the page lists as not measured yet."""
    lines = page.splitlines()
    first, behind = waiting_lines(lines)
    return [line.removeprefix("- ") for line in lines[first:behind] if line.startswith("- ")]


def without(lines, measured):
    """A page's lines, where the list of what isn't measured yet has lost some works; without a work it goes."""
    first, behind = waiting_lines(lines)
    kept = [line for line in lines[first:behind] if line.removeprefix("- ") not in measured]
    if not any(line.startswith("- ") for line in kept):
        kept = []
    return lines[:first] + kept + lines[behind:]


def written(page, figures, rows=None):
    """The page with each row whose figures were measured written anew, and how many those are; the others stay as
    they stand, in the table or in the list of what isn't measured yet."""
    rows = ROWS if rows is None else rows
    there, missing = works(page), waiting(page)
    if [row.work for row in rows if row.work not in missing] != there or not set(missing) <= {row.work for row in rows}:
        raise Fault("the page's rows aren't those of benches/table.py")
    lines, (first, behind) = page.splitlines(), lines_of(page)
    measured = [row for row in rows if all(name in figures for name in row.names())]
    stand, shows = iter(lines[first:behind]), []
    for row in rows:
        old = [next(stand)] if row.work not in missing else []
        shows += [f"| {' | '.join(cells(row, figures))} |".replace("|  |", "| |")] if row in measured else old
    lines[first:behind] = shows
    return "".join(f"{line}\n" for line in without(lines, [row.work for row in measured])), len(measured)
