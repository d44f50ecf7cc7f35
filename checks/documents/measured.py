"""measured: the rows of docs/MEASURED.md are those that `benches/measure.py --write` can write, and each has its
figures.

Nothing is measured. Told are a row that is missing or that nobody can write, a row without a figure or with an
unknown mark, and a figure that no part of measure.py has. A row that was never measured stands in the page's list of
these, and not in the table. What is written is tried with figures that are made up.
"""
import re

from folders import TOP

import measure
import rehearsal
import table
from wrong_versions import exchanged
from . import Found

PAGE = TOP / "docs/MEASURED.md"
FIGURE = re.compile(r"\d")


def faults(page, rows, known):
    """What is wrong with the page's table, a line each."""
    try:
        there, missing, known_works = table.works(page), table.waiting(page), [row.work for row in rows]
    except table.Fault as fault:
        yield str(fault)
        return
    yield from (
        f"measure.py knows no row '{work}', which isn't measured yet" for work in missing if work not in known_works
    )
    yield from (
        f"'{work}' isn't measured yet, and is more than one row's"
        for work in missing
        if max(missing.count(work), known_works.count(work)) > 1
    )
    wanted = [work for work in known_works if work not in missing]
    if there != wanted:
        yield from (f"there is no row '{work}'" for work in wanted if work not in there)
        yield from (f"measure.py knows no row '{work}'" for work in there if work not in wanted)
        yield "its rows stand in another order, or twice, than in benches/table.py"
    first, behind = table.lines_of(page)
    for line in page.splitlines()[first:behind]:
        cells = line.strip("|").split("|")
        if len(cells) != 4 or not FIGURE.search(cells[2]):
            yield f"it has no figure in '{line}'"
    for row in rows:
        yield from (
            f"no part of measure.py has the figure '{name}' of '{row.work}'"
            for name in row.names()
            if name not in known
        )


def made_up(rows, ratio=2.0):
    """Figures of some rows: each has another value, and plain C half of it."""
    names = [name for row in rows for name in row.names()]
    return {name: (number + 1.0, "ns", (number + 1.0) / ratio) for number, name in enumerate(names)}


def is_written(page, rows):
    """Whether rows that are measured are written, with their ratios first, and all others stay."""
    some = rows[:1]
    new, count = table.written(page, made_up(some), rows)
    old_lines, new_lines = page.splitlines(), new.splitlines()
    changed = [number for number, line in enumerate(old_lines) if line != new_lines[number]]
    return (
        count == 1
        and changed == [table.lines_of(page)[0]]
        and new_lines[changed[0]] == f"| {some[0].work} | 2 | 1 ns | 0.5 |"
    )


def is_refused(page, rows, figures):
    try:
        table.written(page, figures, rows)
    except table.Fault:
        return True
    return False


def known_figures():
    return set(rehearsal.names(measure.PARTS))


def changes(page, first):
    """A text of the page, and what stands there instead, by what is wrong then. `first` is the work of the first
    row."""
    line, listed = page.splitlines()[table.lines_of(page)[0]], f"{table.WAITING}\n\n- {first}\n"
    return {
        "a row that is measured and isn't": (table.HEAD, f"{listed}\n# Table\n\n{table.HEAD}"),
        "what isn't measured and nobody can measure": (
            table.HEAD,
            f"{listed.replace(first, 'something else')}\n# Table\n\n{table.HEAD}",
        ),
        "a row left out": (f"{line}\n", ""),
        "a row that nobody can write": (line, line.replace(first, "something else")),
        "a row twice": (line, f"{line}\n{line}"),
        "an unknown mark": (f"| {first} |", f"| {first} ‡ |"),
        "a row without a figure": (line, f"| {first} | | | |"),
        "no table": (table.HEAD, "| Work |"),
    }


def wrong_versions():
    page, rows, known = PAGE.read_text(), table.ROWS, known_figures()
    return {
        **{
            name: lambda change=change: any(faults(exchanged(page, *change), rows, known))
            for name, change in changes(page, rows[0].work).items()
        },
        "a figure that is never measured": lambda: any(faults(page, rows, known - {rows[0].names()[0]})),
        "a work in the list that is another row's too": lambda: any(faults(page, [*rows, rows[-1]], known)),
        "rows in another order": lambda: any(faults(page, [*rows[1:], rows[0]], known)),
        "a page of other rows is not written": lambda: is_refused(page, rows[1:], {}),
        "figures of two units are not put together": lambda: is_refused(
            page, rows, {**made_up(rows), rows[2].names()[0]: (1, "s", 1)}
        ),
        "a range": lambda: table.cells(table.Row("x", (("a", "b"),)), {"a": (1, "s", None), "b": (2, "s", None)})
        == ["x", "", "1 to 2 s", ""],
    }


def found():
    page, rows, known = PAGE.read_text(), table.ROWS, known_figures()
    wrong = list(faults(page, rows, known))
    if not wrong and not is_written(page, rows):
        wrong = ["what is measured isn't written, or more is"]
    waiting = "".join(f"; not measured yet: {work}" for work in table.waiting(page))
    return Found(f"{len(rows)} rows of {len(known)} figures{waiting}", [f"docs/MEASURED.md: {line}" for line in wrong])
