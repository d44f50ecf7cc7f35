"""map: the map of docs/ARCHITECTURE.md is whole and shows nothing that isn't there, and what the documents tell one
to make can be made.

Each crate of crates.txt has a row, and each row's crate is there. So has each folder of programs, and its README.md,
and that of docs/, names whatever lies there, by a pattern or by itself; each name at the left of its tables is
there. Each file that the page names is there. Each `make WORD` of a document is a target of the Makefile.
"""
import fnmatch
import pathlib
import re
import tempfile

import folders
from folders import TOP

from wrong_versions import exchanged
from . import Found

PAGE = TOP / "docs/ARCHITECTURE.md"
FOLDERS = [folder.name for folder in folders.FOLDERS if folder.parent == TOP]
READ = [*FOLDERS, "docs"]  # that have a README.md
NAME = re.compile(r"`([^`]+)`")
MADE = re.compile(r"(?:^|`)make ([a-z][\w-]*)", re.M)
FILE = re.compile(r"`([\w.-]+(?:/[\w.-]+)+/?)`")


def table(page, head):
    """The rows below a table's head, as lists of cells."""
    _, found, rest = page.partition(f"| {head} |")
    rows = [line for line in rest.partition("\n\n")[0].splitlines()[2:]] if found else []
    return [[cell.strip() for cell in row.strip("|").split("|")] for row in rows]


def crates(top):
    lines = [line.partition("#")[0] for line in (top / "crates.txt").read_text().splitlines()]
    return {line.split(":")[0].split()[0] for line in lines if line.strip()}


def entries(folder):
    """The names of what lies in a folder, a folder's with a stroke; its README.md and what Python itself writes are
    left out."""
    shown = [
        entry
        for entry in folder.iterdir()
        if entry.name not in ("README.md", "__pycache__") and not entry.name.startswith(".")
    ]
    return {entry.name + "/" * entry.is_dir() for entry in shown}


def left_of(page, head):
    """The names in the first column of a page's table."""
    return {name for row in table(page, head) for name in NAME.findall(row[0])}


def is_there(top, name):
    """Whether a file that the page names is there: from the top, beside the page, or of a crate."""
    return any((top / place / name).exists() for place in ("", "docs", "crates", "crates/fd_crew"))


def readmes(top):
    """The README.md of each folder of programs, and of docs/, by the folder's name, or none."""
    files = {name: top / name / "README.md" for name in READ}
    return {name: file.read_text() if file.exists() else "" for name, file in files.items()}


def folder_faults(texts, top):
    """What the README.md of a folder leaves out of what lies there, or shows and isn't there, a line each."""
    for name, text in texts.items():
        shown, there = left_of(text, "Name"), entries(top / name)
        yield from (
            f"{name}/README.md: {entry} is left out"
            for entry in sorted(there)
            if not any(fnmatch.fnmatch(entry, pattern) for pattern in shown)
        )
        yield from (
            f"{name}/README.md: {pattern} isn't there"
            for pattern in sorted(shown)
            if not fnmatch.filter(there, pattern)
        )


def faults(page, top):
    """What the map leaves out, or shows and isn't there, a line each."""
    shown = {NAME.findall(row[0])[0] for row in table(page, "Crate") if NAME.findall(row[0])}
    for name in sorted(crates(top) ^ shown):
        yield f"the crate {name} has no row" if name not in shown else f"the row of {name} is of no crate"
    rows = {name.rstrip("/") for name in left_of(page, "Folder")}
    for name in sorted(rows ^ set(FOLDERS)):
        yield f"the folder {name} has no row" if name not in rows else f"the row of {name} is of no folder of programs"
    for name in sorted(set(FILE.findall(page))):
        if "/" in name.strip("/") and not is_there(top, name):
            yield f"it names {name}, which isn't there"


def targets(top):
    return set(re.search(r"^\.PHONY: (.*)$", (top / "Makefile").read_text(), re.M)[1].split())


def unmade(pages, top):
    """What pages, by their names, tell one to make and the Makefile doesn't, a line each."""
    for name, text in pages.items():
        yield from (f"{name}: there is no make {word}" for word in sorted(set(MADE.findall(text)) - targets(top)))


def is_seen(page, name, kind):
    """Whether one more crate or tool beside those that are there is missed."""
    with tempfile.TemporaryDirectory() as folder:
        top = pathlib.Path(folder)
        (top / "tools").mkdir()
        for entry in [*TOP.iterdir(), *(TOP / "tools").iterdir()]:
            if entry.name not in ("tools", "crates.txt"):
                (top / entry.relative_to(TOP)).symlink_to(entry)
        (top / "crates.txt").write_text(
            (TOP / "crates.txt").read_text() + (f"{name}: fd_cli\n" if kind == "crate" else "")
        )
        if kind == "tool":
            (top / "tools" / name).write_text("")
        return any(name in line for line in [*faults(page, top), *folder_faults(readmes(top), top)])


WRONG = {  # a text of the map, and what stands there instead
    "a row of a crate left out": ("| `fd_owner` |", "| fd_owner |"),
    "a folder left out": ("| `build/` |", "| build |"),
    "a folder that isn't there": ("| `build/` |", "| `build/`, `make/` |"),
    "a definition that isn't there": ("specs/Covers.antt", "specs/Cover.antt"),
    "no table": ("| Folder |", "| Folders |"),
}
WRONG_TEXTS = {  # the same of the README.md of a folder
    "a tool left out": ("tools", "`mesh_to_capture`", "mesh_to_capture"),
    "a tool that isn't there": ("tools", "`fdb`,", "`fdbg`,"),
    "a pattern of nothing": ("checks", "`check_*`", "`check_*`, `chock_*`"),
    "a page left out": ("docs", "[`GUIDE.md`]", "[GUIDE.md]"),
}


def is_told(text):
    """Whether a document of this text is found to tell one to make what can't be made."""
    return any(unmade({"README.md": text}, TOP))


def wrong_versions():
    page, texts = PAGE.read_text(), readmes(TOP)
    return {
        **{name: lambda change=change: any(faults(exchanged(page, *change), TOP)) for name, change in WRONG.items()},
        **{
            name: lambda where=where, change=change: any(folder_faults({where: exchanged(texts[where], *change)}, TOP))
            for name, (where, *change) in WRONG_TEXTS.items()
        },
        "no README": lambda: any(folder_faults({"benches": ""}, TOP)),
        "a target that isn't there": lambda: is_told("Say `make coffee`.")
        and is_told("```sh\nmake coffee   # hot\n```"),
        "a new tool": lambda: is_seen(page, "another_tool", "tool"),
        "a new crate": lambda: is_seen(page, "fd_another", "crate"),
    }


def found():
    pages = {
        file.relative_to(TOP).as_posix(): file.read_text()
        for pattern in ("*.md", "docs/*.md", "*/README.md")
        for file in sorted(TOP.glob(pattern))
    }
    wrong = [
        *(f"docs/ARCHITECTURE.md: {line}" for line in faults(PAGE.read_text(), TOP)),
        *folder_faults(readmes(TOP), TOP),
        *unmade(pages, TOP),
    ]
    count = sum(len(entries(TOP / name)) for name in READ)
    return Found(f"{len(crates(TOP))} crates and {count} entries of {len(READ)} folders", wrong)
