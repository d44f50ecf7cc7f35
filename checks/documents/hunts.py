"""hunts: each session that docs/HUNTS.md shows is one of examples/hunts/ with its replies, line by line, and each
hunt's bug shows, has its pictures where they are seen at once, and its answer folded."""
import pathlib
import re
import shutil
import tempfile

from folders import TOP

from wrong_versions import exchanged
from . import Found
from .sessions import difference, lines_of

PAGE, HUNTS, PICTURES = TOP / "docs/HUNTS.md", TOP / "examples/hunts", TOP / "docs/images/hunts"
WRONG_PAGES = {  # a text of the page, and what stands there instead
    "another reply": ("\nat ", "\nat 1"),
    "a hunt without a picture": ("images/hunts/chain.png", "images/hunts/chains.png"),
    "an answer in the open": ("<details><summary>Who did it?</summary>\n\n**A wrong winding", "**A wrong winding"),
    "a hunt without an answer": ("**A wrong winding.**", "</details>"),
    "a picture that is folded": ("![fish](images/hunts/fish.png)\n\n", ""),
}
HUNT = re.compile(
    r"^!\[(\w+)\]\(images/hunts/(\w+)\.png\)\n\n[A-Z][^<]+\.\n\n<details><summary>[^<]+</summary>\n\n[^<]{20,}\n"
    r"\n</details>$",
    re.M,
)


def faults(page, hunts, pictures):
    """What is wrong with a page, a folder of hunts and one of their pictures, in words."""
    shown = {}
    for name, block in re.findall(r"^```\n\$ framedbg run examples/hunts/(\w+)\.json\n(.*?)^```$", page, re.M | re.S):
        shown.setdefault(name, []).extend(block.splitlines())
    for name, lines in shown.items():
        found = difference(lines, lines_of(hunts / f"{name}_find.session"), lines_of(hunts / f"{name}_find.expected"))
        if found:
            yield f"docs/HUNTS.md {found} of {name}"
    told = {name for name, picture in HUNT.findall(page) if name == picture}
    for session in sorted(hunts.glob("*_find.session")):
        name = session.stem.removesuffix("_find")
        if (hunts / f"{name}_show.expected").read_bytes() == (hunts / f"{name}_mended_show.expected").read_bytes():
            yield f"the bug of {name} doesn't show"
        if name not in told or not (pictures / f"{name}.png").exists():
            yield f"docs/HUNTS.md has no picture of {name}, what it shows, and a folded answer"
    if not shown:
        yield "docs/HUNTS.md shows no session"


def is_seen(change, of):
    """Whether something is wrong where a copy of the folder of hunts, or of that of pictures, is changed."""
    with tempfile.TemporaryDirectory() as room:
        copy = shutil.copytree(of, pathlib.Path(room) / of.name)
        change(copy)
        return any(faults(PAGE.read_text(), *(copy if of == folder else folder for folder in (HUNTS, PICTURES))))


def mend(copy):
    """The bug of a hunt no longer shows."""
    shutil.copy(copy / "fish_mended_show.expected", copy / "fish_show.expected")


def wrong_versions():
    page = PAGE.read_text()
    return {
        **{
            name: lambda change=change: any(faults(exchanged(page, *change), HUNTS, PICTURES))
            for name, change in WRONG_PAGES.items()
        },
        "no session": lambda: any(faults("", HUNTS, PICTURES)),
        "a bug that doesn't show": lambda: is_seen(mend, HUNTS),
        "a picture that isn't there": lambda: is_seen(lambda copy: (copy / "fish.png").unlink(), PICTURES),
    }


def found():
    return Found("sessions that the gate replays", list(faults(PAGE.read_text(), HUNTS, PICTURES)))
