"""Edits that must fail: what they change, and which of them can be made in one copy of a crate."""
import pathlib
import re
from typing import NamedTuple

from editing import functions

PARTS = ("src", "specs", "proofs")
LINE = re.compile(r"^(file|old|new):(?: ?)(.*)$", re.M)
BREAKS = re.compile(r"^breaks: (\S+)$", re.M)  # of an edit outside of bodies, a function that it leaves unproved


class Edit(NamedTuple):
    crate: str
    name: str
    text: str
    pairs: tuple  # of a file, what stands there, and what is to stand there
    functions: frozenset  # whose bodies it changes, or which it says that it breaks; None is a place outside of bodies
    is_of_bodies: bool = True

    def __str__(self):
        return f"{self.crate}/{self.name}"

    def proofs(self):
        return {it and it.proof() for it in self.functions}

    def is_of_functions(self):
        """Whether a check of functions tells its verdict, and not only one of the whole crate."""
        return None not in self.functions


def texts_of(folder):
    """What a crate is proved from: the texts of its files by their paths in it."""
    files = [file for part in PARTS for file in sorted(pathlib.Path(folder, part).rglob("*.*t")) if file.is_file()]
    return {file.relative_to(folder).as_posix(): file.read_text() for file in files}


def pairs_of(text):
    """The pairs of an edit's text. Whether it can be applied is for rt to say."""
    here, pairs = {}, []
    for kind, said in LINE.findall(text):
        here[kind] = said
        if kind == "new":
            pairs.append((here.get("file", "").strip(), here.get("old", ""), said))
    return tuple(pairs)


def made_by(pairs, texts):
    """The changed texts with these pairs exchanged, and the functions in whose bodies that is; None where one
    doesn't stand once in its file."""
    made, changed = {}, set()
    for file, old, new in pairs:
        now = made.get(file, texts.get(file, ""))
        if not old or now.count(old) != 1:
            return None
        changed.add(
            functions.in_body(file, now, now.count("\n", 0, now.index(old))) if file.startswith("src/") else None
        )
        made[file] = now.replace(old, new)
    return made, frozenset(changed)


def edit_of(crate, file, texts):
    """An edit of a file that can be applied."""
    text = file.read_text()
    pairs = pairs_of(text)
    made = made_by(pairs, texts)
    changed = made[1] if made else frozenset([None])
    broken = frozenset(functions.named(end, texts) for end in BREAKS.findall(text))
    return Edit(crate, file.stem, text, pairs, broken or changed, None not in changed)


def can_be_made(edits, texts):
    """The changed texts with all these edits made; None where one disturbs another."""
    made = made_by([pair for edit in edits for pair in edit.pairs], texts)
    return made and made[0]


def fits(edit, batch, most, texts):
    """Whether an edit can join a batch, of which each member changes proofs of its own."""
    is_apart = edit.is_of_bodies and all(it.is_of_bodies and not it.proofs() & edit.proofs() for it in batch)
    return len(batch) < most and is_apart and can_be_made([*batch, edit], texts) is not None


def batches(edits, most, texts):
    """The edits in as few batches as come of putting each into the first that it fits."""
    made = []
    for edit in edits:
        home = next((batch for batch in made if fits(edit, batch, most, texts)), None)
        if home:
            home.append(edit)
        else:
            made.append([edit])
    return made
