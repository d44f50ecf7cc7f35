"""lemmas: each lemma and definition of the crates is named somewhere, by another one, by a contract, by code, or by
a must-fail edit.

A name counts where it stands beside its own block: its statement, its clauses, and what lies between them. To take
it from its file isn't to name it. Looked at are the files of definitions and of lemmas, and not those below them:
the prover asks for these by name. A field of a record may be there for a reader.
"""
import collections
import pathlib
import re

from folders import TOP

from wrong_versions import exchanged
from . import Found, specs

BEGINS = re.compile(r"^(?:pub )?(?:abbrev (?:pub )?|data |record |ghost )?(?:pub )?([^\s:(){}]+) :(?: |$)")
BETWEEN = re.compile(r"[\s(){}\[\],;.:]+")
IMPORTS = re.compile(r"\s*(?:pub |ghost )?use ")
ENDINGS = (".antt", ".rt", ".edit")


def blocks(text):
    """The name of each lemma and definition, or none, and its lines, which go on while they begin with its name or
    further right. Those of a module lie two to the right."""
    name, own, margin = "", [], ""
    for line in text.splitlines():
        if line and not line.startswith(" "):
            margin = "  " if line.startswith("module ") else ""
        begun = BEGINS.match(line.removeprefix(margin)) if line.startswith(margin) else None
        first = line.removeprefix(margin).split(" ")[0]
        if begun or (
            line
            and first
            and first != name
            and not line.startswith(margin + "--")
            and first not in ("unfolding", "where")
        ):
            yield name, own
            name, own = begun.group(1) if begun else "", []
        own.append(line)
    yield name, own


def is_looked_at(path):
    """Whether a file of lemmas or definitions is no answer to the prover, which names what is in it."""
    return path.suffix == ".antt" and (path.parent.name == "specs" or path.parent.name == "proofs")


def reached(text):
    """The names that a file takes from others. What it takes it need not name."""
    return {
        there.strip()
        for _, names in specs.USE.findall(text)
        for name in names.split(",")
        for there in name.split(" as ")
    }


def named_in(path, text):
    """The names that each block of a file names beside its own, where they are the file's or taken from others: a
    word may be a local name elsewhere."""
    parts = list(blocks(text)) if path.suffix == ".antt" else [("", text.splitlines())]
    known = reached(text) | {name for name, _ in parts}
    for name, lines in parts:
        words = set(BETWEEN.split("\n".join(line for line in lines if not IMPORTS.match(line) or " as " in line)))
        yield name, (words & known if path.suffix == ".antt" else words) - {name}


def unnamed(files):
    """The names that nothing else names, each after its file. The files are texts by their paths."""
    counts, defined = collections.Counter(), []
    for path, text in files.items():
        for name, words in named_in(path, text):
            counts.update(words)
            if name and is_looked_at(path):
                defined.append((path, name))
    return [f"{path}: {name}" for path, name in defined if not counts[name]]


def sources(top):
    files = [
        path
        for path in (top / "crates").rglob("*")
        if path.suffix in ENDINGS and "out" not in path.relative_to(top).parts
    ]
    return {path.relative_to(top): path.read_text() for path in sorted(files)}


MADE_UP = {  # files that aren't there, by their text
    "specs/One.antt": (
        "abbrev pub one : ℕ\none = 1\n\npub both : (n : ℕ) → n ≡ one\nboth n = both n\n\npub both_again : "
        "ℕ\nboth_again = 2\n"
    ),
    "proofs/Two.antt": (
        "use Rattle.fd_a.specs.One.{one, both_again as again}\nmodule _ (n : ℕ) where\n  pub inner : n ≡ n\n  "
        "inner = refl\n\n  outer : n ≡ n\n"
        "  outer =\n      inner\n\npub two : ℕ\ntwo = let both = 1 in outer both again\n"
    ),
    "proofs/three/three/Answers.antt": "use Rattle.fd_a.proofs.Two.{two}\npub returns : ℕ → ℕ\nreturns c = two\n",
    "src/four.rt": "ghost use Rattle.fd_a.specs.One.{one};\nfn four()\n    ensures { held by }\n{}\n",
}


def of_made_up(name="", old="", new=""):
    """Those of them that nothing names, where a text of a file may be another one."""
    files = {pathlib.Path(file): exchanged(text, old, new) if file == name else text for file, text in MADE_UP.items()}
    return [line.split(": ")[1] for line in unnamed(files)]


def check_made_up():
    """Of `both` another file has a local name, and its own clauses name it."""
    return {
        "named by itself, and elsewhere another of its name": lambda: of_made_up() == ["both"],
        "named by another": lambda: of_made_up("proofs/Two.antt", "{one, ", "{one, both, ") == [],
        "only taken": lambda: of_made_up("src/four.rt", "{one}", "{one, both}") == ["both"],
        "named by a contract": lambda: of_made_up("src/four.rt", "held by", "held by both") == [],
        "of a module": lambda: of_made_up("proofs/Two.antt", "      inner\n", "      refl\n") == ["both", "inner"],
        "under another name": lambda: of_made_up("proofs/Two.antt", ", both_again as again", "")
        == ["both", "both_again"],
        "by a proof alone": lambda: of_made_up("proofs/three/three/Answers.antt", "c = two", "c = 2")
        == ["both", "two"],
    }


def wrong_versions():
    files = sources(TOP)
    path = next(path for path in files if is_looked_at(path) and path.name != "Lib.antt")
    more = files | {path: files[path] + "\npub nobody_names_this : ℕ\nnobody_names_this = 1\n"}
    return {**check_made_up(), "one more in the repository": lambda: f"{path}: nobody_names_this" in unnamed(more)}


def found():
    files = sources(TOP)
    count = sum(1 for file, text in files.items() if is_looked_at(file) for name, _ in blocks(text) if name)
    return Found(f"{count} lemmas and definitions", [f"nothing names {line}" for line in unnamed(files)])
