"""growths: in the crates that promise evidence of a want of memory, lists grow by fd_memory alone, and nobody else
gives that evidence.

A call of fd_memory that is refused gives `Wanted`, which nothing else gives. So its crate has to be the only one
that asks for memory there, and no definition or proof of another crate may name more of it than that word: the
prover accepts a proof that names what the crate itself proves. So it is with what the other crates prove of their
own implementations, by which they give evidence of a read or of a refusal: no crate names that of another one.
"""
import pathlib
import re

from folders import TOP

from wrong_versions import exchanged
from . import Found

LOW = "fd_memory"
MADE = re.compile(r"\b(?:with_capacity|Box::new|String::from)\(|\b(?:vec|format)!\[?\(?in\b")  # each asks for memory
GROWS = re.compile(
    r"\.(?:push|push_str|insert|resize|append|extend_from_slice|reserve|clone|to_vec)\("
)  # these do, where they can be refused
REFUSED = re.compile(r"\)\s*(?:\?|\.map_err|\.is_err|\.is_ok|\.ok\(|\.or_else)")
NAMED = re.compile(rf"\bRattle\.{LOW}\.(?!specs\.Wanting\b)[\w.]*")
OWN = re.compile(
    r"\bRattle\.(fd_\w+)\.specs\.contracts\.[\w.]*\bTheImpl\.Laws\b[\w.]*"
)  # what a crate proves of an implementation
COMMENT = re.compile(r"//.*|--.*")


def crates(text):
    """The crates of crates.txt that stand on fd_memory."""
    lines = [line.split("#")[0].partition(":") for line in text.splitlines()]
    return [head.split()[0] for head, _, below in lines if LOW in below.split()]


def growths(text):
    """What of a source asks for memory by itself, statement by statement."""
    for statement in COMMENT.sub("", text).split(";"):
        found = MADE.search(statement) or (REFUSED.search(statement) and GROWS.search(statement))
        if found:
            yield " ".join(statement[found.start() :].split())[:60]


def wrong(files, names):
    """What is wrong in these files, texts by their paths below crates/: the sources of these crates, and the
    definitions and proofs of all."""
    for path, text in files.items():
        is_test = "tests" in path.with_suffix("").parts
        if path.suffix == ".rt" and path.parts[0] in names and not is_test:
            yield from (f"{path} asks for memory by itself: {words}" for words in growths(text))
        if path.parts[0] != LOW:
            yield from (f"{path} names {found}" for found in NAMED.findall(COMMENT.sub("", text)))
        yield from (
            f"{path} names {found[0]}"
            for found in OWN.finditer(COMMENT.sub("", text))
            if found[1] not in (path.parts[0], LOW)
        )


MADE_UP = {  # files that aren't there, by their text
    "fd_low/src/list.rt": (
        "ghost use Rattle.fd_memory.specs.Wanting.{Wanted};\n// vec![in alloc; 0; 1]\nfd_memory::push(kept, "
        "pixel)?;\nmarks.push(mark).unwrap();\n"
    ),
    "fd_low/src/list/tests.rt": "list.push(1)?;\n",
    "fd_low/proofs/Lists.antt": "use Rattle.fd_memory.specs.Wanting.{Wanted}\n",
    "fd_other/src/lib.rt": "list.push(1)?;\n",
    "fd_memory/src/lib.rt": "list.push(item)?;\n",
}


ITS_LAW = "specs.contracts.reading.ClapReading.TheImpl.Laws.{gives-law}"


def of_made_up(file, old, new):
    """What is wrong in them where a text of a file is another one."""
    files = {pathlib.Path(name): exchanged(text, old, new) if name == file else text for name, text in MADE_UP.items()}
    return list(wrong(files, ["fd_low"]))


def wrong_versions():
    source, proof = "fd_low/src/list.rt", "fd_low/proofs/Lists.antt"
    return {
        "all is well": lambda: of_made_up(source, "kept", "list") == [],
        "a push": lambda: len(of_made_up(source, "fd_memory::push(kept, pixel)?", "kept.push(pixel)?")) == 1,
        "a push on two lines": lambda: len(
            of_made_up(source, "marks.push(mark).unwrap()", "marks\n  .push(mark)\n  .map_err(|_| Full)?")
        )
        == 1,
        "a list of its own": lambda: len(of_made_up(source, "// vec", "let a = vec")) == 1,
        "room": lambda: len(of_made_up(source, "fd_memory::push(kept, pixel)", "Vec::with_capacity(alloc, 2)")) == 1,
        "the evidence itself": lambda: len(of_made_up(proof, "specs.Wanting.{Wanted}", "specs.Making.{wanted}")) == 1,
        "its generated law": lambda: len(
            of_made_up(proof, "specs.Wanting.{Wanted}", "specs.contracts.HeapGrowth.TheImpl.Laws.{gives-law}")
        )
        == 1,
        "another crate's law": lambda: len(
            of_made_up(proof, "fd_memory.specs.Wanting.{Wanted}", f"fd_arguments.{ITS_LAW}")
        )
        == 1,
        "its own law": lambda: of_made_up(proof, "fd_memory.specs.Wanting.{Wanted}", f"fd_low.{ITS_LAW}") == [],
        "which crates": lambda: crates(
            "fd_memory: smallvec\nfd_low tests_may=Threads: fd_memory x # fd_other\nfd_other: fd_low\n"
        )
        == ["fd_low"],
    }


def found():
    top = TOP / "crates"
    paths = [path for ending in ("rt", "antt") for path in top.glob(f"*/[sp]*/**/*.{ending}")]
    files = {path.relative_to(top): path.read_text() for path in sorted(paths)}
    names = crates((TOP / "crates.txt").read_text())
    return Found(
        f"{len(files)} files; {len(names)} crates stand on {LOW}: {' '.join(names)}", list(wrong(files, names))
    )
