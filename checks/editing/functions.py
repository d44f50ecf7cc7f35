"""Where functions stand in a source that is laid out as `rt fmt` does."""
import functools
import pathlib
import re
from typing import NamedTuple

HEAD = re.compile(r"( *)(?:pub(?:\([\w:]+\))? )?(?:const )?(?:unsafe )?fn (\w+)")
OF = re.compile(r"(?:unsafe )?(?:impl|(?:pub(?:\(\w+\))? )?trait)\b(?:<.*?>)? ?(.*?)(?:\s*\{| where|$)")
CYCLE = re.compile(r"#\[cycle\((\w+)\)\]")
ROOTS = ("lib", "main", "mod")  # files that give their module no name


class Function(NamedTuple):
    path: tuple  # its modules below the crate, and its type or trait
    name: str
    cycle: str = ""  # of calls, whose members share one proof

    def __str__(self):
        return "::".join((*self.path, self.name))

    def is_of_type(self):
        return bool(self.path) and self.path[-1][0].isupper()

    def end(self):
        """The end of what the prover names it: its module may be that of its type."""
        return f"{self.path[-1]}::{self.name}" if self.is_of_type() else str(self)

    def proof(self):
        """What two edits of one check can't both change."""
        return self.cycle or self

    def proofs(self):
        """The folder of its proof files."""
        if self.cycle:
            return "/".join(["proofs", *(part for part in self.path if not part[0].isupper()), f"+{self.cycle}"])
        return "/".join(["proofs", *self.path, self.name])


class Place(NamedTuple):
    function: Function
    first: int  # its first line, counted from 0: that of its attributes
    body: int  # the line that opens its body
    last: int


def type_of(line):
    """The type or trait to which an item gives functions, as the prover names it: `impl Sink for File<T>` gives
    those of FileSink, `impl From<Bad> for Stop` those of StopFromBad."""
    head = OF.match(line)
    names = re.sub(r"\bFrom<(\w+)", r"From\1<", head[1]).split(" for ")[::-1] if head else []
    return "".join(re.sub(r"<.*", "", name).split("::")[-1].strip("& ") for name in names)


def end_of(lines, at, indent):
    """The lines at which the body of the function whose head stands there begins and ends."""
    opens = (f"{indent}{{", f"{indent})")
    heads = (it for it in range(at, len(lines)) if it == at or lines[it].startswith(opens))
    body = next((it for it in heads if lines[it].endswith("{")), len(lines))
    return body, next((it for it in range(body, len(lines)) if lines[it] == f"{indent}}}"), len(lines))


@functools.lru_cache(maxsize=None)
def places(file, text):
    """The places of the functions of a source."""
    module = tuple(part for part in pathlib.PurePath(file).with_suffix("").parts[1:] if part not in ROOTS)
    lines, of, found = text.split("\n"), "", []
    for at, line in enumerate(lines):
        if line and line[0] not in " }":
            of = type_of(line)
        head = HEAD.match(line)
        if head:
            body, last = end_of(lines, at, head[1])
            first = next(it for it in range(at, -1, -1) if it == 0 or not lines[it - 1].strip().startswith("#["))
            cycle = CYCLE.search(" ".join(lines[first:at]))
            path = (*module, of) if head[1] and of else module
            found.append(Place(Function(path, head[2], cycle[1] if cycle else ""), first, body, last))
    return found


def in_body(file, text, line):
    """The function in whose body a line stands."""
    return next((it.function for it in places(file, text) if it.body <= line <= it.last), None)


def named(end, texts):
    """The function of a crate's texts whose name ends so, where there is one such."""
    sources = {file: text for file, text in texts.items() if file.startswith("src/")}
    every = [it.function for file, text in sources.items() for it in places(file, text)]
    found = {it for it in every if f"::{it}".endswith(f"::{end}")}
    return found.pop() if len(found) == 1 else None


def at(file, text, line):
    """The function to which a line belongs, its contract too."""
    return next((it.function for it in places(file, text) if it.first <= line <= it.last), None)
