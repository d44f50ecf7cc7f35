"""definitions: docs/DEFINITIONS.md names each file of definitions that the program's public contracts speak of, and
no file that isn't there. The first line of each file says whether they speak of it (Promised) or not (Working), and
no name is defined in two ways.

Contracts are those of the public functions of fd_cli that read, serve and write, of its laws, and of what reads the
command line. They speak of definitions, those of others, and so on; --more says which, file by file, with how many
lines each has.
"""
import collections
import re

from folders import TOP

from wrong_versions import exchanged
from . import Found, specs

PAGE = TOP / "docs/DEFINITIONS.md"
SOURCES = [
    *(f"fd_cli/src/{name}" for name in ("serving", "imaging", "performing", "command_line", "laws")),
    "fd_listing/src/list",
    "fd_arguments/src/arguments",
]  # with what users call
OF_CRATES = re.compile(r"`specs/(\w+)\.antt` of ((?:fd_\w+(?:, | and )?)+)")
FILE = re.compile(r"`(?:(fd_\w+)/specs/)?(\w+)\.antt`")
ROW = re.compile(r"^\|.*$", re.M)
CRATE = re.compile(r"fd_\w+")


def named_on(page):
    """The modules that the page names: by their path, one after another of a crate, or of several crates."""
    found = {f"{crate}.specs.{name}" for name, crates in OF_CRATES.findall(page) for crate in CRATE.findall(crates)}
    for text in [*ROW.findall(page), ROW.sub("", page)]:
        crate = None
        for here, name in FILE.findall(text):
            crate = here or crate
            found.add(f"{crate}.specs.{name}")
    return found


def contracts(top, more=""):
    """What the public contracts name, and the functions that have them."""
    found, functions = set(), []
    for name in SOURCES:
        named, own = specs.named_by_contracts((top / f"crates/{name}.rt").read_text() + more)
        found, functions = found | named, functions + own
    return found, functions


def faults(page, known, start):
    """What the page leaves out, or names and isn't there, a line each."""
    named, spoken = named_on(page), {module for module, _ in specs.spoken_of(known, start)}
    yield from (f"it doesn't name {shown(module)}, of which contracts speak" for module in sorted(spoken - named))
    yield from (f"it names {shown(module)}, which isn't there" for module in sorted(named - known.keys()))


def marks(known, start):
    """The files whose first line says something else of them than the contracts, a line each."""
    spoken = {module for module, _ in specs.spoken_of(known, start)}
    for module, text in known.items():
        wanted = "Promised" if module in spoken else "Working"
        if not text.first.startswith(f"-- {wanted}. "):
            yield f"the first line of {shown(module)} doesn't begin with {wanted}"


def twice(known):
    """The names that stand for two things, a line each. What versions 1 and 2 were is defined anew on purpose, and a
    sign may be any type's."""
    found = collections.defaultdict(dict)
    for module, text in known.items():
        for name, lines in text.definitions.items():
            if not module.endswith((".VersionOne", ".VersionTwo")) and "◌" not in name:
                found[name].setdefault("\n".join(lines), shown(module))
    yield from (
        f"{name} is defined in two ways, in {' and in '.join(ways.values())}"
        for name, ways in sorted(found.items())
        if len(ways) > 1
    )


def shown(module):
    return module.replace(".specs.", "/specs/") + ".antt"


def listed(known, spoken):
    """Each file with its definitions that contracts speak of, and their lines."""
    by_module = collections.defaultdict(list)
    for module, name in sorted(spoken):
        by_module[module].append(name)
    for module, names in by_module.items():
        yield (
            f"{shown(module)}: {sum(len(known[module].definitions[name]) for name in names)} lines, "
            f"{', '.join(names)}"
        )


MADE_UP = {  # modules that aren't there, by their text
    "fd_a.specs.One": (
        "use Rattle.fd_a.specs.Two.{two, Held}\nabbrev pub one : ℕ\none = two\nabbrev pub alone : ℕ\nalone = "
        "1\nabbrev pub held : ℕ\nheld = Held 1\n"
    ),
    "fd_a.specs.Two": (
        "pub use Rattle.fd_b.specs.Three.{three as two}\npub data Kept : Type 0 where\n  Held : ℕ → Kept\n"
    ),
    "fd_b.specs.Three": "-- alone\nabbrev pub three : ℕ\nthree =\n  under\nabbrev under : ℕ\nunder = 3\n",
}


def made_up(*start):
    """What is spoken of in them, as texts."""
    known = {name: specs.module_of(text) for name, text in MADE_UP.items()}
    return sorted(f"{module[3]}.{name}" for module, name in specs.spoken_of(known, start))


def check_made_up():
    """The way from one definition to another: by what is taken, under another name, handed on, by a constructor; and
    no further."""
    return {
        "a name that is handed on under another": lambda: made_up(("fd_a.specs.One", "one"))
        == ["a.one", "b.three", "b.under"],
        "a constructor": lambda: made_up(("fd_a.specs.One", "held")) == ["a.Kept", "a.held"],
        "nothing": lambda: made_up(("fd_a.specs.One", "alone")) == ["a.alone"],
        "a contract": lambda: specs.named_by_contracts(
            "ghost use Rattle.fd_a.specs.One.{one, alone};\npub fn f()\n    ensures { result ≡ one }\n{\n    "
            "alone\n}\nfn g()\n    ensures { alone }\n{}\n"
        )
        == ({("fd_a.specs.One", "one")}, ["f"]),
    }


def wrong_versions():
    page, known, (start, _) = PAGE.read_text(), specs.modules(TOP), contracts(TOP)
    hidden = next(module for module in sorted(known.keys() - named_on(page)))
    more = start | {(hidden, next(iter(known[hidden].definitions)))}
    return {
        **check_made_up(),
        "a file left out": lambda: any(
            faults(exchanged(page, "`fd_cover/specs/Covers.antt`", "coverage"), known, start)
        ),
        "a file behind another left out": lambda: any(faults(exchanged(page, ", `Pipeline.antt`", ""), known, start)),
        "a crate left out": lambda: any(
            faults(exchanged(page, "`specs/Limits.antt` of fd_snap, ", "`specs/Limits.antt` of "), known, start)
        ),
        "a file that isn't there": lambda: any(
            faults(exchanged(page, "specs/Covers.antt", "specs/Cover.antt"), known, start)
        ),
        "a contract that speaks of another file": lambda: any(faults(page, known, more)),
        "a mark of a file of which contracts speak": lambda: any(marks(known, more)),
        "a mark of one of which none speaks": lambda: any(marks(known, set())),
        "a name that stands for two things": lambda: any(
            twice({**known, "fd_a.specs.One": specs.module_of("abbrev pub covers : Bool\ncovers = true\n")})
        ),
    }


def found():
    page, known, (start, functions) = PAGE.read_text(), specs.modules(TOP), contracts(TOP)
    spoken = specs.spoken_of(known, start)
    wrong = [f"docs/DEFINITIONS.md: {line}" for line in faults(page, known, start)] + [
        f"specs: {line}" for line in [*marks(known, start), *twice(known)]
    ]
    lines, files = sum(len(known[module].definitions[name]) for module, name in spoken), len(
        {module for module, _ in spoken}
    )
    about = (
        f"{len(functions)} contracts speak of {len(spoken)} definitions in {files} of {len(known)} files, {lines} lines"
    )
    return Found(about, wrong, tuple(listed(known, spoken)))
