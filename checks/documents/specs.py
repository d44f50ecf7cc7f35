"""The definitions of the crates' specs, which of them each speaks of, and those that public contracts speak of."""
import re
from dataclasses import dataclass, field

DEFINED = re.compile(r"^\s*(?:(?:abbrev|unfoldable)(?: pub)?|pub (?:record|data)|record|data)\s+([^\s:({]+)")
CONSTRUCTOR = re.compile(r"^  (?:pub )?([A-Z]\w*) :")
USE = re.compile(r"^(?:ghost |pub )*use Rattle\.(\S+?)\.\{([^}]*)\}", re.M)
WORD = re.compile(r"[^\W\d][\w'-]*|◌[^\s◌]+◌")
PASSED = re.compile(r"^(?:--|use |pub use |infix|module )")
CONTRACT = re.compile(
    r"^ *pub (?:final )?fn (\w+)\b.*?^\s*\{\s*\}?$", re.M | re.S
)  # from its name to where its body begins


@dataclass
class Module:
    """A file of specs: its first line, the lines of each of its definitions, and what it takes from others."""

    first: str = ""
    definitions: dict = field(default_factory=dict)
    imports: dict = field(default_factory=dict)  # a name here: its module, and its name there


def imports_of(text):
    found = {}
    for module, names in USE.findall(text):
        for name in filter(None, map(str.strip, names.split(","))):
            there, _, here = name.partition(" as ")
            found[(here or there).strip()] = module, there.strip()
    return found


def module_of(text):
    module, current = Module(first=text.partition("\n")[0], imports=imports_of(text)), None
    for line in text.splitlines():
        if not line.strip() or PASSED.match(line.strip()):
            continue
        begun = DEFINED.match(line)
        if begun and not line.startswith("  "):
            current = begun[1]
        if current:
            module.definitions.setdefault(current, []).append(line)
    return module


def modules(top):
    """Each module of the specs of a repository, by its name as fd_cli.specs.Serving."""
    files = sorted((top / "crates").glob("*/specs/**/*.antt"))
    return {
        ".".join(file.relative_to(top / "crates").with_suffix("").parts): module_of(file.read_text())
        for file in files
        if file.stem != "Lib"
    }


def origin(known, module, name):
    """The module that defines a name which another one takes from this one: it may be handed on."""
    seen = set()
    while module in known and name not in known[module].definitions and (module, name) not in seen:
        seen.add((module, name))
        if name not in known[module].imports:
            return owner_of_constructor(known[module], module, name)
        module, name = known[module].imports[name]
    return module, name


def owner_of_constructor(module, at, name):
    for defined, lines in module.definitions.items():
        if any((found := CONSTRUCTOR.match(line)) and found[1] == name for line in lines):
            return at, defined
    return at, name


def spoken_of(known, start):
    """The definitions, as (module, name), that some of them speak of, and those that these speak of, and so on."""
    seen, todo = set(), [origin(known, *one) for one in start]
    while todo:
        module, name = todo.pop()
        if (module, name) in seen or module not in known or name not in known[module].definitions:
            continue
        seen.add((module, name))
        own = known[module]
        for word in WORD.findall("\n".join(own.definitions[name])):
            if word in own.definitions:
                todo.append((module, word))
            elif word in own.imports:
                todo.append(origin(known, *own.imports[word]))
    return seen


def named_by_contracts(source):
    """What the contracts of a source's public functions name, each as its module and its name there; and these
    functions."""
    taken, found, functions = imports_of(source), set(), []
    for contract in CONTRACT.finditer(source):
        functions.append(contract[1])
        found |= {taken[word] for word in WORD.findall(contract[0]) if word in taken}
    return found, functions
