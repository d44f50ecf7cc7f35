"""What the prover's words on a crate say of the edits that were made in it."""
import enum
import re
from typing import NamedTuple

from editing import functions

SAID = re.compile(r"(?:note: )?(?:\./)?((?:src|specs|proofs)/\S+?):(\d+):\d+: (?:error: )?(.*)")
CALLS = re.compile(
    r"(?:in `[^`]+`, of this cycle of calls: )?it calls `.*`, which (?:is|are) not proved"
    r"|the borrow checker's part in its proof is not made yet: a call of `[^`]+`, which has no proof: .*"
)
# A proof file's words on what isn't there any more
LOST = re.compile(r"has no field|is not in scope|has no `|was not admitted|which was rejected|\Anote: ")
# The prover's name of what is left to prove, as returns-clause-value
CLAUSE = re.compile(r"`([\w.+]+(?:-[\w.+]+)+)`|\(`([\w.+]+)`\)|: `([\w.+]+)`: ")


class Kind(enum.Enum):
    REFUSED = "refused"
    PROVES = "proves"
    NOTHING = "shows nothing"
    LIMIT = "meets a limit of the prover"
    UNSURE = "unsure"


PASSED, SETTLED = (Kind.REFUSED, Kind.LIMIT), (Kind.REFUSED, Kind.PROVES, Kind.NOTHING, Kind.LIMIT)


class Verdict(NamedTuple):
    kind: Kind
    why: str

    def __str__(self):
        return f"{self.kind.value}: {self.why}"


class Message(NamedTuple):
    file: str
    line: int  # counted from 0
    text: str

    def is_of(self, edited, sources):
        """Whether it is on one of these functions, or on its proof."""
        if self.file.startswith("src/"):
            return functions.at(self.file, sources.get(self.file, ""), self.line) in edited
        return any(self.file.startswith(f"{it.proofs()}/") for it in edited)

    def shows(self):
        """Whether it tells more than that a proof file names what isn't there any more."""
        return not (self.file.startswith("proofs/") and LOST.search(self.text))

    def __str__(self):
        return f"{self.file}: {self.text}"


def messages(said):
    return [Message(it[1], int(it[2]) - 1, it[3]) for it in map(SAID.match, said.split("\n")) if it]


def states(function, said):
    """What the check says of a function, of its closures and of the cycle that it belongs to."""
    full = "::(?:fn::)?".join([r"\w+", *map(re.escape, function.path), function.name])
    elsewhere = rf"\w+::(?:\w+::)*{re.escape(function.end())}"  # where the type stands in another module
    for path in [full, elsewhere][: 1 + function.is_of_type()]:
        found = re.findall(rf"^fn {path}(?:(?:::|\+)\S+)?: (.*)$", said, re.M)
        if found:
            return found
    return []


def is_own(state):
    """Whether a state is a function's own, and not only that one which it calls isn't proved."""
    return state != "proved" and not all(CALLS.fullmatch(why) for why in state.removeprefix("no proof: ").split("; "))


def refused(function, shown, own):
    """A refusal by a clause of a function, where the prover names one."""
    told = [*map(str, shown), *own]
    clause = next((it[it.lastindex] for it in map(CLAUSE.search, told) if it), None)
    return Verdict(Kind.REFUSED, f"{function}: {clause or next(iter(told), 'not proved')}")


def of_batch(edit, status, said, sources):
    """The verdict on an edit of bodies that was made with others, or on any in a check of its own functions alone;
    None where that can't tell. What is changed outside of bodies is met in any proof."""
    own = {it: [state for state in states(it, said) if is_own(state)] for it in edit.functions}
    edited = next((it for it in own if own[it]), None)
    if edited is None:
        return None
    found = [it for it in messages(said) if not edit.is_of_bodies or it.is_of(edit.functions, sources)]
    shown = [it for it in found if it.shows()]
    if any("could not tell" in it for it in own[edited]):
        return Verdict(Kind.LIMIT, f"{edited}: no verdict")
    if found and not shown:
        return Verdict(Kind.NOTHING, f"only a proof file names what it took away: {found[0]}")
    return refused(edited, shown, own[edited])


def of_whole(edit, status, said, sources):
    """The verdict on an edit that was made alone, by a check of the whole crate."""
    if status == 0:
        return Verdict(Kind.PROVES, "the crate is still proved")
    if status == 3:
        return Verdict(Kind.LIMIT, "no verdict")
    told = of_batch(edit, status, said, sources) if edit.is_of_functions() else None
    if told:
        return told
    found = messages(said)
    shown = [it for it in found if it.shows()]
    if found and not shown:
        return Verdict(Kind.NOTHING, f"only a proof file names what it took away: {found[0]}")
    own = [(name, state) for name, state in re.findall(r"^fn \w+::(\S+): (.*)$", said, re.M) if is_own(state)]
    return refused(own[0][0] if own else edit.crate, shown, [state for _, state in own[:1]])
