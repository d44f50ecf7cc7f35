#!/usr/bin/env python3
"""test_try_edits: which verdict an edit gets, which edits are tried together, and what is known from earlier runs.

    tests/test_try_edits.py [TEST ..]

The crates are made up, and so is their prover. RealProver tries an edit of each kind by the toolchain's own, in
fd_snap.
"""
import os
import re
import subprocess
import tempfile
import unittest

import folders
import kit_testing
import passed_over
from editing import edits, functions, verdicts

CRATE = """const LIMIT: u32 = 7;

fn two() -> u32
    ensures value { result ≡ 2 }
{
    1 + 1
}

fn three() -> u32
    ensures value { result ≡ 3 }
{
    two() + 1
}

fn part() -> u32 {
    5 - 1
}

fn four() -> u32
    ensures value { result ≡ 4 }
{
    part() * 1
}

fn most() -> u32
    ensures value { result ≡ 7 }
{
    LIMIT + 0
}

#[cycle(ring)]
fn even() -> u32
    ensures value { result ≡ 8 }
{
    4 + 4
}

#[cycle(ring)]
fn odd() -> u32
    ensures value { result ≡ 9 }
{
    4 + 5
}
"""


def edit(old, new, file="src/lib.rt"):
    return f"file: {file}\nold: {old}\nnew: {new}\n"


WRONG_TWO, SAME_TWO = edit("1 + 1", "1 + 2"), edit("1 + 1", "2 * 1")
WRONG_THREE, SAME_THREE = edit("two() + 1", "two() + 2"), edit("two() + 1", "1 + two()")


class TriesEdits(kit_testing.Checkout):
    def setUp(self):
        super().setUp()
        self.write("crates.txt", "made_up:\n")
        self.write("crates/made_up/src/lib.rt", CRATE)

    def tried(self, *words, **texts):
        """The status, the lines on edits of these names, and how many checks there were beside that of the crate as
        it stands."""
        for name, text in texts.items():
            self.write(f"crates/made_up/edits/{name}.edit", text)
        status, said, errors = self.ran("checks/try_edits", *words)
        self.assertEqual(errors, "")
        counts = re.sub(r", [\d.]+ minutes.*", "", said.pop())
        return status, sorted(said), counts

    def test_one_that_proves(self):
        self.assertEqual(
            self.tried(same=SAME_TWO, wrong=WRONG_THREE),
            (
                1,
                [
                    "made_up/same: proves: the crate is still proved",
                    "made_up/wrong: refused: three: returns-clause-three",
                ],
                "try_edits: 1 refused, 1 proves; 1 checks",
            ),
        )
        self.assertEqual(self.log(), ["checks 0 three two", "checks 1 three two", "checks 1 "])

    def test_one_that_cannot_be_applied(self):
        why = "shows nothing: an 'old:' text is in src/lib.rt 0 times, and not once"
        self.assertEqual(
            self.tried(gone=edit("9 + 9", "1")), (1, [f"made_up/gone: {why}"], "try_edits: 1 shows nothing; 0 checks")
        )
        self.assertEqual(self.log(), [])

    def test_one_that_does_not_compile(self):
        """It is tried alone in the end, and the others of its batch are judged."""
        status, said, counts = self.tried(
            broken=edit("1 + 1", "nowhere"), wrong=WRONG_THREE, most=edit("LIMIT + 0", "LIMIT + 1")
        )
        self.assertEqual(status, 1)
        self.assertIn(
            "made_up/broken: shows nothing: it can't be compiled or read: src/lib.rt:1:1: error[unresolved]: "
            "name 'nowhere' is not defined",
            said,
        )
        self.assertIn("made_up/wrong: refused: three: returns-clause-three", said)
        self.assertIn("made_up/most: refused: most: returns-clause-most", said)
        self.assertEqual(counts, "try_edits: 2 refused, 1 shows nothing; 1 checks")
        self.assertIn("checks 1 most three", self.log())

    def test_one_that_takes_a_name_away(self):
        self.write("crates/made_up/proofs/three/Answers.antt", "two()")
        self.assertEqual(
            self.tried(lost=edit("two() + 1", "1 + 2"), wrong=WRONG_TWO)[:2],
            (
                1,
                [
                    "made_up/lost: shows nothing: only a proof file names what it took away: "
                    "proofs/three/Answers.antt: `two()` is not in scope",
                    "made_up/wrong: refused: two: returns-clause-two",
                ],
            ),
        )

    def test_only_the_callee_is_wrong(self):
        """A caller whose own goals hold isn't refused as what it calls is."""
        status, said, _ = self.tried(callee=WRONG_TWO, caller=SAME_THREE)
        self.assertEqual(
            (status, said),
            (
                1,
                [
                    "made_up/callee: refused: two: returns-clause-two",
                    "made_up/caller: proves: the crate is still proved",
                ],
            ),
        )

    def test_a_constant_is_tried_alone(self):
        self.assertEqual(
            self.tried(limit=edit("u32 = 7", "u32 = 6"), wrong=WRONG_TWO)[:2],
            (
                0,
                [
                    "made_up/limit: refused: most: returns-clause-most",
                    "made_up/wrong: refused: two: returns-clause-two",
                ],
            ),
        )
        self.assertEqual(sorted(self.log()), ["checks 0 two", "checks 1 ", "checks 1 two"])

    def test_what_it_breaks(self):
        """An edit outside of bodies that names a function is tried at that one, and alone; any other on the whole."""
        limit, refused = edit("u32 = 7", "u32 = 6"), "refused: most: returns-clause-most"
        for name, checked in (("most", "most"), ("nowhere", ""), ("three", "three")):
            self.assertEqual(
                self.tried(limit=f"{limit}breaks: {name}\n", wrong=WRONG_TWO)[:2],
                (0, [f"made_up/limit: {refused}", "made_up/wrong: refused: two: returns-clause-two"]),
            )
            self.assertIn(f"checks 1 {checked}", self.log())
            (self.top / "crates/made_up/edits/limit.edit").unlink()

    def test_a_crate_that_the_gate_has_proved(self):
        """It isn't checked as it stands, unless a source is newer."""
        self.write("crates/made_up/out/rlib/made_up.rlib/format", "")
        refused = ["made_up/wrong: refused: two: returns-clause-two"]
        self.assertEqual(self.tried(wrong=WRONG_TWO)[:2], (0, refused))
        self.assertEqual(self.log(), ["checks 1 two"])
        later = os.stat(self.top / "crates/made_up/out/rlib").st_mtime + 10
        os.utime(self.write("crates/made_up/src/lib.rt", CRATE + "\n"), (later, later))
        self.assertEqual(self.tried()[:2], (0, refused))
        self.assertEqual(self.log(), ["checks 0 two", "checks 1 two"])

    def test_members_of_a_cycle_are_tried_apart(self):
        self.assertEqual(
            self.tried(even=edit("4 + 4", "4 + 3"), odd=edit("4 + 5", "4 + 6")),
            (
                0,
                ["made_up/even: refused: even: returns-clause-even", "made_up/odd: refused: odd: returns-clause-odd"],
                "try_edits: 2 refused; 2 checks",
            ),
        )

    def test_two_of_one_function_are_tried_apart(self):
        self.assertEqual(
            self.tried(one=edit("LIMIT +", "LIMIT + 1 +"), other=edit("+ 0", "+ 2"))[2],
            "try_edits: 2 refused; 2 checks",
        )

    def test_a_check_that_is_killed(self):
        """Nothing is known of it, so nothing is kept."""
        for _ in range(2):
            status, said, counts = self.tried(killed=edit("1 + 1", "1 + 1 # killed"), wrong=WRONG_THREE)
            self.assertEqual(
                (status, said[0][:16], said[1]),
                (1, "made_up/killed: ", "made_up/wrong: refused: three: returns-clause-three"),
            )
            self.assertIn("unsure: its check ended with status -9", said[0])
        self.assertEqual(counts, "try_edits: 1 refused, 1 unsure; 1 checks")

    def test_a_crate_that_is_not_proved(self):
        self.write("crates/made_up/src/lib.rt", CRATE.replace("{\n    1 + 1", "{\n    1 + 3"))
        self.assertEqual(
            self.tried(wrong=edit("1 + 3", "1 + 2"))[:2],
            (1, ["made_up/wrong: unsure: the crate is not proved as it stands"]),
        )

    def test_what_is_kept_is_of_one_text(self):
        """The crate's own, of one below it, of the edit, and of the tool."""
        self.write("crates.txt", "low:\nmade_up: low\n")
        self.write("crates/low/src/lib.rt", CRATE)
        self.tried(wrong=WRONG_TWO)
        for file in (
            "crates/made_up/src/lib.rt",
            "crates/low/src/lib.rt",
            "crates/made_up/edits/wrong.edit",
            "checks/editing/verdicts.py",
            "KIT-ID",
        ):
            self.log()
            self.tried()
            self.assertEqual(self.log(), [])
            self.write(file, (self.top / file).read_text() + "\n# more\n")
            self.tried()
            self.assertIn("checks 1 two", self.log(), file)

    def test_libraries_of_the_gate_serve(self):
        """`rt ci` leaves no stamp: they serve unless a source is newer."""
        self.write("crates.txt", "low:\nmade_up: low\n")
        self.write("crates/low/src/lib.rt", CRATE)
        self.write("crates/low/out/rlib/low.rlib/format", "")
        self.tried(wrong=WRONG_TWO)
        self.assertEqual(self.log(), ["checks 0 two", "checks 1 two"])
        later = os.stat(self.top / "crates/low/out/rlib").st_mtime + 10
        os.utime(self.write("crates/low/src/lib.rt", CRATE + "\n"), (later, later))
        self.tried()
        self.assertIn("begins low", self.log())

    def test_a_library_that_cannot_be_built(self):
        self.write("crates.txt", "low:\nmade_up: low\n")
        self.write("crates/low/src/lib.rt", "bad\n")
        self.write("crates/made_up/edits/wrong.edit", WRONG_TWO)
        status, _, errors = self.ran("checks/try_edits")
        self.assertEqual((status, errors), (1, "try_edits: low: not built (status 1); see out/build/low.log\n"))

    def test_words(self):
        self.write("crates.txt", "low:\nmade_up:\n")
        self.write("crates/low/src/lib.rt", CRATE)
        self.write("crates/low/must-fail/wrong.edit", WRONG_TWO)
        self.assertEqual(self.tried("low", wrong=WRONG_TWO), (0, [], "try_edits: no edit; 0 checks"))
        self.assertEqual(self.tried("low", "--folder", "must-fail")[1], ["low/wrong: refused: two: returns-clause-two"])
        self.assertEqual(self.ran("checks/try_edits", "high")[::2], (1, "try_edits: crates.txt has no high\n"))
        self.assertEqual(self.ran("checks/try_edits", "--help")[0], 0)


SOURCE = """impl<T: Write> Sink for Device<T> {
    /// Says.
    #[inline]
    pub fn put(
        self,
    ) -> bool
        ensures value { result }
    {
        fn inner() {
        }
        true
    }
}

impl From<Invalid> for Stop {
    fn from(_invalid: Invalid) -> Stop {
        Stop
    }
}

const AT: u32 = 1;
"""


class Words(unittest.TestCase):
    """What the prover's words come to."""

    FOUND = edits.Edit("fd", "edit", "", (), frozenset([functions.Function(("a",), "f")]))

    def verdict(self, *lines, status=1):
        found = verdicts.of_batch(self.FOUND, status, "\n".join(lines), {})
        return str(found) if found else None

    def test_only_what_it_calls(self):
        self.assertIsNone(self.verdict("fn fd::a::f: no proof: it calls `fd::a::g`, which is not proved"))
        self.assertIsNone(
            self.verdict(
                "fn fd::a::f: no proof: in `fd::a::f`, of this cycle of calls: it calls `fd::a::g`, which is not proved"
            )
        )
        part = "the borrow checker's part in its proof is not made yet"
        calls = f"{part}: a call of `fd::a::g`, which has no proof: {part}"
        self.assertIsNone(self.verdict(f"fn fd::a::f: no proof: {calls}"))
        both = "fn fd::a::f: no proof: `search` did not prove `loop-x-kept`; it calls `fd::a::g`, which is not proved"
        self.assertEqual(self.verdict(both), "refused: a::f: loop-x-kept")

    def test_another_of_its_name(self):
        self.assertIsNone(self.verdict("fn fd::b::a::f: not proved", "fn fd::a::f2: not proved", "fn fd::a::f: proved"))

    def test_a_definition_that_a_lemma_is_of(self):
        """The function's own proof only names the lemma, which is no longer there."""
        said = "\n".join(
            [
                "./proofs/Lemmas.antt:3:1: error: expected 2, found 3",
                "./proofs/a/f/Answers.antt:3:1: error: 1 declaration that depends on `lemma`, which was not admitted, "
                "was not checked: returns",
                "fn fd::a::f: not proved",
            ]
        )
        for is_of_bodies, verdict in ((False, "refused: a::f: "), (True, "shows nothing: ")):
            found = verdicts.of_batch(self.FOUND._replace(is_of_bodies=is_of_bodies), 1, said, {})
            self.assertEqual(str(found)[: len(verdict)], verdict)

    def test_a_type_of_another_module(self):
        """The prover names its functions by the module of the type."""
        function = functions.Function(("packing", "Colour"), "is_same")
        said = "fn fd::channel::Colour::is_same: not proved\nfn fd::channel::Other::is_same: proved"
        self.assertEqual(verdicts.states(function, said), ["not proved"])
        self.assertEqual(verdicts.states(function, f"{said}\nfn fd::packing::Colour::is_same: proved"), ["proved"])
        self.assertEqual(verdicts.states(functions.Function(("packing",), "is_same"), said), [])
        self.assertEqual(function.end(), "Colour::is_same")
        self.assertEqual(functions.Function(("packing",), "word_of").end(), "packing::word_of")
        self.assertEqual(functions.Function((), "word_of").end(), "word_of")

    def test_declarations_that_were_not_checked(self):
        """rt counts it as refused."""
        line = (
            "./proofs/a/f/Answers.antt:3:1: error: 2 declarations that depend on `Rattle.fd.a.f.first`, which "
            "was rejected, were not checked"
        )
        self.assertEqual(
            self.verdict(line, "fn fd::a::f: not proved")[:46], "shows nothing: only a proof file names what it"
        )
        more = "./proofs/a/f/Answers.antt:9:1: error: `returns-clause-value`: `grind` found no proof"
        self.assertEqual(self.verdict(line, more, "fn fd::a::f: not proved"), "refused: a::f: returns-clause-value")


KINDS = folders.TESTS / "edits_of_each_kind"


class RealProver(unittest.TestCase):
    """By the toolchain's own prover, edits of fd_snap of each kind."""

    def test_each_kind(self):
        with tempfile.TemporaryDirectory() as kept:
            words = ["fd_snap", "--folder", os.path.relpath(KINDS, folders.TOP / "crates/fd_snap"), "--kept", kept]
            ran = subprocess.run([folders.CHECKS / "try_edits", *words], capture_output=True, text=True, check=False)
        found = dict(
            re.match(r"fd_snap/(\w+): (refused|proves|shows nothing)\b", line).groups()
            for line in ran.stdout.splitlines()[:-1]
        )
        wanted = {file.stem: file.read_text().splitlines()[0].removeprefix("# ") for file in KINDS.glob("*.edit")}
        self.assertEqual((ran.returncode, found), (1, wanted), ran.stdout + ran.stderr)
        self.assertGreater(len(wanted), 6)


if __name__ == "__main__":
    passed_over.run_tests("test_try_edits")
