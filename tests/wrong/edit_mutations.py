#!/usr/bin/env python3
"""edit_mutations: wrong versions of what tries edits and of what builds the program, each of which its tests must see.

Each is a copy of a tool with one text exchanged, and the test that has to fail on it, and to pass on the tool as it is.
"""
import folders  # noqa: F401

from wrong_versions import Version, try_all

TRY, EDITS, FUNCTIONS, TRYING, VERDICTS = "checks/try_edits", *(f"checks/editing/{name}.py" for name in ("edits", "functions", "trying", "verdicts"))
PROGRAM, KIT, LIBRARIES = "build/build_program", "build/kit.py", "build/libraries.py"
MUTATIONS = [   # name, tool, text, what stands there instead, test
    ("edits: one that proves is no fault", TRY, "sys.exit(any(verdict.kind not in PASSED",
     "sys.exit(0 and any(verdict.kind not in PASSED", "TriesEdits.test_one_that_proves"),
    ("edits: what shows nothing passes", VERDICTS, "PASSED, SETTLED = (Kind.REFUSED, Kind.LIMIT)",
     "PASSED, SETTLED = (Kind.REFUSED, Kind.LIMIT, Kind.NOTHING)", "TriesEdits.test_one_that_cannot_be_applied"),
    ("edits: what is unsure passes", VERDICTS, "PASSED, SETTLED = (Kind.REFUSED, Kind.LIMIT)",
     "PASSED, SETTLED = (Kind.REFUSED, Kind.LIMIT, Kind.UNSURE)", "TriesEdits.test_a_check_that_is_killed"),
    ("edits: what is unsure is kept", TRY, "if verdict.kind in SETTLED:", "if True:", "TriesEdits.test_a_check_that_is_killed"),
    ("edits: kept without the crate's text", TRY, "sum_of(self.own, stamp, edit.crate",
     "sum_of(self.own, edit.crate", "TriesEdits.test_what_is_kept_is_of_one_text"),
    ("edits: kept without the edit's text", TRY, "edit.name, edit.text)", "edit.name)", "TriesEdits.test_what_is_kept_is_of_one_text"),
    ("edits: kept without the tool", TRY, "[(file.name, file.read_text()) for file in sorted(tool)]",
     "[]", "TriesEdits.test_what_is_kept_is_of_one_text"),
    ("edits: kept without the toolchain", TRY, "sum_of(kit.identity(), [", 'sum_of("", [', "TriesEdits.test_what_is_kept_is_of_one_text"),
    ("edits: always the same folder of edits", TRY, "pathlib.Path(crate.folder, self.given.folder)",
     'pathlib.Path(crate.folder, "edits")', "TriesEdits.test_words"),
    ("edits: a library that isn't built is no fault", TRY, '            sys.exit(f"try_edits: {fault}")',
     "            pass", "TriesEdits.test_a_library_that_cannot_be_built"),
    ("edits: old ones of the gate serve", KIT, " and not is_older(crate, folder)", "", "TriesEdits.test_libraries_of_the_gate_serve"),
    ("edits: what the gate has proved is checked once more", TRYING, "if kit.is_of_gate(self.crate):",
     "if False:", "TriesEdits.test_a_crate_that_the_gate_has_proved"),
    ("edits: whatever it says that it breaks", EDITS, "broken or changed, None", "changed, None", "TriesEdits.test_what_it_breaks"),
    ("edits: what breaks a function beside others", EDITS, "broken or changed, None not in changed)",
     "broken or changed, True)", "TriesEdits.test_what_it_breaks"),
    ("edits: what lemmas show is nothing", VERDICTS, "if not edit.is_of_bodies or it.is_of(", "if it.is_of(", "Words.test_a_definition_that_a_lemma_is_of"),
    ("edits: any message is of any edit", VERDICTS, "if not edit.is_of_bodies or it.is_of(", "if True or it.is_of(", "Words.test_a_definition_that_a_lemma_is_of"),
    ("edits: a type has one module", VERDICTS, "[: 1 + function.is_of_type()]", "[:1]", "Words.test_a_type_of_another_module"),
    ("edits: two of one function in one check", EDITS, "not it.proofs() & edit.proofs()",
     "True", "TriesEdits.test_two_of_one_function_are_tried_apart"),
    ("edits: two of a cycle in one check", FUNCTIONS, "return self.cycle or self",
     "return self", "TriesEdits.test_members_of_a_cycle_are_tried_apart"),
    ("edits: a constant beside others", EDITS, "all(it.is_of_bodies and not", "all(not", "TriesEdits.test_a_constant_is_tried_alone"),
    ("edits: a batch that can't be compiled is judged", TRYING, "if half and not said.is_checked():",
     "if False:", "TriesEdits.test_one_that_does_not_compile"),
    ("edits: over what is not proved", TRYING, "        if seed is None:", "        if False:", "TriesEdits.test_a_crate_that_is_not_proved"),
    ("edits: refused for what it calls", VERDICTS, 'return state != "proved" and not all(',
     'return state != "proved" or all(', "TriesEdits.test_only_the_callee_is_wrong"),
    ("edits: refused for what it calls, of a cycle", VERDICTS, r"(?:in `[^`]+`, of this cycle of calls: )?it calls",
     "it calls", "Words.test_only_what_it_calls"),
    ("edits: refused for what it calls, without a part of its proof", VERDICTS, "which has no proof: .*", "which has no such proof: .*",
     "Words.test_only_what_it_calls"),
    ("edits: refused for what another lacks", VERDICTS, r'join([r"\w+", *map', r'join([r"[\w:]+", *map', "Words.test_another_of_its_name"),
    ("edits: refused where a proof file's names are gone", VERDICTS, "return not (self.file.startswith(\"proofs/\") and LOST.search(self.text))",
     "return True", "TriesEdits.test_one_that_takes_a_name_away"),
    ("edits: refused where declarations weren't checked", VERDICTS, "|which was rejected|", "|", "Words.test_declarations_that_were_not_checked"),
    ("build: before what it uses", LIBRARIES, "[(low.name, \"proof\") for low in crate.below()]",
     "[]", "BuildsProgram.test_each_after_those_that_it_uses"),
    ("build: a fault is no fault", LIBRARIES, "            raise NotBuilt(self.failed)", "            pass", "BuildsProgram.test_one_is_not_built"),
    ("build: a program that isn't linked is no fault", PROGRAM, "    if status:", "    if False:", "BuildsProgram.test_the_program_is_not_linked"),
    ("build: never again", PROGRAM, " and not kit.is_older(program, BUILT)", "", "BuildsProgram.test_a_source_is_newer"),
    ("build: only the longest chain ends last", LIBRARIES, ">= LONG * most", ">= most", "BuildsProgram.test_those_on_long_chains_end_last"),
    ("build: chains without what is built later", LIBRARIES, "if below[name] + behind[name] >=", "if below[name] >=", "BuildsProgram.test_those_on_long_chains_end_last"),
    ("build: any toolchain", KIT, "    if lacking:", "    if False:", "BuildsProgram.test_another_toolchain"),
]


def tests_of(test):
    return "test_build_program.py" if test.startswith("BuildsProgram") else "test_try_edits.py"


if __name__ == "__main__":
    try_all(__doc__, [Version(name, tool, old, new, tests_of(test), test) for name, tool, old, new, test in MUTATIONS])
