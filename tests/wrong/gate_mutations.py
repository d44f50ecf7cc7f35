#!/usr/bin/env python3
"""gate_mutations: wrong versions of what runs the checks, each of which its tests must see.

Each is a copy of a tool with one text exchanged, and the test that has to fail on it, and to pass on the tool as it is.
"""
import folders

from wrong_versions import Version, try_all

NOTE, RUN, PREPARE, GATE = "checks/passed_over.py", "checks/run_tests", "checks/prepare_machine", "checks/check_gate"
DOCUMENTS, PROSE, SENTENCES = "checks/check_documents", "checks/documents/prose.py", "checks/documents/sentences.py"
LOOP, COPIES, BROWSER = "tests/wrong/wrong_versions.py", "tests/wrong/wrong_copies.py", "tests/browser.py"
TESTS = {NOTE: "test_passed_over.py", RUN: "test_run_tests.py", PREPARE: "test_prepare_machine.py", GATE: "test_check_gate.py",
         LOOP: "test_wrong_versions.py", COPIES: "test_wrong_versions.py", BROWSER: "test_browser.py"}
MUTATIONS = [   # name, tool, text, what stands there instead, test
    ("noted: with CI=true it goes on", NOTE, '        sys.exit(f"passed over, which', '        print(f"passed over, which', "PassedOver.test_it_fails_where_nobody_looks"),
    ("noted: nothing is kept", NOTE, '        file.write(f"{line}\\n")', "        pass", "PassedOver.test_it_is_said_and_listed"),
    ("noted: tests that were skipped aren't noted", NOTE, '        note(f"{what}, {count} tests", why)', "        pass", "PassedOver.test_tests_that_did_not_run_are_told"),
    ("noted: tests that fail are passed", NOTE, "sys.exit(not ran.wasSuccessful())", "sys.exit(0)", "PassedOver.test_tests_that_ran_are_counted"),
    ("run: deaf in the background", RUN, "    signal.signal(signal.SIGINT, signal.default_int_handler)", "    str()", "RunsTests.test_an_interrupt_is_heard_in_the_background"),
    ("run: what runs outlives an interrupt", RUN, "        process.terminate()\n", "        pass\n", "RunsTests.test_an_interrupt_ends_what_runs"),
    ("run: what is run beside others outlives an interrupt", RUN, "                self.end()\n", "", "RunsTests.test_an_interrupt_ends_what_runs"),
    ("run: on behind a fault", RUN, "        if paragraph.failed:\n            break", "        pass", "RunsTests.test_the_first_that_fails_is_the_last"),
    ("run: on in a paragraph behind a fault", RUN, "while not self.failed and (part", "while (part", "RunsTests.test_the_first_that_fails_is_the_last"),
    ("run: a fault is no fault", RUN, "in paragraph.failed.items()) or 0)", "in paragraph.failed.items()) and 0)", "RunsTests.test_the_first_that_fails_is_the_last"),
    ("run: what is run beside others can't fail", RUN, "            if ended.status:", "            if ended.status and call is run_over:", "RunsTests.test_one_beside_another_fails"),
    ("run: what waits is run twice", RUN, '{*"|&"} & {*part.signs}', '{*"|"} & {*part.signs}', "RunsTests.test_one_that_waits"),
    ("run: what waits is left out", RUN, 'for part in parts if "&" in part.signs)', 'for part in parts if "&&" in part.signs)', "RunsTests.test_one_that_waits"),
    ("run: what waits has one processor", RUN, "run_beside(part, NICE)", 'run_beside(part, ["taskset", "-c", "0"])', "RunsTests.test_processors"),
    ("run: all go first", RUN, "[*NICEST, *part", "[*NICE, *part", "RunsTests.test_who_goes_first"),
    ("run: what others are run beside can't fail", RUN, "            if ended.status:", "            if ended.status and call is not run_over:", "RunsTests.test_the_other_fails"),
    ("run: nothing has to be there", RUN, "            if ended.status:", "            if ended.status not in (0, 127):", "RunsTests.test_a_command_that_is_not_there"),
    ("run: no list", RUN, '    subprocess.run([sys.executable, PASSED_OVER, "--list"], check=True)', "    pass", "RunsTests.test_what_was_passed_over_is_listed_last"),
    ("run: the other processors stay idle", RUN, "for processor in others]", "for processor in others[:0]]", "RunsTests.test_as_many_as_there_are_processors"),
    ("run: beside others as many as there are processors", RUN, "pool.submit(self.lane, last)]", "*[pool.submit(self.lane, each) for each in PROCESSORS]]", "RunsTests.test_one_beside_another"),
    ("run: on any processor", RUN, "[*how, *part", "[*part", "RunsTests.test_processors"),
    ("run: the list has one paragraph", RUN, r're.split(r"\n{2,}", PARTS.read_text())', "[PARTS.read_text()]", "RunsTests.test_paragraphs"),
    ("run: no processor is counted", RUN, "used.ru_utime + used.ru_stime", "0", "RunsTests.test_processors_are_counted"),
    ("run: always quick", RUN, "if not (is_quick and ", "if not (", "RunsTests.test_quick"),
    ("run: no part is no fault", RUN, "    if not any(todo):", "    if False:", "RunsTests.test_words"),
    ("gate: a fault is no fault", GATE, "if gate.returncode or empty:", "if empty:", "ChecksTheGate.test_a_gate_that_fails"),
    ("gate: edits that can't be applied pass", GATE, '"BAD EDIT"', '"no such words"', "ChecksTheGate.test_an_edit_that_cannot_be_applied"),
    ("gate: edits that take names away pass", GATE, '"says little of the contract"', '"no such words"', "ChecksTheGate.test_an_edit_that_takes_a_name_away"),
    ("gate: declarations that weren't checked pass", GATE, '"which was rejected, were not checked"', '"no such words"', "ChecksTheGate.test_an_edit_of_which_declarations_were_not_checked"),
    ("gate: an edit that shows nothing is no fault", GATE, "if gate.returncode or empty:", "if gate.returncode:", "ChecksTheGate.test_an_edit_that_takes_a_name_away"),
    ("prose: a line ends a sentence", PROSE, 'yield " ".join(text)', "yield from text", "Sentences.test_a_line_goes_on"),
    ("prose: code ends sentences", PROSE, "CODE.sub(hidden, ", "(", "Sentences.test_code_is_a_word"),
    ("prose: short forms end sentences", PROSE, '"e.g.", ', "", "Sentences.test_numbers_and_short_forms_end_none"),
    ("prose: names are sentences", PROSE, "bool(STOP.search(sentence))", "True", "Sentences.test_names_are_no_sentences"),
    ("versions: a broken run is seen", COPIES, 'if status == 0 else "BROKEN"', 'if status == 0 else "seen"', "Lists.test_what_breaks_off_is_not_seen"),
    ("versions: a class that can't begin is seen", COPIES, " and not has_not_begun(said)", "", "Lists.test_what_breaks_off_is_not_seen"),
    ("versions: the last is left out", LOOP, "version.tried(self.more), self.versions)", "version.tried(self.more), self.versions[:-1])", "Lists.test_all_are_seen"),
    ("versions: the repository is changed", COPIES, "    path.unlink()\n", "", "Lists.test_all_are_seen"),
    ("versions: a missed one is no fault", LOOP, 'if found in ("MISSED", "BROKEN")]', 'if found == "BROKEN"]', "Lists.test_one_is_missed"),
    ("versions: a broken one is no fault", LOOP, 'if found in ("MISSED", "BROKEN")]', 'if found == "MISSED"]', "Lists.test_what_breaks_off_is_not_seen"),
    ("versions: the first of what is there alone", LOOP, "yield from ((file, [*tests][at : at + TOGETHER]) for at in range(0, len(tests), TOGETHER))", "yield file, [*tests][:TOGETHER]", "Lists.test_what_fails_as_it_is"),
    ("versions: what fails once fails", LOOP, "return found if found[0] in AS_IT_IS else wrong_copies.tried(*group, {})", "return found", "Lists.test_what_fails_once_as_it_is"),
    ("versions: on what fails as it is", LOOP, "                self.check_whole(groups, whole)\n", "", "Lists.test_what_fails_as_it_is"),
    ("versions: what is stale is tried", LOOP, "    if stale or given.list:", "    if given.list:", "Lists.test_what_is_stale_stops_it_at_once"),
    ("versions: a text that stands twice", LOOP, "* (count != 1)", "* (count == 0)", "Lists.test_what_is_stale_stops_it_at_once"),
    ("versions: a test that isn't there", LOOP, "* (not is_there)", "* 0", "Lists.test_what_is_stale_stops_it_at_once"),
    ("versions: none is all", LOOP, "    if not wanted.versions:", "    if False:", "Lists.test_words"),
    ("versions: nobody hears what is missing", LOOP, "        self.pass_over(version.missing for version in self.versions if version.missing)\n", "", "Lists.test_what_is_not_there_is_passed_over"),
    ("versions: nobody hears what was skipped", LOOP, 'self.pass_over(\n            "their tests were skipped" for version, found in verdicts if found == "skipped" and not version.missing\n        )', 'str("their tests were skipped" for version, found in verdicts if found == "skipped" and not version.missing)', "Lists.test_what_is_not_there_is_passed_over"),
    ("versions: nothing may be run", COPIES, "    path.chmod(mode)\n", "", "Lists.test_what_a_test_meets"),
    ("browser: one try", BROWSER, "    TRIES = 4", "    TRIES = 1", "Starts.test_chromium"),
    ("browser: tries without end", BROWSER, "                if not left:", "                if left:", "Starts.test_none_starts"),
    ("prepared: half installed is there", PREPARE, "s/ installed$//p", "s/ .*$//p", "PreparesMachine.test_half_installed_is_missing"),
    ("prepared: by anybody", PREPARE, '"$(id -u)" != 0', '"$(id -u)" = -', "PreparesMachine.test_nothing_is_installed_unasked"),
    ("prepared: whatever became of it", PREPARE, 'if [ -n "$left" ]; then', "if false; then", "PreparesMachine.test_what_cannot_be_installed"),
]


if __name__ == "__main__":
    try_all(__doc__, [Version(name, tool, old, new, TESTS.get(tool, "test_check_documents.py"), test) for name, tool, old, new, test in MUTATIONS])
