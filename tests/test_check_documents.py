#!/usr/bin/env python3
"""test_check_documents: what is wrong with a document fails the check, whatever else it compares; how a page is cut
into sentences, and which pages are too long.

    tests/test_check_documents.py [TEST ..]
"""
import os
import pathlib
import shutil
import subprocess
import tempfile
import unittest

from folders import CHECKS, TOOLS, TOP, WRONG

import documents
from documents import prose, sentences

# A comparison that is made up: it finds what is wrong, of which NAME is a line, and a wrong version of it is seen if
# SEEN is true
MADE_UP = """\"\"\"{name}: what is
made up. It tells more.\"\"\"
from . import Found

def wrong_versions():
    return {{"another": lambda: {seen}}}

def found():
    return Found("three stars", {wrong}, ("a fourth",))
"""
BY_PROGRAM = """
def by_program(program):
    yield from [] if program.read_text() == "well" else [f"{program.name} is ill"]
"""


def counts(page):
    return [sentence.words for sentence in prose.sentences(page)]


class Checks(unittest.TestCase):
    """The check in a folder with comparisons that are made up."""

    def setUp(self):
        folder = tempfile.TemporaryDirectory()
        self.addCleanup(folder.cleanup)
        self.top = pathlib.Path(folder.name)
        for file in [
            CHECKS / "check_documents",
            *(CHECKS / f"{name}.py" for name in ("folders", "checking", "passed_over")),
            *(WRONG / f"wrong_{name}.py" for name in ("versions", "copies")),
            *TOOLS.glob("framedbg_client/*.py"),
        ]:
            (self.top / file.relative_to(TOP)).parent.mkdir(parents=True, exist_ok=True)
            shutil.copy(file, self.top / file.relative_to(TOP))
        (self.top / "checks/documents").mkdir()
        shutil.copy(CHECKS / "documents/__init__.py", self.top / "checks/documents")
        self.names = documents.NAMES
        for name in self.names:
            self.write(name)

    def write(self, name, wrong=(), seen=True, more=""):
        (self.top / f"checks/documents/{name}.py").write_text(
            MADE_UP.format(name=name, wrong=list(wrong), seen=seen) + more
        )

    def ran(self, *words, **more):
        done = subprocess.run(
            [self.top / "checks/check_documents", *words],
            env={**os.environ, **more},
            capture_output=True,
            text=True,
            check=False,
        )
        return done.returncode, done.stdout.splitlines(), done.stderr

    def test_all_are_made(self):
        said = [line for name in self.names for line in (f"{name}: 1 wrong versions were seen", f"{name}: three stars")]
        self.assertEqual(self.ran(), (0, [*said, f"{len(self.names)} passed, 0 failed"], ""))

    def test_each_that_finds_something_fails(self):
        for name in (self.names[0], self.names[-1]):
            self.write(name, ["it has no moon", "nor a sun"])
            status, said, _ = self.ran()
            self.assertEqual((status, said[-1]), (1, f"{len(self.names) - 1} passed, 1 failed"))
            self.assertEqual(
                said[said.index("WRONG it has no moon") :][:3],
                ["WRONG it has no moon", "WRONG nor a sun", f"{name}: three stars"],
            )
            self.write(name)

    def test_one_that_does_not_see_its_wrong_versions_fails(self):
        self.write(self.names[1], seen=False)
        status, _, errors = self.ran()
        self.assertEqual((status, errors.splitlines()[0]), (1, f"{self.names[1]}: not seen: another"))

    def test_names(self):
        self.write(self.names[0], ["it has no moon"])
        self.assertEqual(self.ran(*self.names[1:3])[::2], (0, ""))
        self.assertEqual(self.ran(self.names[0])[0], 1)
        self.assertEqual(self.ran("moon")[:2], (2, []))

    def test_more_and_list(self):
        self.assertIn("a fourth", self.ran("--more", self.names[0])[1])
        self.assertNotIn("a fourth", self.ran(self.names[0])[1])
        self.assertEqual(self.ran("--list")[1], [f"{name}: what is made up. It tells more" for name in self.names])

    def test_by_a_built_program(self):
        program = self.top / "program"
        self.write(self.names[-1], more=BY_PROGRAM)
        self.assertEqual(
            self.ran("--built", FRAMEDBG=str(program))[::2], (1, f"check_documents: there is no program {program}\n")
        )
        for text, ended in (
            ("well", (0, ["1 passed, 0 failed"], "")),
            ("ill", (1, ["WRONG program is ill", "0 passed, 1 failed"], "")),
        ):
            program.write_text(text)
            self.assertEqual(self.ran("--built", FRAMEDBG=str(program)), ended)
        self.assertEqual(self.ran("--built", self.names[0], FRAMEDBG=str(program))[0], 1)

    def test_each_module_is_one_of_them(self):
        """A comparison that nobody names is never made."""
        made = {file.stem for file in (CHECKS / "documents").glob("*.py") if "\ndef found(" in file.read_text()}
        self.assertEqual(made, set(documents.NAMES))


class Sentences(unittest.TestCase):
    def test_stops_end_them(self):
        self.assertEqual(counts("One two. Three four five! Six? Seven.\n"), [2, 3, 1, 1])

    def test_a_line_goes_on(self):
        self.assertEqual(counts("One two\nthree four.\n"), [4])

    def test_paragraphs_items_and_headings_stand_alone(self):
        self.assertEqual(counts("# One\ntwo three\n- four\n- five six\n\nseven\n1. eight\n"), [1, 2, 1, 2, 1, 1])

    def test_an_item_goes_on(self):
        self.assertEqual(counts("- one two\n  three\n"), [3])

    def test_cells(self):
        self.assertEqual(counts("| one | two three |\n|---|---|\n| four. Five | six |\n"), [1, 2, 1, 1, 1])

    def test_code_is_a_word(self):
        self.assertEqual(counts("Say `goto 13. And | back?` now.\n"), [3])
        self.assertEqual(counts("| `a | b` | c |\n"), [1, 1])

    def test_blocks_comments_and_pictures_are_left_out(self):
        self.assertEqual(
            counts("One.\n```sh\nmany words here\n```\n<!-- some\nmore -->\n![a picture of it](a.png)\nTwo.\n"), [1, 1]
        )

    def test_a_link_is_its_text(self):
        self.assertEqual(counts('See [the guide](docs/GUIDE.md "its title") now.\n'), [4])

    def test_numbers_and_short_forms_end_none(self):
        self.assertEqual(counts("It took 0.5 s, e.g. One. Then -O3. Compare.\n"), [6, 2, 1])

    def test_signs_are_no_words(self):
        self.assertEqual(counts("One - two + † three.\n"), [3])

    def test_names_are_no_sentences(self):
        self.assertEqual(
            [
                sentence.is_whole
                for sentence in prose.sentences(
                    "# A heading\n\nShort.\n\n| cell | one two three four five six seven eight |\n"
                )
            ],
            [False, True, False, True],
        )


class Pages(unittest.TestCase):
    def faults(self, text, name="docs/A.md"):
        return list(sentences.faults(name, text))

    def test_a_page_that_is_well(self):
        self.assertEqual(self.faults("One two three.\n"), [])

    def test_a_long_sentence_is_shown(self):
        found = self.faults("A short one. Word " + "word " * 59 + "last.\n")
        self.assertEqual(len(found), 2)
        self.assertIn("docs/A.md: a sentence of 61 words", found[0])
        self.assertIn("last.", found[0])

    def test_sixty_words_pass_among_short_ones(self):
        self.assertEqual(self.faults("Word " + "word " * 58 + "last.\n\n" + "One. " * 5 + "\n"), [])

    def test_the_mean(self):
        self.assertEqual(
            self.faults(("Word " + "word " * 29 + "last. ") * 2),
            ["docs/A.md: 31.0 words a sentence, where 30 are the most"],
        )
        self.assertEqual(self.faults(("Word " + "word " * 28 + "last. ") * 2), [])

    def test_headings_make_no_mean_better(self):
        self.assertEqual(len(self.faults("# One\n\n# Two\n\n" + ("Word " + "word " * 29 + "last. ") * 2)), 1)

    def test_the_readme(self):
        self.assertEqual(self.faults("Word word. " * 350, "README.md"), [])
        self.assertEqual(len(self.faults("Word word. " * 351, "README.md")), 1)

    def test_measures(self):
        self.assertEqual(
            sentences.measures("docs/A.md", "One. Two three four.\n"),
            "docs/A.md: 4 words, 2.0 a sentence, 3 in the longest",
        )


if __name__ == "__main__":
    unittest.main()
