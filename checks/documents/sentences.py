"""sentences: the documents are told in short sentences, and the README is short.

A sentence has at most 60 words, and those of a page 30 on average; the README has at most 700 words. A piece of code
is a word, and blocks of code aren't counted. With --more it says how long each page and its sentences are. Pages are
those below docs/, beside README.md and the README.md of each folder.
"""
from folders import TOP

from . import Found, prose

LONGEST, MEAN, README = 60, 30, 700


def faults(name, text):
    """What is too long on a page, a line each."""
    found = list(prose.sentences(text))
    for sentence in found:
        if sentence.words > LONGEST:
            yield f"{name}: a sentence of {sentence.words} words, where {LONGEST} are the most: {sentence.shown}"
    mean = mean_of(found)
    if mean > MEAN:
        yield f"{name}: {mean:.1f} words a sentence, where {MEAN} are the most"
    if name == "README.md" and total_of(found) > README:
        yield f"{name}: {total_of(found)} words, where {README} are the most"


def mean_of(found):
    whole = [sentence.words for sentence in found if sentence.is_whole]
    return sum(whole) / max(len(whole), 1)


def total_of(found):
    return sum(sentence.words for sentence in found)


def measures(name, text):
    found = list(prose.sentences(text))
    longest = max((sentence.words for sentence in found), default=0)
    return f"{name}: {total_of(found)} words, {mean_of(found):.1f} a sentence, {longest} in the longest"


def pages():
    """The text of each page by its name, from the top of the repository."""
    files = [page for pattern in ("*.md", "docs/**/*.md", "*/README.md") for page in sorted(TOP.glob(pattern))]
    return {page.relative_to(TOP).as_posix(): page.read_text() for page in files}


def of_words(count, end="."):
    return " ".join(["word"] * count) + end + "\n"


WRONG = {  # a page, and its text
    "a long sentence": ("docs/A.md", of_words(LONGEST + 1) + "\n" + of_words(5) * 5),
    "a long item": ("docs/A.md", "- short.\n- " + of_words(LONGEST + 1, "") + "- short.\n" * 5),
    "a long cell": ("docs/A.md", "| a | b |\n|---|---|\n| c | " + of_words(LONGEST + 1, " |")),
    "a sentence over several lines": ("docs/A.md", of_words(40, ",") + of_words(21) + "\n" + of_words(5) * 3),
    "long sentences on a page": ("docs/A.md", ("W" + of_words(MEAN + 1)) * 3 + "\n# A heading\n\n# Another one\n"),
    "a long README": ("README.md", ("W" + of_words(10)) * 71),
}


def wrong_versions():
    return {name: lambda page=page: any(faults(*page)) for name, page in WRONG.items()}


def found():
    texts = pages()
    wrong = [line for name, text in texts.items() for line in faults(name, text)]
    return Found(f"{len(texts)} pages", wrong, tuple(measures(name, text) for name, text in texts.items()))
