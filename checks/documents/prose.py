"""The sentences of a Markdown page: of its paragraphs, items, cells and headings, without blocks of code, comments
and pictures."""
import re
from dataclasses import dataclass

FENCE = re.compile(r"^[ \t]*(```+|~~~+).*?^[ \t]*\1[ \t]*$", re.M | re.S)
COMMENT = re.compile(r"<!--.*?-->", re.S)
PICTURE = re.compile(r"!\[[^\]]*\]\([^)]*\)")
LINK = re.compile(r"\[([^\]]*)\]\([^)]*\)")
TAG = re.compile(r"</?[a-z]+[^>]*>")
CODE = re.compile(r"(`+)(.+?)\1", re.S)
OPENS = re.compile(r"^[ \t]*(?:[-*+]|\d+[.)]|#{1,6})[ \t]+")  # an item or a heading, which begins a text of its own
RULE = re.compile(r"[ \t]*\|?[ \t]*:?-{3,}")  # the line below a table's head, or a rule
END = re.compile(r"[.!?]['\")*_]*\s+(?=['\"(*_\[†\\ ]*[A-Z0-9`])")
STOP = re.compile(r"[.!?:]['\")*_]*$")
SHORT = ("e.g.", "i.e.", "etc.", "..")  # after these a sentence goes on
HIDDEN = "\x00"  # in code, where nothing ends a sentence or a cell
FEW = 8  # so many words without a stop are a name, and no sentence


@dataclass
class Sentence:
    shown: str  # in one line
    words: int
    is_whole: bool  # it ends like a sentence, or is as long as one; else it is a heading's or a cell's few words


def hidden(code):
    """A piece of code with nothing in it that ends a sentence or a cell."""
    return "`" + re.sub(r"[.!?|\s]+", HIDDEN, code[2].strip()) + "`"


def texts(page):
    """The texts of a page, each by itself: a paragraph, an item, a heading, a cell of a table."""
    plain = FENCE.sub("\n", COMMENT.sub("", page).replace("\\|", " "))
    plain = CODE.sub(hidden, LINK.sub(r"\1", PICTURE.sub("", plain)))
    text = []
    for line in [*TAG.sub("\n", plain).splitlines(), ""]:
        is_row, opens = line.lstrip().startswith("|"), OPENS.match(line)
        if text and (is_row or opens or not line.strip() or text[0].startswith("#")):
            yield " ".join(text)
            text = []
        if is_row and not RULE.match(line):
            yield from line.strip().strip("|").split("|")
        elif not is_row and line.strip() and not RULE.match(line):
            text.append(line)


def words(sentence):
    """The words of a sentence: what stands between spaces and has a letter or a digit. A piece of code is one."""
    return [word for word in sentence.split() if re.search(r"[^\W_]", word)]


def cut(text):
    """The sentences of a text."""
    text, start = OPENS.sub("", text), 0
    for end in END.finditer(text):
        if not text[: end.end()].rstrip().endswith(SHORT):
            yield text[start : end.end()].strip()
            start = end.end()
    yield text[start:].strip()


def sentences(page):
    """The sentences of a page, in their order."""
    for sentence in (sentence for text in texts(page) for sentence in cut(text)):
        count = len(words(sentence))
        if count:
            yield Sentence(
                " ".join(sentence.replace(HIDDEN, ".").split()), count, count >= FEW or bool(STOP.search(sentence))
            )
