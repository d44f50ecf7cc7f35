"""The report of a night as JUnit XML: a test case for each capture."""
import re
from collections.abc import Sequence
from xml.sax.saxutils import escape, quoteattr

from .told import Told

UNSEEN = re.compile("[^\t\n\r\x20-\ud7ff\ue000-\ufffd\U00010000-\U0010ffff]")


def clean(text: str) -> str:
    """Without the characters that XML doesn't have."""
    return UNSEEN.sub("?", text)


def text_of(night: Sequence[Told]) -> str:
    count = {word: sum(one.verdict == word for one in night) for word in ("differs", "failed", "no picture")}
    head = (
        f'<testsuite name="framedbg-night" tests="{len(night)}" failures="{count["differs"]}" '
        f'errors="{count["failed"]}" skipped="{count["no picture"]}" '
        f'time="{sum(one.seconds for one in night):.2f}">'
    )
    return '<?xml version="1.0" encoding="UTF-8"?>\n' + "\n".join([head, *map(case_of, night), "</testsuite>"]) + "\n"


def case_of(one: Told) -> str:
    head = f'<testcase classname="framedbg-night" name={quoteattr(clean(one.shown))} time="{one.seconds:.2f}"'
    if one.verdict == "alike":
        return head + "/>"
    kind = {"differs": "failure", "failed": "error", "no picture": "skipped"}[one.verdict]
    body = escape(clean("\n".join(one.lines)))
    return f"{head}><{kind} message={quoteattr(clean(one.headline))}>{body}</{kind}></testcase>"
