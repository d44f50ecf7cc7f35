"""A report as JUnit XML, for machines that run tests."""
import re
from collections.abc import Sequence
from dataclasses import dataclass
from xml.sax.saxutils import escape, quoteattr

UNSEEN = re.compile("[^\t\n\r\x20-\ud7ff\ue000-\ufffd\U00010000-\U0010ffff]")  # what XML doesn't have


@dataclass(frozen=True)
class Case:
    """A test case: an event or a feature. `failure` is why it fails, or nothing."""

    name: str
    seconds: float
    failure: str = ""


def text_of(suite: str, cases: Sequence[Case]) -> str:
    failures, time = sum(bool(case.failure) for case in cases), sum(case.seconds for case in cases)
    head = (
        f'<testsuite name={named(suite)} tests="{len(cases)}" failures="{failures}" errors="0" skipped="0" '
        f'time="{time:.2f}">'
    )
    return '<?xml version="1.0" encoding="UTF-8"?>\n' + "\n".join([head, *map(line_of, cases), "</testsuite>"]) + "\n"


def line_of(case: Case) -> str:
    head = f'<testcase classname="framedbg-driver" name={named(case.name)} time="{case.seconds:.2f}"'
    if not case.failure:
        return f"{head}/>"
    return (
        f"{head}><failure message={named(case.failure.splitlines()[0])}>{escape(seen(case.failure))}</failure></"
        f"testcase>"
    )


def named(text: str) -> str:
    return quoteattr(seen(text))


def seen(text: str) -> str:
    return UNSEEN.sub("?", text)
