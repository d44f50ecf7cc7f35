"""What documents, definitions and programs say of one another: a module for each comparison that check_documents
makes, in its order.

Each module has a call that gives its wrong versions by name, and one that gives what it has found.
"""
from typing import NamedTuple

NAMES = ("sentences", "map", "tools", "measured", "definitions", "lemmas", "growths", "guide", "hunts", "real_hunt")


class Found(NamedTuple):
    """What was looked at, what of it is wrong, and what --more tells, a line each."""

    about: str
    wrong: list
    more: tuple = ()
