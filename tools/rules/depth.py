"""The depth test: which depths pass, of a source and of what is stored."""
import operator
from collections.abc import Callable

PASSES: dict[str, Callable[[int, int], bool]] = {
    "NEVER": lambda source, stored: False,
    "LESS": operator.lt,
    "EQUAL": operator.eq,
    "LESS_EQUAL": operator.le,
    "GREATER": operator.gt,
    "NOT_EQUAL": operator.ne,
    "GREATER_EQUAL": operator.ge,
    "ALWAYS": lambda source, stored: True,
}
