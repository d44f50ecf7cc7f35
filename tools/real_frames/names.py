"""Names that a frame brings along, as they may be shown and kept."""

BEFORE = "before"  # in the place of a call's name: what lay on the target before the first that is carried over
MOST, MOST_LINE = 200, 2000  # characters of a name, and of a line that says what is wrong


def printable(text: object, most: int = MOST) -> str:
    """A name without what would steer a terminal, and not endless."""
    return "".join(c if c.isprintable() else "?" for c in str(text)[:most])
