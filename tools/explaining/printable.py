"""A text of somebody else's on the way to a terminal: what would steer it (escape sequences, line ends, a turned
direction) is written out."""
MOST_SHOWN = 300  # characters


def printable(text: str) -> str:
    """The text on one line, with what can't be seen as \\x1b and the like, and cut where it is long."""
    shown = text if len(text) <= MOST_SHOWN else text[:MOST_SHOWN] + " .."
    return "".join(
        letter if letter.isprintable() else letter.encode("unicode_escape", "surrogatepass").decode()
        for letter in shown
    )
