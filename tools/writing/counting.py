"""Numbers with what they count."""


def counted(number: int, what: str = "pixel") -> str:
    """As in 1 event, and 1,045 pixels."""
    return f"{number:,} {what}{'' if number == 1 else 's'}"
