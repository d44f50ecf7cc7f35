"""What is wrong with a frame, or with the machine that reads it."""


class Fault(Exception):
    """The text says what and where, in one line."""
