"""Why a driver can't be held against framedbg; the text is one clear line, and the status is what the program ends
with."""
ALIKE, DIFFERS, WORDS, NO_DRIVER, READING, INTERRUPTED = 0, 1, 2, 3, 4, 130


class Fault(Exception):
    def __init__(self, why: str, status: int = WORDS) -> None:
        super().__init__(why)
        self.status = status


class NoDriver(Fault):
    """There is no driver, or it can't do what a capture wants."""

    def __init__(self, why: str) -> None:
        super().__init__(why, NO_DRIVER)
