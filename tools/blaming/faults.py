"""Why blame can't do what it is asked; the text is one clear line, and the status is what the program ends with."""
WORDS, READING, MEMORY, NOBODY, INTERRUPTED = 2, 3, 5, 4, 130


class Fault(Exception):
    def __init__(self, why: str, status: int = WORDS) -> None:
        super().__init__(why)
        self.status = status
