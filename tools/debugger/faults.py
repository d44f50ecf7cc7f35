"""What a line may come to besides an answer."""
from framedbg_client import Ended


class Slip(Exception):
    """The line isn't understood, or can't be done; nothing has changed."""


class Failed(Exception):
    """An `expect` that doesn't hold, or a line of a script that can't be done: the script ends here. `where` is its
    file and line, and `status` what fdb --batch ends with."""

    def __init__(self, why: str, where: str = "", status: int = 1) -> None:
        super().__init__(why)
        self.why, self.where, self.status = why, where, status

    def __str__(self) -> str:
        return f"{self.where}: {self.why}" if self.where else self.why


class Leave(Exception):
    """The user has had enough."""


def status_of(ended: Ended) -> int:
    """What fdb ends with where framedbg's run has ended so: the same, where that is one of framedbg's own."""
    return ended.status if 2 <= ended.status <= 5 else 1
