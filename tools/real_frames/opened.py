"""A frame that RenderDoc's own window has open: share/qrenderdoc converts it there."""
from .frame import RenderDoc
from .replay import ReplayedFrame


class Opened(ReplayedFrame):
    """The controller is the window's, and stays with it."""

    def __init__(self, path: str, controller: RenderDoc) -> None:
        super().__init__(path)
        self.lent = controller

    def __enter__(self) -> "Opened":
        self.use(self.lent, "the window")
        return self

    def __exit__(self, *_: object) -> None:
        if self.pictures:
            self.pictures.Shutdown()
