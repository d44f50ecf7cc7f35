"""A trace in which blended draws replace what they would be blended with: its pictures show the draws' own colours."""
import pathlib
import tempfile
from collections.abc import Iterable, Iterator
from contextlib import contextmanager

from real_frames import unblended
from real_frames.fault import Fault
from real_frames.losses import Losses

from . import numbers as gl
from .calls import Call, started
from .draws import Done
from .words import blending

Changes = dict[tuple[str, str], list[int]]  # words to exchange, and the calls that have them

ZERO, ONE, ALPHA, REST = 0, 1, 0x302, 0x303
HIDES, ADDS = ("GL_SRC_ALPHA GL_ONE", "GL_ONE_MINUS_SRC_ALPHA GL_ZERO"), ("GL_ONE GL_ZERO", "GL_SRC_ALPHA GL_ONE")
WORDS: dict[tuple[int, ...], tuple[str, str]] = {
    (ALPHA, REST): HIDES,
    (ONE, REST): HIDES,
    (ALPHA, ZERO): HIDES,
    (ALPHA, ONE): ADDS,
}  # what is exchanged in a call of these factors, in turn


def noted(some: Iterable[Call], changes: Changes) -> Iterator[Call]:
    """Gives calls as they come, and notes those that set blending."""
    for call in some:
        if call.name in ("glBlendFunc", "glBlendFuncSeparate"):
            words = WORDS.get(tuple(call.values()[:2]))
            if words:
                changes.setdefault(words, []).append(call.number)
        yield call


def is_blended(done: Done) -> bool:
    """Whether alpha of a draw can be told by its own colours."""
    return done.settings.is_on(gl.BLEND) and unblended.tells(blending(done.settings, Losses())[0])


@contextmanager
def without_blending(path: pathlib.Path, changes: Changes) -> Iterator[pathlib.Path]:
    """The path of a trace with these changes, which is there within the `with`."""
    with tempfile.TemporaryDirectory() as folder:
        for number, (words, calls) in enumerate(sorted(changes.items())):
            made, chosen = pathlib.Path(folder) / f"{number}.trace", pathlib.Path(folder) / f"{number}.txt"
            chosen.write_text("".join(f"{call}\n" for call in calls))
            exchanges = [part for pair in words for part in ("-e", "s/{}/{}/".format(*pair.split()))]
            with started(["apitrace", "sed", f"--calls=@{chosen}", *exchanges, "-o", made, path]) as process:
                told = b"".join(process.communicate())
            if process.returncode or not made.exists():
                raise Fault(
                    f"apitrace sed can't change the trace: {told.decode(errors='replace').strip()[-200:]}; with "
                    f"--fast it isn't asked to"
                )
            path = made
        yield path
