"""The names of the figures that the parts print: each part is gone through with nothing run, drawn, read or timed."""
import pathlib
from unittest import mock

import scenes
import drawing
import frames
import reading
import short_memory
import towns
import undrawn
from bench import Asked, Bench
from turns import Taken


class Rehearsal(Bench):
    """A bench that makes no capture and runs nothing. Each time is a second, each memory a byte."""

    def __init__(self):
        self.folder, self.markdown, self.names, self.programs, self.counter = pathlib.Path(), False, [], [None], None

    def title(self, text):
        pass

    def figure(self, name, value, unit, plain=None, **asked):
        Asked(**asked)
        self.names.append(name)

    def capture(self, data, name=""):
        return self.folder

    def by_turns(self, run, rounds=1):
        return super().by_turns(run, 1)

    def there_and_back(self, path, start, end, rounds=1):
        return Taken(1), Taken(1)

    def best(self, work):
        return Taken(1)

    def built(self, name):
        return self.folder

    def usage(self, words, output=None):
        return 0, 1, 1, b""

    def plain(self, scene, rounds=1):
        return 1, 1, 1

    def plain_side_by_side(self, scene, number):
        return 1

    def same_image(self, name, scene, per_draw=1):
        pass


class Session:
    """A run that takes a second for all, and a byte."""

    def __init__(self, path, workers=1, program=None):
        pass

    def __enter__(self):
        return self

    def __exit__(self, *_):
        pass

    def ask(self, lines):
        return 1, 1

    def memory(self):
        return 1


class Town:
    """A town without anything in it."""

    side, events = 2048, ()

    def __init__(self, **_):
        pass

    def capture(self):
        return b""

    def middle_change(self):
        return 1


class Limited:
    """A run under a limit, of which a byte is enough."""

    def __init__(self, *_):
        pass

    def least(self, lines, position):
        return 1

    def reached(self, lines, mib, worst=min):
        return 1

    def further(self, lines, mib):
        return 1


def no_text(*_, **__):
    return b""


STAND_INS = [
    (drawing, "Session", Session),
    (frames, "Session", Session),
    (undrawn, "Session", Session),
    (towns, "Town", Town),
    (short_memory, "Limited", Limited),
    (reading, "vertices", no_text),
    (reading, "hostile", lambda size: []),
    (scenes.Scene, "capture", no_text),
    (scenes.Scene, "numbers", no_text),
    (scenes, "markers", no_text),
    (scenes, "states", no_text),
    (scenes, "frame", no_text),
]


def names(parts):
    """The names of the figures of some parts."""
    bench = Rehearsal()
    patches = [mock.patch.object(*stand_in) for stand_in in STAND_INS]
    for patch in patches:
        patch.start()
    try:
        for part in parts:
            part(bench)
    finally:
        mock.patch.stopall()
    return bench.names
