"""What the tests of the page alone stand on: the page, which is made once, and how it is opened."""
import base64
import functools
import pathlib
import shutil
import tempfile
import unittest

from folders import TOP

from viewer_testing import EXAMPLES
from page import kit, module, packing

HOUSE, CHAIN = EXAMPLES / "house.json", EXAMPLES / "hunts/chain.json"
FOLDER = tempfile.TemporaryDirectory()
OBJECTS, PAGE, PACKED = (
    TOP / "out/page",
    pathlib.Path(FOLDER.name) / "framedbg.html",
    pathlib.Path(FOLDER.name) / "framedbg_house.html",
)
DROP = """
const [name, letters, place] = given, moved = new DataTransfer();
moved.items.add(new File([Uint8Array.from(atob(letters), letter => letter.charCodeAt(0))], name));
document.querySelector(place).dispatchEvent(new DragEvent("drop", { dataTransfer: moved, bubbles: true, cancelable: true }));
"""
# A worker that never answers where the frame's end is asked for
HELD_AT = "    const count = give(lines[0], place, room);\n"


@functools.cache
def setUpModule():
    """Makes the page, once for all modules whose tests are run."""
    try:
        module.compile_program(OBJECTS)
        made = linked()
    except kit.Failed as fault:
        if tried_kit():
            raise
        raise unittest.SkipTest(f"the page alone can't be made with this kit: {fault}") from None
    PAGE.write_text(packing.page(made, HOUSE))
    PACKED.write_text(packing.page(made, HOUSE, opens=True))


def tried_kit():
    try:
        return kit.name() == kit.TRIED
    except OSError:
        return False


def linked(**how):
    made = pathlib.Path(FOLDER.name) / "framedbg.wasm"
    module.link(OBJECTS, made, **how)
    return made.read_bytes()


def exchanged(file, old, new):
    """The page with a text of one of its scripts exchanged."""
    own, other = pathlib.Path(packing.__file__).parent, pathlib.Path(FOLDER.name) / "exchanged"
    shutil.copytree(own, other, dirs_exist_ok=True)
    text = (own / file).read_text()
    assert text.count(old) == 1, old
    (other / file).write_text(text.replace(old, new))
    path = PAGE.with_stem("exchanged")
    path.write_text(packing.page(linked(), HOUSE, own=other))
    return path


class Opened:
    """The page alone, opened in the place of the viewer's."""

    page = PAGE

    def open(self, viewer):
        """The viewer's tests come here with a server. It isn't asked: its capture is chosen in the page."""
        self.show(viewer.session.words[1])

    def show(self, capture):
        self.browser.open("about:blank")
        self.browser.open(self.page.as_uri())
        if self.page != PACKED:
            self.browser.until("return document.getElementById('capture-file') !== null")
            self.browser.choose("#capture-file", capture)
        self.browser.until("return document.querySelector('#position b') !== null")

    def within(self, script, *given):
        return self.browser.within("const name = file => file;" + script, *given)

    def drop(self, name, data, place="#stage"):
        self.browser.within(DROP, name, base64.b64encode(data).decode(), place)

    def plain(self, page=None):
        self.browser.open("about:blank")
        self.browser.open((page or self.page).as_uri())
        self.browser.until("return document.getElementById('capture-file') !== null")
