#!/usr/bin/env python3
"""make_viewer_pictures: the pictures of the viewer in docs/images, from Chromium. The program must be built."""
import argparse
import pathlib
import sys
import tempfile
import time

from folders import TOP

import browser
from page import module, packing
from viewer_testing import EXAMPLES, Viewer

PICTURES = TOP / "docs/images"
SETTLED = 0.4  # seconds until what was asked for is drawn


class Shown:
    """A capture in the viewer, and hands on it."""

    def __init__(self, page, address, theme, last):
        self.page = page
        page.open("about:blank")
        page.open(address)
        page.run("localStorage.theme = arguments[0]", theme)
        page.call("/refresh", {})
        self.at(last)

    def at(self, position):
        self.page.until("return document.querySelector('#position b')?.innerText === arguments[0]", str(position))

    def pixel(self, x, y, width):
        left, top, wide, _ = self.page.run(
            "const b = document.getElementById('sheet').getBoundingClientRect(); return [b.left, b.top, "
            "b.width, b.height]"
        )
        self.page.click_at(left + (x + 0.5) * wide / width, top + (y + 0.5) * wide / width)
        self.page.until("return document.querySelectorAll('#history .entry').length > 0")

    def entry(self, event):
        self.page.click(f"#history [data-event='{event}']")
        self.at(event)

    def save(self, name):
        time.sleep(SETTLED)
        self.page.run("document.activeElement.blur()")
        self.page.picture(PICTURES / f"{name}.png")


def page_alone(page):
    """The page that a bug was sent as, from a file."""
    with tempfile.TemporaryDirectory() as folder:
        file = pathlib.Path(folder) / "framedbg_lantern.html"
        file.write_text(packing.page(module.build(TOP / "out/page"), EXAMPLES / "hunts/lantern.json", opens=True))
        shown = Shown(page, file.as_uri(), "light", 16)
        shown.pixel(78, 66, 120)
        shown.entry(15)
        shown.save("page_alone")


def main():
    argparse.ArgumentParser(description=__doc__).parse_args()
    if not browser.is_installed():
        sys.exit("make_viewer_pictures: Chromium and chromedriver aren't installed")
    page = browser.Browser(1320, 880)
    try:
        with Viewer(EXAMPLES / "house.json") as viewer:
            shown = Shown(page, viewer.server.address, "dark", 13)
            shown.pixel(50, 50, 96)
            shown.entry(11)
            shown.save("viewer_house")
        with Viewer(EXAMPLES / "hunts/chain.json") as viewer:
            shown = Shown(page, viewer.server.address, "light", 9)
            shown.pixel(95, 40, 120)
            shown.entry(9)
            page.click("[data-look='depth']")
            page.until(
                "return document.querySelector('[data-look=depth]').ariaChecked === 'true' && "
                "document.getElementById('busy').hidden",
                seconds=60,
            )
            shown.save("viewer_depth")
        page_alone(page)
    finally:
        page.close()


if __name__ == "__main__":
    main()
