"""The viewer's tests of answers, maps, the card, captures beside and what-if, over the page alone."""
import shutil
import unittest

import folders

import browser
import test_viewer_answers
import test_viewer_beside
import test_viewer_card
import test_viewer_maps
import test_viewer_what_if
from viewer_testing import DEPTH
from page_testing import CHAIN, HOUSE, PAGE, Opened
from page_testing import setUpModule  # noqa: F401

SAVED = """
const made = new Promise(resolve => { URL.createObjectURL = blob => { resolve(blob); return "data:,"; }; });
HTMLAnchorElement.prototype.click = function () { window.savedAs = this.download; };
document.getElementById("save-page").click();
return [await (await made).text(), window.savedAs];
"""


class AnswersInChromium(Opened, test_viewer_answers.AnswersInChromium):
    test_a_place_outlasts_a_reload = (
        test_a_pixel_is_picked_anywhere
    ) = test_a_filter_before_the_history = None  # of the server; places of a saved page are tried below
    test_the_targets_of_a_frame = None  # a page of one capture has no tabs

    def test_a_place_is_saved(self):
        """A saved page opens where it was saved; an address goes before that."""
        self.show(HOUSE)
        self.at(13)
        self.browser.run("location.hash = '#at=11&pixel=50,50&off=8'")
        self.reads("#value", "190 60 50 128")
        text, _ = self.browser.within(SAVED)
        saved = PAGE.with_stem("saved")
        saved.write_text(text)
        for address, value, position in (("", "190 60 50 128", 11), ("#at=13&pixel=50,50", "125 95 55 128", 13)):
            self.browser.open("about:blank")
            self.browser.open(saved.as_uri() + address)
            self.reads("#value", value)
            self.at(position)
        self.drop("chain.json", CHAIN.read_bytes())
        self.at(9)


class AnswersInFirefox(Opened, test_viewer_answers.AnswersInFirefox):
    test_a_place_outlasts_a_reload = (
        test_a_pixel_is_picked_anywhere
    ) = test_a_filter_before_the_history = test_the_targets_of_a_frame = None


class MapsInChromium(Opened, test_viewer_maps.MapsInChromium):
    test_no_button_is_lit_over_another_picture = None  # a server that waits


class MapsInFirefox(Opened, test_viewer_maps.MapsInFirefox):
    pass


class CardInChromium(Opened, test_viewer_card.CardInChromium):
    test_the_whole_table = None  # it is tried over the server

    def test_before_a_capture_is_chosen(self):
        """The choice leads to the view, where no frame is shown yet."""
        self.plain()
        self.browser.run("document.getElementById('choice-card').scrollIntoView()")  # below the ten hunts
        self.browser.click("#choice-card")
        self.browser.click("#card-frame")
        self.reads("#card-told", "no capture is shown yet")


@unittest.skipUnless(browser.Firefox.installed() and shutil.which("Xvfb"), "Firefox or Xvfb isn't installed")
class CardInFirefox(CardInChromium):
    kind, bits = browser.DrawingFirefox, 8


class BesideInChromium(Opened, test_viewer_beside.BesideInChromium):
    def test_a_capture_dropped_at_compared(self):
        """It stands beside; one that is dropped elsewhere is shown in the place of the first."""
        self.show(HOUSE)
        self.at(13)
        self.browser.press("Escape", "d")
        self.browser.until("return document.getElementById('comparison').checkVisibility()")
        self.drop("plain.json", test_viewer_beside.house_changed().encode(), "#comparison")
        self.reads("#beside-name", "plain.json at 13")
        self.reads("#capture", "house.json")
        self.drop("depth.json", DEPTH.encode())
        self.at(6)
        self.assertEqual(self.browser.run(test_viewer_beside.SHOWN), [False] * 3)


class BesideInFirefox(Opened, test_viewer_beside.BesideInFirefox):
    pass


class WhatIfInChromium(Opened, test_viewer_what_if.WhatIfInChromium):
    pass


class WhatIfInFirefox(Opened, test_viewer_what_if.WhatIfInFirefox):
    pass


if __name__ == "__main__":
    unittest.main()
