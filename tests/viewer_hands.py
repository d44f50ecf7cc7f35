"""Hands on the viewer's page for its tests: what they press, and what the page shows then."""
import time
import unittest

import browser

# Answers that the browser complains of and a test may want: of a run that ended, without the token, and of a change
# that framedbg refuses
ASKED_FOR = ("410 (Gone)", "403 (Forbidden)", "400 (Bad Request)")


class Hands(unittest.TestCase):
    """A browser for the tests of a class, and hands on the page that it shows."""

    kind = browser.Browser

    @classmethod
    def setUpClass(cls):
        cls.browser = cls.kind()

    @classmethod
    def tearDownClass(cls):
        cls.browser.close()

    def tearDown(self):
        self.assertEqual(
            [
                complaint
                for complaint in self.browser.complaints()
                if not any(answer in complaint for answer in ASKED_FOR)
            ],
            [],
        )

    def leave(self):
        self.browser.open("about:blank")

    def open(self, viewer):
        self.leave()
        viewer.leave = self.leave
        self.browser.open(viewer.server.address)
        self.browser.until("return document.querySelector('#position b') !== null")

    def within(self, script, *given):
        """What a script gives that imports the page's own by name(..) and waits. Over the server no script may be
        added to the page, so it is the driver's."""
        words = (
            f"const [given, done] = arguments, name = file => new URL(file, location.href).href; (async () => "
            f"{{{script}}})().then(found => done([found]), fault => done([null, String(fault)]))"
        )
        found, *faults = self.browser.run_to_end(words, given)
        self.assertEqual(faults, [])
        return found

    def text(self, selector):
        return self.browser.run("return document.querySelector(arguments[0]).innerText", selector)

    def reads(self, selector, text):
        self.browser.until(
            "return document.querySelector(arguments[0])?.innerText.replace(/\\s+/g, ' ').trim() === arguments[1]",
            selector,
            text,
        )

    def comes(self, read, expected, seconds=browser.PATIENCE):
        """What the page shows as soon as it has caught up with what was done to it."""
        end = time.time() + seconds
        for pause in browser.pauses():
            if read() == expected or time.time() > end:
                break
            time.sleep(pause)
        self.assertEqual(read(), expected)

    def at(self, position):
        self.reads("#position b", str(position))

    def box(self, selector):
        return self.browser.run(
            "const b = document.querySelector(arguments[0]).getBoundingClientRect(); return [b.left, b.top, "
            "b.width, b.height]",
            selector,
        )

    def click_pixel(self, x, y, width, inside=0.5):
        """In its middle, or nearer to its left and upper (0) or to its right and lower edge (1)."""
        left, top, wide, _ = self.box("#sheet")
        self.browser.click_at(left + (x + inside) * wide / width, top + (y + inside) * wide / width)

    def drawn(self, x, y):
        return self.browser.run(
            "return [...document.getElementById('image').getContext('2d').getImageData(arguments[0], "
            "arguments[1], 1, 1).data]",
            x,
            y,
        )

    def history(self):
        return self.browser.run(
            "return [...document.querySelectorAll('#history .entry')].map(e => [...e.children].map(c => "
            "c.innerText.trim()).join(' '))"
        )

    def state(self):
        names = self.browser.run("return [...document.querySelectorAll('#state-table dt')].map(e => e.innerText)")
        values = self.browser.run(
            "return [...document.querySelectorAll('#state-table .said')].map(e => e.innerText.replace(/\\s+/g, "
            "' ').trim())"
        )
        return dict(zip(names, values))

    def command(self, line):
        self.browser.click("#command")
        self.browser.press(*line, "Enter")
        self.browser.until(
            "return document.querySelector('#log .told:last-child .asked').innerText === arguments[0]", line
        )
        self.browser.press("Escape")
        return self.text("#log .told:last-child .reply")

    def row(self, number):
        return f"#event-list [data-number='{number}']"

    def switch(self, number, on):
        """Clicks on an event's box, and once more where the list was drawn anew under the pointer."""
        box, end = f"{self.row(number)} input", time.time() + browser.PATIENCE
        while self.browser.run("return document.querySelector(arguments[0]).checked", box) != on and time.time() < end:
            self.browser.click(box)
            time.sleep(1)

    def choose_entry(self, event):
        """Clicks on an entry, and once more where the list was drawn anew under the pointer."""
        end = time.time() + browser.PATIENCE
        while self.text("#position b") != str(event):
            self.browser.click(f"#history [data-event='{event}']")
            try:
                self.browser.until(
                    "return document.querySelector('#position b').innerText === arguments[0]", str(event), seconds=5
                )
            except AssertionError:
                if time.time() > end:
                    raise

    def drawn_of(self, width, *places):
        """What is drawn at pixels of the target of which a part is in sight, all at one moment."""
        return self.browser.run(
            "const [width, places] = arguments, image = document.getElementById('image'), [a, b] = [image, "
            "document.getElementById('sheet')].map(e => e.getBoundingClientRect());"
            "const across = Math.round((a.left - b.left) * width / b.width), down = Math.round((a.top - b.top) "
            "* width / b.width);"
            "return places.map(([x, y]) => [...image.getContext('2d').getImageData(x - across, y - down, 1, 1).data])",
            width,
            places,
        )

    def stop(self):
        """The button, as soon as it can be pressed."""
        self.browser.until("return document.getElementById('stop').getAttribute('aria-disabled') === 'false'")
        self.browser.run("document.getElementById('notice').replaceChildren()")  # what is told from now on counts
        self.browser.click("#stop")

    def stopped_at(self, position):
        self.reads("#notice", f"Stopped: at {position}")
        self.at(position)
        self.assertEqual(
            self.browser.run("return document.getElementById('stop').getAttribute('aria-disabled')"), "true"
        )
