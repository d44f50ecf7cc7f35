#!/usr/bin/env python3
"""Modules of the viewer's page by themselves: what is shown, jobs in turn, images that are kept, and the way to a
position."""
import unittest

import folders

import browser
from viewer_hands import Hands
from viewer_testing import HOUSE, Viewer

SHOWN = """const it = await import(name("shown.js")), before = it.shown, channels = { r: true, g: false, b: false, a: false };
it.show({ pixel: { x: 3, y: 4 } });
it.show({ channels });
return [before.pixel, it.shown.pixel, before.channels.g, it.shown.channels.g, it.shown.look === before.look, Object.isFrozen(it.shown)];"""

# The first job takes a while, the second fails. Then what waits behind one that has begun is dropped, and what comes
# later is not
TURNS = """const { Turns } = await import(name("turns.js")), told = [], pause = ms => new Promise(resolve => setTimeout(resolve, ms));
const turns = new Turns(fault => { told.push(fault.message); return "failed"; });
const first = turns.take(async () => { await pause(30); told.push("first"); return 1; });
const second = turns.take(() => { told.push("second"); throw new Error("fault"); });
const third = turns.take(() => { told.push("third"); return 3; });
const waiting = turns.waiting, values = [await first, await second, await third];
const begun = turns.take(async () => { await pause(30); told.push("begun"); return 4; });
await pause(0);
const dropped = turns.take(() => { told.push("dropped"); return 5; });
turns.drop();
const later = turns.take(() => { told.push("later"); return 6; });
return [waiting, values, [await begun, await dropped ?? "nothing", await later], told, turns.waiting];"""

# Of seven the first goes; then that at 2 comes once more, so that 3 is the oldest one when an eighth comes
IMAGES = """const { Images } = await import(name("images.js")), images = new Images();
const there = () => [1, 2, 3, 4, 5, 6, 7, 8].filter(position => images.at(position)), told = [];
for (let position = 1; position <= 7; position++) images.keep(position, { name: String(position) });
told.push(there(), images.at(7).name);
images.keep(2, { name: "2 anew" });
images.keep(8, { name: "8" });
told.push(there(), images.at(2).name);
images.clear();
return [...told, there()];"""

LINES = """const { linesTo } = await import(name("arrival.js"));
return [
  linesTo(3, null, false, () => false), linesTo(0, null, false, () => false), linesTo(3, { x: 7, y: 9 }, false, position => position === 2),
  linesTo(3, null, true, () => false), linesTo(3, null, true, () => true),
];"""

ARRIVAL = """const { readArrival } = await import(name("arrival.js"));
const state = cull => ({ text: `state cull ${cull} ccw 1 scissor 0 rect 1 2 3 4 blend 0 ONE ZERO ADD ONE ZERO ADD mask 7 factor 9 8 7 6` });
const on = [{ text: "at 2" }, state("back"), { text: "pam 4", image: { name: "two" } }, { text: "at 3" }, state("none"), { text: "pam 4", image: { name: "three" } }, { text: "pixel 1 2 3 4 5" }];
const stopped = [{ text: "at 2" }, state("back"), { text: "stopped 2" }, state("back")];
const told = ({ position, moved, stopped, states, value, images, dragged }) => [position, moved, stopped, states.map(({ cull, rect, mask }) => [cull, rect, mask]), value, images.map(([at, image]) => [at, image.name]), dragged?.name];
return [told(readArrival(on, 1, false)), told(readArrival(on.slice(3), 2, true)), told(readArrival(stopped, 1, false))];"""


@unittest.skipUnless(browser.is_installed(), "Chromium and chromedriver aren't installed")
class Modules(Hands):
    def told(self, script):
        with Viewer(HOUSE) as viewer:
            self.open(viewer)
            self.reads("#position", "13 / 13")
            return self.within(script)

    def test_what_is_shown_is_exchanged(self):
        """Who holds the value has it as it was."""
        self.assertEqual(self.told(SHOWN), [None, {"x": 3, "y": 4}, True, False, True, True])

    def test_jobs_in_turn(self):
        waiting, values, others, told, left = self.told(TURNS)
        self.assertEqual((waiting, left), (3, 0))
        self.assertEqual(values, [1, "failed", 3])
        self.assertEqual(others, [4, "nothing", 6])
        self.assertEqual(told, ["first", "second", "fault", "third", "begun", "later"])

    def test_images_that_are_kept(self):
        self.assertEqual(self.told(IMAGES), [[2, 3, 4, 5, 6, 7], "7", [2, 4, 5, 6, 7, 8], "2 anew", []])

    def test_the_way_to_a_position(self):
        there = ["goto 2", "state", "goto 3", "state"]
        self.assertEqual(
            self.told(LINES),
            [
                ["goto 2", "state", "show", "goto 3", "state", "show"],
                ["goto 0", "state", "show"],
                [*there, "show", "pixel 7 9"],
                [*there, "show"],
                there,
            ],
        )

    def test_what_replies_say_of_it(self):
        back, none = ["back", [1, 2, 3, 4], 7], ["none", [1, 2, 3, 4], 7]
        value = {"colour": {"r": 1, "g": 2, "b": 3, "a": 4}, "depth": 5}
        self.assertEqual(
            self.told(ARRIVAL),
            [
                [3, "at 3", "", [back, none], value, [[2, "two"], [3, "three"]], None],
                [3, "at 3", "", [none], value, [], "three"],
                [2, "stopped 2", "stopped 2", [back, back], None, [], None],
            ],
        )


if __name__ == "__main__":
    unittest.main()
