#!/usr/bin/env python3
"""test_build_program: crates that don't use one another are built beside each other, each after those that it uses,
and what is older than its sources is built anew.

    tests/test_build_program.py [TEST ..]

The crates are made up, and so is the toolchain.
"""
import os
import re
import types

import folders  # noqa: F401
import kit_testing
import libraries
import passed_over

USES = {"low": "", "left": "low", "right": "low", "top": "left right", "framedbg": "top", "aside": "low"}


class BuildsProgram(kit_testing.Checkout):
    def setUp(self):
        super().setUp()
        self.write("crates.txt", "".join(f"{name}: {below}\n" for name, below in USES.items()))
        for name in USES:
            self.write(f"crates/{name}/src/lib.rt", f"fn {name}() {{}}\n")

    def built(self):
        """The status, what is printed without the seconds, the errors, and what the toolchain did."""
        status, said, errors = self.ran("build/build_program")
        return status, [re.sub(r": \d+ s$", ": N s", line) for line in said], errors, self.log()

    def test_each_after_those_that_it_uses(self):
        status, said, errors, log = self.built()
        self.assertEqual((status, errors), (0, ""))
        self.assertEqual(
            log[:3] + log[7:],
            [
                "shares its work",
                "begins low",
                "ends low",
                "begins top",
                "ends top",
                f"links {self.top}/crates/framedbg",
            ],
        )
        self.assertEqual(
            [sorted(log[3:5]), sorted(log[5:7])], [["begins left", "begins right"], ["ends left", "ends right"]]
        )

    def test_a_source_is_newer(self):
        self.built()
        later = os.stat(self.top / "crates/framedbg/out/framedbg").st_mtime + 10
        os.utime(self.write("crates/aside/src/lib.rt", "fn other() {}\n"), (later, later))
        self.assertEqual(self.built()[3], [])
        os.utime(self.write("crates/left/src/lib.rt", "fn other() {}\n"), (later, later))
        begun = [line for line in self.built()[3] if line.startswith(("begins", "links"))]
        self.assertEqual(sorted(begun), ["begins left", "begins top", f"links {self.top}/crates/framedbg"])

    def test_those_on_long_chains_end_last(self):
        """Of the longest three quarters are enough."""
        for lines, others in ((15, {"right"}), (14, set())):
            sizes = {"low": 10, "left": 30, "right": lines, "top": 20, "aside": 34}
            crates = {}
            for name, size in sizes.items():
                below = [crates[low] for low in USES[name].split()]
                below += [low for one in below for low in one.below() if low not in below]
                crates[name] = types.SimpleNamespace(
                    name=name, below=lambda below=below: below, count=lambda _, size=size: size
                )
            self.assertEqual(libraries.long_chains([*crates.values()]), {"low", "left", "top"} | others)

    def test_one_is_not_built(self):
        """No other begins after it, and the program isn't linked."""
        self.write("crates/left/src/lib.rt", "bad\n")
        status, said, errors, log = self.built()
        self.assertEqual((status, errors), (1, "build_program: left: not built (status 1); see out/build/left.log\n"))
        self.assertNotIn("begins top", log)
        self.assertFalse([line for line in log if line.startswith("links")])

    def test_the_program_is_not_linked(self):
        self.write("crates/framedbg/status", "1")
        self.assertEqual(
            self.built()[::2], (1, "build_program: framedbg: not built (status 1); see out/build/framedbg.log\n")
        )

    def test_another_toolchain(self):
        kit = self.top / "bin/rt"
        kit.write_text(kit.read_text().replace("def in_lanes(", "def in_rows("))
        self.assertEqual(
            self.built()[::2], (1, f"{kit} has no in_lanes: build/kit.py was written for another toolchain\n")
        )


if __name__ == "__main__":
    passed_over.run_tests("test_build_program")
