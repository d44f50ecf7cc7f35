#!/usr/bin/env python3
"""test_prepare_machine: what isn't there is installed, by an apt-get that does it, fails or hangs, and only by root.

    tests/test_prepare_machine.py [TEST ..]
"""
import pathlib
import re
import shutil
import subprocess
import tempfile
import unittest

from folders import CHECKS

LISTED = [
    line.split()[0]
    for line in (CHECKS / "machine_packages.txt").read_text().splitlines()
    if line and not line.startswith("#")
]
NEEDED = ("bash", "env", "dirname", "sed", "awk", "grep", "timeout", "sleep", "cat", "id")
DPKG_QUERY = '#!/bin/bash\nwhile read -r name; do echo "$name installed"; done < {0}/packages\n'
APT_GET = """#!/bin/bash
echo "$DEBIAN_FRONTEND $*" >> {0}/asked
for word; do case $word in -*) ;; update) exit {update} ;; install) installs=yes ;; *=* | *[!a-z0-9-]*) ;; *) [ -z "$installs" ] || echo "$word" ;; esac; done > {0}/wanted
{body}
"""


class PreparesMachine(unittest.TestCase):
    def setUp(self):
        folder = tempfile.TemporaryDirectory()
        self.addCleanup(folder.cleanup)
        self.room = pathlib.Path(folder.name)
        self.bin = self.room / "bin"
        self.bin.mkdir()
        for name in NEEDED:
            (self.bin / name).symlink_to(shutil.which(name))
        (self.room / "packages").write_text("".join(f"{name}\n" for name in LISTED[2:]))

    def put(self, name, text):
        (self.bin / name).unlink(missing_ok=True)
        (self.bin / name).write_text(text)
        (self.bin / name).chmod(0o755)

    def machine(self, body="cat {0}/wanted >> {0}/packages", update=0, user=0):
        self.put("dpkg-query", DPKG_QUERY.format(self.room))
        self.put("apt-get", APT_GET.format(self.room, body=body.format(self.room), update=update))
        self.put("id", f"#!/bin/bash\necho {user}\n")

    def run_it(self, *words, seconds="60", most=60):
        environment = {"PATH": str(self.bin), "PREPARE_SECONDS": seconds}
        ran = subprocess.run(
            [CHECKS / "prepare_machine", *words],
            env=environment,
            capture_output=True,
            text=True,
            timeout=most,
            check=False,
        )
        asked = (self.room / "asked").read_text().splitlines() if (self.room / "asked").exists() else []
        return ran.returncode, ran.stdout + ran.stderr, asked

    def test_what_is_missing_is_installed(self):
        self.machine()
        status, said, asked = self.run_it()
        self.assertEqual(status, 0, said)
        self.assertEqual(len(asked), 2)
        self.assertIn(" update", asked[0])
        self.assertTrue(all(line.startswith("noninteractive ") for line in asked))
        self.assertTrue(asked[1].endswith(f" {LISTED[0]} {LISTED[1]}"), asked)
        self.assertEqual(self.run_it(), (0, "prepare_machine: all is there\n", asked))

    def test_half_installed_is_missing(self):
        self.machine()
        self.put(
            "dpkg-query",
            "#!/bin/bash\n"
            + "".join(f"echo {name} {'half-configured' if name == LISTED[3] else 'installed'}\n" for name in LISTED),
        )
        self.assertEqual(self.run_it("--list")[1].split(), [LISTED[3]])

    def test_lists_that_cannot_be_had(self):
        self.machine(update=100)
        status, said, _ = self.run_it()
        self.assertEqual(status, 0, said)
        self.assertIn("update ended with status 100", said)

    def test_what_cannot_be_installed(self):
        for body in ("exit 100", "exit 0", f"echo {LISTED[0]} >> {{0}}/packages"):
            self.machine(body)
            status, said, _ = self.run_it()
            self.assertEqual(status, 1, said)
            self.assertIn(f"not installed: {'' if 'echo' in body else LISTED[0] + ' '}{LISTED[1]}\n", said)

    def test_it_does_not_hang(self):
        self.machine("exec sleep 30")
        self.assertEqual(self.run_it(seconds="1", most=20)[0], 1)

    def test_nothing_is_installed_unasked(self):
        self.machine(user=1000)
        status, said, asked = self.run_it()
        self.assertEqual((status, asked), (0, []))
        self.assertIn(f"only root can install what isn't there: {LISTED[0]} {LISTED[1]}", said)
        (self.bin / "apt-get").unlink()
        self.assertEqual(self.run_it(), (0, "prepare_machine: no apt-get here, so nothing is installed\n", []))

    def test_words(self):
        self.machine()
        self.assertEqual(self.run_it("--list"), (0, f"{LISTED[0]}\n{LISTED[1]}\n", []))
        self.assertEqual(self.run_it("--help")[0], 0)
        self.assertEqual(self.run_it("--frob")[0], 1)

    def test_each_package_says_what_for(self):
        lines = [
            line
            for line in (CHECKS / "machine_packages.txt").read_text().splitlines()
            if line and not line.startswith("#")
        ]
        for line in lines:
            self.assertRegex(line, re.compile(r"[a-z0-9.+-]+ +\w.+"))
        self.assertEqual(len(set(LISTED)), len(LISTED))


if __name__ == "__main__":
    unittest.main()
