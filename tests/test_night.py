#!/usr/bin/env python3
"""test_night: tries framedbg-night on this machine, and on a Slurm that it starts: what differs, what fails, what is
killed, and what goes on.

    tests/test_night.py [TEST ..]

FRAMEDBG names another program.
"""
import base64
import html
import json
import os
import pathlib
import pty
import random
import re
import signal
import subprocess
import sys
import tempfile
import time
import unittest
import xml.etree.ElementTree

import folders

import passed_over
import driver_testing
import slurm_testing
from blame_testing import PROGRAM, TOOLS, blend, box, capture, clear, painted, pam

from framedbg_client import read_pam
from nights import local

SKY, RED, GLASS = (10, 20, 30, 255), (200, 40, 30, 255), (220, 210, 90, 120)
RIGHT = [clear(*SKY), box(2, 2, 14, 12, RED), blend(), box(6, 5, 20, 16, GLASS)]
WRONG = [*RIGHT[:2], blend(mask=6), RIGHT[3]]
DIFFER = 14 * 11  # the pixels of the glass
# runs the real program, and notes what it is asked; the job of a capture with a marker `deadly` is killed, as long as a
# file isn't there
DEADLY = """#!/bin/sh
for last; do :; done
echo "$last" >> ROOM/asked
if [ -e ROOM/slow ] && [ "$1" = image ]; then echo $$ $PPID >> ROOM/running; exec sleep 60; fi
if [ ! -e ROOM/cured ] && grep -q deadly "$last"; then kill -9 $PPID; sleep 5; fi
exec REAL "$@"
"""


class Night(unittest.TestCase):
    environment = os.environ

    def setUp(self):
        temporary = tempfile.TemporaryDirectory()
        self.addCleanup(temporary.cleanup)
        self.room = pathlib.Path(temporary.name)
        self.folder = self.room / "captures"
        (self.folder / "of the town").mkdir(parents=True)
        self.program = self.room / "framedbg"
        self.program.write_text(DEADLY.replace("ROOM", str(self.room)).replace("REAL", PROGRAM))
        self.program.chmod(0o755)
        self.put("fine", RIGHT)
        self.put("glass", WRONG)
        self.put("of the town/glass & <more>", WRONG)

    def put(self, name, events, right=RIGHT, picture=".pam", version=2):
        (self.folder / f"{name}.json").write_text(json.dumps(capture(events, version=version)))
        data = pam(capture(right, version=version))
        if picture:
            (self.folder / f"{name}{picture}").write_bytes(data if picture == ".pam" else read_pam(data).png())

    def night(self, *words, **how):
        ran = subprocess.run(
            [sys.executable, TOOLS / "framedbg-night", self.folder, "--program", self.program, *map(str, words)],
            capture_output=True,
            text=True,
            env=self.environment,
            timeout=300,
            check=False,
            **how,
        )
        return ran.returncode, ran.stdout.splitlines(), ran.stderr

    def asked(self):
        """The captures that framedbg was asked for itself, without those that blame makes."""
        path = self.room / "asked"
        lines = path.read_text().splitlines() if path.exists() else []
        path.unlink(missing_ok=True)
        return {pathlib.Path(line).stem for line in lines if line.startswith(str(self.folder))}

    def suite(self):
        return xml.etree.ElementTree.parse(self.folder / "night/night.xml").getroot()

    def verdicts(self):
        return {case.get("name"): [child.tag for child in case] for case in self.suite()}


class Reports:
    """What holds here and on a cluster alike."""

    words = ()

    def test_what_differs(self):
        self.put("alone", RIGHT, picture=None)
        self.put("small", WRONG, picture=".png")
        status, lines, errors = self.night(*self.words, "--allow-missing")
        self.assertEqual((status, errors), (1, ""), lines)
        self.assertEqual(lines[0], "5 captures: 1 alike, 3 differ, 0 failed, 1 without a picture; 4 done now")
        self.assertEqual(
            lines[1:4],
            [
                f"{name}: {DIFFER} of 432 pixels differ: event 3; mended by event 3, mask 15 in place of 6"
                for name in ("glass", "of the town/glass & <more>", "small")
            ],
        )
        self.assertEqual(
            self.verdicts(),
            {
                "alone": ["skipped"],
                "fine": [],
                "glass": ["failure"],
                "of the town/glass & <more>": ["failure"],
                "small": ["failure"],
            },
        )
        suite = self.suite()
        self.assertEqual([suite.get(name) for name in ("tests", "failures", "errors", "skipped")], ["5", "3", "0", "1"])
        self.assertIn("who     event 3", suite.find("testcase[@name='glass']/failure").text)

    def test_draws_with_pictures(self):
        """What is discarded differs from nothing; a mask under them is found as under other draws."""
        sheet = painted(box(2, 2, 14, 12, RED), random.Random(4), 3, 2, 9, 9)
        under = lambda mask: [clear(*SKY), blend(mask=mask), sheet]
        for name, mask in (("fine", 15), ("glass", 6), ("of the town/glass & <more>", 6)):
            self.put(name, under(mask), under(15), version=3)
        status, lines, errors = self.night(*self.words)
        self.assertEqual((status, errors), (1, ""), lines)
        self.assertEqual(lines[0], "3 captures: 1 alike, 2 differ, 0 failed, 0 without a picture; 3 done now")
        self.assertTrue(lines[1].endswith("event 2; mended by event 2, mask 15 in place of 6"), lines)

    def test_what_is_killed(self):
        """It is told, the others are done, and the same command does it again, and no other."""
        self.put("mortal", [{"kind": "marker", "name": "deadly"}, *WRONG])
        status, lines, _ = self.night(*self.words)
        self.assertEqual(status, 4, lines)
        self.assertEqual(lines[0], "4 captures: 1 alike, 2 differ, 1 failed, 0 without a picture; 4 done now")
        self.assertTrue(any(line.startswith("mortal: ") and "kill" in line.lower() for line in lines), lines)
        self.assertEqual(self.verdicts()["mortal"], ["error"])
        self.asked()
        (self.room / "cured").touch()
        status, lines, _ = self.night(*self.words)
        self.assertEqual(
            (status, lines[0]), (1, "4 captures: 1 alike, 3 differ, 0 failed, 0 without a picture; 1 done now")
        )
        self.assertEqual(self.asked(), {"mortal"})
        self.assertEqual(self.verdicts()["mortal"], ["failure"])

    def test_names_of_any_bytes(self):
        for name in (os.fsdecode(b"caf\xe9"), "-o", "two\nlines", "\u2028"):
            self.put(name, WRONG)
        status, lines, errors = self.night(*self.words)
        self.assertEqual(
            (status, errors, lines[0]),
            (1, "", "7 captures: 1 alike, 6 differ, 0 failed, 0 without a picture; 7 done now"),
        )
        self.assertEqual(
            [line.partition(":")[0] for line in lines[1:-1]],
            ["-o", "caf\\xe9", "glass", "of the town/glass & <more>", "two\\nlines", "\\u2028"],
        )
        self.assertIn("caf\\xe9", self.verdicts())
        self.assertIn("caf\\xe9", (self.folder / "night/night.html").read_text())


def has_ended(process):
    """Whether it is gone, or only waits to be asked for its status, which on a busy machine takes its time."""
    try:
        return pathlib.Path(f"/proc/{process}/stat").read_text().rpartition(")")[2].split()[0] == "Z"
    except (FileNotFoundError, ProcessLookupError):
        return True


def soon(is_so, seconds=30):
    end = time.monotonic() + seconds
    while not is_so() and time.monotonic() < end:
        time.sleep(0.01)
    return is_so()


class Here(Reports, Night):
    def test_what_is_done(self):
        self.night()
        self.assertEqual(self.asked(), {"fine", "glass", "glass & <more>"})
        self.assertEqual(self.night()[1][0], "3 captures: 1 alike, 2 differ, 0 failed, 0 without a picture; 0 done now")
        self.assertEqual(self.asked(), set())
        self.put("glass", RIGHT)
        self.assertEqual(self.night()[1][0], "3 captures: 2 alike, 1 differ, 0 failed, 0 without a picture; 1 done now")
        self.assertEqual(self.asked(), {"glass"})
        self.put("fine", RIGHT, WRONG)
        self.assertEqual(self.night()[1][0], "3 captures: 1 alike, 2 differ, 0 failed, 0 without a picture; 1 done now")
        self.asked()
        self.assertEqual(
            self.night("--tolerance", "255")[0:2][1][0],
            "3 captures: 3 alike, 0 differ, 0 failed, 0 without a picture; 3 done now",
        )
        self.asked()
        self.assertEqual(self.night("--tolerance", "255", "--again")[0], 0)
        self.assertEqual(self.asked(), {"fine", "glass", "glass & <more>"})

    def test_half_a_result(self):
        self.night()
        self.asked()
        kept = self.folder / "night/glass.json"
        kept.write_text(kept.read_text()[:40])
        self.assertEqual(self.night()[0], 1)
        self.assertEqual(self.asked(), {"glass"})

    def test_captures_that_are_refused(self):
        self.put("bad", [{"kind": "clear"}])
        status, lines, _ = self.night()
        self.assertEqual(status, 4)
        self.assertIn(f"bad: {self.folder / 'bad.json'}: capture refused 8 bad field 1", lines)

    def test_the_page(self):
        self.night()
        text = (self.folder / "night/night.html").read_text()
        self.assertIn("3 captures, 1 alike, 2 differ, 0 failed", text)
        self.assertIn("glass &amp; &lt;more&gt;", text)
        self.assertNotIn("<more>", text)
        pictures = [base64.b64decode(data) for data in re.findall(r'src="data:image/png;base64,([^"]+)"', text)]
        drawn, wanted = (read_pam(pam(capture(events))).png() for events in (WRONG, RIGHT))
        self.assertEqual(pictures[:2], [drawn, wanted])
        self.assertEqual(len(pictures), 6)
        self.assertEqual(self.white(pictures[2]), DIFFER)
        self.assertIn("mends   event 3, mask 15 in place of 6", html.unescape(text))
        self.assertNotRegex(text, r'(src|href)="(?!data:|#)')

    def white(self, png):
        from blaming import pictures

        read = pictures.picture_of(png)
        return sum(read.pixel(i)[:3] == (255, 255, 255) for i in range(24 * 18))

    def test_what_is_missing(self):
        """A capture without a picture is told, and no captures at all: neither is a night in which all is alike."""
        self.put("glass", RIGHT)
        self.put("of the town/glass & <more>", RIGHT)
        self.put("alone", RIGHT, picture=None)
        status, lines, _ = self.night()
        self.assertEqual(
            (status, lines[:2]),
            (
                4,
                [
                    "4 captures: 3 alike, 0 differ, 0 failed, 1 without a picture; 3 done now",
                    "alone: no picture of this name",
                ],
            ),
        )
        status, lines, _ = self.night("--allow-missing")
        self.assertEqual((status, len(lines)), (0, 2))
        self.folder = self.room / "empty"
        self.folder.mkdir()
        self.assertEqual([self.night(*words)[0] for words in ((), ("--allow-missing",))], [4, 0])
        self.folder = self.room / "one"
        self.folder.mkdir()
        self.put("fine", RIGHT)
        self.assertEqual(self.night()[1][0], "1 capture: 1 alike, 0 differ, 0 failed, 0 without a picture; 1 done now")

    def refused(self, *words):
        before = {path: path.read_bytes() for path in self.room.rglob("*") if path.is_file()}
        status, lines, errors = self.night(*words)
        self.assertEqual((status, lines, errors.count("\n")), (2, [], 1), errors)
        self.assertEqual({path: path.read_bytes() for path in self.room.rglob("*") if path.is_file()}, before)

    def test_files_of_the_user(self):
        """A folder `night` of captures, results among captures, or above them: nothing is written there."""
        (self.folder / "night").mkdir()
        self.put("night/glass", RIGHT)
        self.refused()
        self.refused("--results", self.folder)
        self.refused("--results", self.room)
        self.refused("--results", self.folder / "of the town")
        self.assertEqual(
            self.night("--results", self.room / "results")[1][0],
            "4 captures: 2 alike, 2 differ, 0 failed, 0 without a picture; 4 done now",
        )
        (self.room / ".framedbg-night").touch()
        self.refused("--results", self.room)

    def test_a_capture_among_results(self):
        self.assertEqual(self.night()[0], 1)
        kept = self.folder / "night/glass.json"
        kept.write_text(json.dumps(capture(RIGHT)))
        before = kept.read_bytes()
        status, lines, _ = self.night()
        self.assertEqual((status, kept.read_bytes()), (4, before))
        self.assertIn(f"glass: {kept}: no result of framedbg-night: it isn't written over", lines)

    def test_ended_by_another(self):
        """The jobs end with it, and what they have started."""
        (self.room / "slow").touch()
        words = [sys.executable, TOOLS / "framedbg-night", self.folder, "--program", self.program, "--processes", "2"]
        signal.signal(signal.SIGINT, signal.default_int_handler)
        for number in (signal.SIGTERM, signal.SIGINT):
            running = self.room / "running"
            running.unlink(missing_ok=True)
            with subprocess.Popen(words, stdout=subprocess.PIPE, stderr=subprocess.PIPE) as run:
                while not (running.exists() and len(running.read_text().splitlines()) == 2) and run.poll() is None:
                    time.sleep(0.01)
                run.send_signal(number)
                out, errors = run.communicate(timeout=50)
            self.assertEqual(
                (run.returncode, out, errors),
                (130, b"", b"framedbg-night: interrupted: the same command goes on from here\n"),
            )
            for process in map(int, running.read_text().split()):
                self.assertTrue(soon(lambda process=process: has_ended(process)), process)

    def test_what_a_job_leaves(self):
        """A program that goes on when the job has ended is ended with it."""
        left = self.room / "left"
        jobs = local.Jobs()
        job = jobs.start(["sh", "-c", f"sleep 60 & echo $! > '{left}.new'; mv '{left}.new' '{left}'; wait"])
        self.assertTrue(soon(left.exists))
        jobs.end()
        job.stderr.close()
        self.assertTrue(soon(lambda: has_ended(int(left.read_text())), seconds=20))

    def test_elsewhere(self):
        status, lines, _ = self.night("--results", self.room / "elsewhere")
        self.assertEqual(status, 1)
        self.assertTrue((self.room / "elsewhere/night.xml").exists() and not (self.folder / "night").exists())

    def test_words(self):
        for words in (("--processes", "0"), ("--tolerance", "x"), ("--seconds", "-1")):
            self.assertEqual(self.night(*words)[0], 2)
        ran = subprocess.run(
            [sys.executable, TOOLS / "framedbg-night", self.room / "nowhere"],
            capture_output=True,
            text=True,
            check=False,
        )
        self.assertEqual((ran.returncode, ran.stdout, ran.stderr.count("\n")), (2, "", 1))

    def test_interrupted(self):
        """What was done until then is kept, and the same command goes on."""
        for number in range(6):
            self.put(f"n{number}", WRONG)
        words = [sys.executable, TOOLS / "framedbg-night", self.folder, "--program", self.program, "--processes", "1"]
        with subprocess.Popen(words, stdout=subprocess.PIPE, stderr=subprocess.PIPE, start_new_session=True) as run:
            while not (self.folder / "night/glass.json").exists() and run.poll() is None:
                time.sleep(0.01)
            os.killpg(run.pid, signal.SIGINT)
            out, errors = run.communicate(timeout=60)
        self.assertEqual((run.returncode, out), (130, b""), errors)
        self.assertNotIn(b"Traceback", errors)
        done = len(list((self.folder / "night").glob("*.json")))
        self.assertGreater(9, done)
        self.assertIn(
            f"{9 - done - len(list((self.folder / 'night').glob('of*/*.json')))} done now", self.night()[1][0]
        )

    def test_the_bar(self):
        ours, theirs = pty.openpty()
        words = [sys.executable, TOOLS / "framedbg-night", self.folder, "--program", self.program]
        with subprocess.Popen(words, stdout=subprocess.PIPE, stderr=theirs) as run:
            os.close(theirs)
            out = run.communicate(timeout=60)[0]
        shown = os.read(ours, 65536).decode()
        os.close(ours)
        self.assertIn(f"[{'.' * 30}] 0 of 3", shown)
        self.assertIn(f"[{'#' * 20}{'.' * 10}] 2 of 3", shown)
        self.assertIn(f"[{'#' * 30}] 3 of 3", shown)
        self.assertTrue(shown.endswith("\r\x1b[K"))
        self.assertNotIn(b"\x1b", out)

    def test_without_slurm(self):
        self.environment = {**os.environ, "PATH": str(self.room)}
        status, lines, errors = self.night("--slurm")
        self.assertEqual((status, lines, errors.count("\n")), (3, [], 1))
        self.assertIn("sbatch", errors)


class HeldAgainst:
    """Drivers of Mesa, of which one has faults that are known. Its folder has a capture that shows one."""

    words = ()

    def held(self, *words):
        (self.folder / "tie.json").write_bytes((driver_testing.FOUND / "softpipe_tie_in_x.json").read_bytes())
        return self.night("--tolerance", 1, "--driver", "--driver=GALLIUM_DRIVER=softpipe", *self.words, *words)

    def test_drivers(self):
        """Each capture by each driver, and their features, which stand beside each other on the page; what is done
        isn't done again."""
        status, lines, errors = self.held()
        self.assertEqual(
            (status, errors, lines[0]),
            (1, "", "10 jobs: 8 alike, 2 differ, 0 failed, 0 without a picture; 10 done now"),
        )
        self.assertRegex(lines[1], "^driver 2 features: 68 features: .*top-left rule.* beyond rounding$")
        self.assertEqual(lines[2], "driver 2/tie: 1 coverage: first event 1, pixel 0 0, coverage")
        page = (self.folder / "night/night.html").read_text()
        [table] = re.findall('<table class="features">.*?</table>', page, re.S)
        self.assertEqual(
            [re.sub(r"[ ,].*", "", name) for name in re.findall("<th>(.*?)</th>", table)],
            ["feature", "llvmpipe", "softpipe"],
        )
        rows = {
            name: cells for name, *cells in (re.findall("<td.*?>(.*?)</td>", row) for row in table.splitlines()[1:])
        }
        self.assertEqual(
            (len(rows), rows["top-left rule"], rows["flat"]), (68, ["exact", "differs (Direct3D)"], ["exact", "exact"])
        )
        self.assertEqual(self.held()[1][0], "10 jobs: 8 alike, 2 differ, 0 failed, 0 without a picture; 0 done now")

    def test_no_such_driver(self):
        """It is told why."""
        status, lines, _ = self.night("--driver=--device 99", *self.words)
        self.assertEqual(
            (status, lines[0]), (4, "4 jobs: 0 alike, 0 differ, 4 failed, 0 without a picture; 4 done now")
        )
        self.assertRegex(lines[1], "^driver 1 features: .*device")


@unittest.skipIf(driver_testing.missing(), driver_testing.missing())
class Drivers(HeldAgainst, Night):
    environment = driver_testing.environment("llvmpipe")

    def test_words_of_a_driver(self):
        status, _, errors = self.night("--driver='")
        self.assertEqual((status, "No closing quotation" in errors), (2, True))


@unittest.skipIf(slurm_testing.missing(), slurm_testing.missing())
class OnSlurm(Reports, Night):
    words = ("--slurm",)

    @classmethod
    def setUpClass(cls):
        room = cls.enterClassContext(tempfile.TemporaryDirectory(prefix="slurm-"))
        cls.environment = cls.enterClassContext(slurm_testing.Slurm(room)).environment

    def test_a_job_that_is_lost(self):
        """Slurm takes a task away before it has begun: it is told, and done the next time."""
        self.put("held", WRONG)
        (self.room / "bin").mkdir()
        cancelling = self.room / "bin/sbatch"
        cancelling.write_text(
            '#!/bin/sh\nPATH=${PATH#*:}\njob=$(sbatch --hold "$@") || exit\nscancel "${job}_2"\nscontrol '
            'release "$job"\necho "$job"\n'
        )
        cancelling.chmod(0o755)
        usual = self.environment
        self.environment = {**usual, "PATH": f"{self.room / 'bin'}:{os.environ['PATH']}"}
        status, lines, _ = self.night("--slurm")
        self.assertEqual(status, 4, lines)
        self.assertIn("held: the job left no result: it was killed or lost", lines)
        self.environment = usual
        self.asked()
        status, lines, _ = self.night("--slurm")
        self.assertEqual(
            (status, lines[0]), (1, "4 captures: 1 alike, 3 differ, 0 failed, 0 without a picture; 1 done now")
        )
        self.assertEqual(self.asked(), {"held"})

    def test_ended_by_another(self):
        """The array is taken back."""
        (self.room / "slow").touch()
        running = self.room / "running"
        words = [sys.executable, TOOLS / "framedbg-night", self.folder, "--program", self.program, "--slurm"]
        waiting = ["squeue", "--noheader", "--format=%i"]
        with subprocess.Popen(words, stdout=subprocess.PIPE, stderr=subprocess.PIPE, env=self.environment) as run:
            while not running.exists() and run.poll() is None:
                time.sleep(0.1)
            run.send_signal(signal.SIGTERM)
            out, errors = run.communicate(timeout=100)
        self.assertEqual(
            (run.returncode, out, errors),
            (130, b"", b"framedbg-night: interrupted: the same command goes on from here\n"),
        )
        self.assertTrue(
            soon(
                lambda: not subprocess.run(waiting, env=self.environment, capture_output=True, check=True).stdout,
                seconds=60,
            )
        )

    def test_several_arrays(self):
        """More captures than an array may have tasks: here it may have two."""
        words = [
            sys.executable,
            "-c",
            "import sys; sys.path.insert(0, sys.argv.pop(1)); from nights import command_line, night, slurm; "
            "slurm.MOST_TASKS = 2; sys.exit(night.run(command_line.words()))",
            TOOLS,
            self.folder,
            "--slurm",
            "--program",
            self.program,
        ]
        ran = subprocess.run(words, capture_output=True, text=True, env=self.environment, timeout=300, check=False)
        self.assertEqual(
            (ran.returncode, ran.stderr, ran.stdout.splitlines()[0]),
            (1, "", "3 captures: 1 alike, 2 differ, 0 failed, 0 without a picture; 3 done now"),
        )


@unittest.skipIf(
    slurm_testing.missing() or driver_testing.missing(), slurm_testing.missing() or driver_testing.missing()
)
class DriversOnSlurm(HeldAgainst, Night):
    words = ("--slurm",)

    @classmethod
    def setUpClass(cls):
        room = cls.enterClassContext(tempfile.TemporaryDirectory(prefix="slurm-"))
        cls.environment = cls.enterClassContext(slurm_testing.Slurm(room)).environment | {
            "LIBGL_ALWAYS_SOFTWARE": "1",
            "GALLIUM_DRIVER": "llvmpipe",
        }


if __name__ == "__main__":
    passed_over.run_tests("test_night")
