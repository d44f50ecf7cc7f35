"""fdb at a terminal: prompt, colours, editing, completion, pictures, resize, Ctrl-C, a program that ends."""
import os
import re
import signal
import stat
import subprocess
import time
import unittest

import folders

from fdb_testing import EXAMPLES, PATIENCE, Folder, Terminal, cells, plain, stand_in, unsixeled
from test_client import shown_house

from debugger import drawing
from framedbg_client import read_pam

HOUSE = EXAMPLES / "house.json"
BOLD, DIM = "\x1b[1m", "\x1b[2m"


class Prompts(Folder):
    def test_prompt_and_positions(self):
        with Terminal(HOUSE) as terminal:
            self.assertIn("house.json: 13 events.", terminal.until("13 events."))
            self.assertEqual(terminal.prompt(), "(13/13) ")
            self.assertEqual(plain(terminal.ask("rs")), ["=> 12 draw 1 flat"])
            self.assertEqual(plain(terminal.ask("")), ["=> 11 draw 2 flat"])  # an empty line: the same again
            self.assertEqual(plain(terminal.ask("p 50 50")), ["125 95 55 128"])
            self.assertEqual(plain(terminal.ask("")), [])  # a question isn't asked again
            self.assertEqual(plain(terminal.ask("stpe")), ["no such word: stpe; did you mean step?"])
            self.assertEqual(plain(terminal.ask("g 99")), ["refused 3 no such position"])
            terminal.type("q\n")
            self.assertEqual(terminal.ended(), 0)

    def test_ends_of_a_session(self):
        for end, shows in (("\x04", ""), ("quit\n", "bye"), ("q\n", "")):
            with Terminal(HOUSE) as terminal:
                terminal.prompt()
                terminal.type(end)
                self.assertEqual(terminal.ended(), 0, end)
                self.assertIn(shows, terminal.shown)

    def test_colours(self):
        with Terminal(HOUSE) as terminal:
            terminal.prompt()
            self.assertEqual(terminal.ask("p 50 50"), ["  \x1b[48;2;125;95;55m  \x1b[49m 125 95 55 128"])
            self.assertTrue(terminal.ask("g 11")[0].startswith(BOLD))
            self.assertIn(f"   {DIM}   12   draw", "\n".join(terminal.ask("l")))
        for how in ({"NO_COLOR": "1"}, {"TERM": "dumb"}):
            with Terminal(HOUSE, **how) as terminal:
                terminal.prompt()
                for line in ("p 50 50", "who 50 50", "i", "l", "g 11", "look", "watch 50 50", "rc", "help"):
                    told = terminal.ask(line)
                    self.assertTrue(told)
                    self.assertEqual([text for text in told if "\x1b" in text], [], (how, line))

    def test_a_capture_that_drives_the_terminal(self):
        """A marker may have what some terminals obey: U+009B, and U+202E, which turns the text round."""
        path = self.written(
            "bad.json",
            '{"format":"framedbg","version":1,"width":1,"height":1,"events":[{"kind":"marker","name":"\u009b2J'
            '\u202eh\u00e9"}]}',
        )
        with Terminal(path) as terminal:
            self.assertIn(r"\x9b2J\u202eh\xe9".replace(r"\xe9", "\u00e9"), terminal.until(re.compile(r"\(1/1\) ")))
            for line in ("l", "events"):
                told = "\n".join(terminal.ask(line))
                self.assertIn(r"\x9b2J\u202eh", told, line)
                self.assertFalse({"\u009b", "\u202e"} & set(told), line)

    def test_completion(self):
        cases = [
            ("who\t 50 50\n", "50  drawn"),
            ("wat\t 1 1\n", "breakpoint 1: pixel 1 1"),
            ("b ma\t\n", "each marker"),
            ("l 1\t\t", "1   10  11  12  13"),
            ("\x15off 8\n", "at 13"),
            ("on \t\n", "at 13"),
            ("info o\t\n", "all events are on"),
            ("hel\tdelete\n", "takes breakpoint"),
            ("delete \t\n", "(13/13)"),
            ("g e\t\n", "13   draw"),
            ("mark roof\n", "mark roof at 13"),
            ("goto ro\t\n", "13   draw"),
            ("goto 9\t\n", "at 9"),
        ]
        with Terminal(HOUSE, size=(40, 100)) as terminal:
            terminal.prompt()
            for typed, shows in cases:
                terminal.type(typed)
                terminal.until(shows) if shows != "50  drawn" else terminal.until("drawn")

    def test_a_resize_in_the_midst_of_a_line(self):
        with Terminal(HOUSE, size=(24, 80)) as terminal:
            terminal.prompt()
            terminal.type("p 5")
            terminal.until("p 5")
            terminal.resize(10, 20)
            terminal.type("0 50\n")
            terminal.until("125 95 55 128")

    def test_files_are_completed(self):
        script = self.written("one_of_a_kind.fdb", "p 50 50\n")
        with Terminal(HOUSE, size=(40, 200)) as terminal:
            terminal.prompt()
            terminal.type(f"source {self.folder}/one_\t\n")
            terminal.until(script.name)
            terminal.until("125 95 55 128")

    def test_editing_and_history(self):
        with Terminal(HOUSE, folder=self.folder) as terminal:
            terminal.prompt()
            terminal.type("g 99\x1b[D\x1b[D\x0b11\n")  # two to the left, cut to the end
            terminal.until("11   draw")
            terminal.prompt()
            terminal.type("q\n")
            self.assertEqual(terminal.ended(), 0)
        self.assertEqual((self.folder / "history").read_text().splitlines()[-2:], ["g 11", "q"])
        self.assertEqual(stat.S_IMODE((self.folder / "history").stat().st_mode), 0o600)
        with Terminal(HOUSE, folder=self.folder) as terminal:
            terminal.prompt()
            terminal.type("\x1b[A\x1b[A\n")  # the line before the last
            terminal.until("11   draw")

    def test_the_start_file_of_the_home_folder(self):
        """One in the folder where one stands is never read."""
        home = self.folder / "home"
        home.mkdir()
        self.written(".fdbrc", "p 1 1\n")
        (home / ".fdbrc").write_text("p 50 50\nnonsense\n")
        with Terminal(HOUSE, cwd=self.folder, HOME=str(home)) as terminal:
            told = terminal.until(re.compile(r"\(13/13\) "))
            self.assertIn("125 95 55 128", told)
            self.assertIn("no such word: nonsense", told)
            self.assertNotIn("61 111 200 255", told)
        (home / ".fdbrc").unlink()
        with Terminal(HOUSE, cwd=self.folder, HOME=str(home)) as terminal:
            self.assertNotIn("61 111 200 255", terminal.until(re.compile(r"\(13/13\) ")))
        named = self.written("named.fdb", "mark here\n")
        (home / ".fdbrc").write_text("p 50 50\n")
        with Terminal(HOUSE, "--start", str(named), HOME=str(home)) as terminal:
            told = terminal.until(re.compile(r"\(13/13\) "))
            self.assertIn("mark here at 13", told)
            self.assertNotIn("125 95 55 128", told)

    def test_two_at_once(self):
        """Neither loses what the other one kept."""
        with Terminal(HOUSE, folder=self.folder) as one, Terminal(HOUSE, folder=self.folder) as other:
            for terminal, line in ((one, "p 1 1"), (other, "p 2 2")):
                terminal.prompt()
                terminal.ask(line)
            for terminal in (one, other):
                terminal.type("\x04")
                self.assertEqual(terminal.ended(), 0)
        self.assertEqual((self.folder / "history").read_text().splitlines(), ["p 1 1", "p 2 2"])

    def test_scripts_before_the_prompt(self):
        script = self.written("a.fdb", "last 50 50\nexpect 11 on draw\nexpect 12 on draw\np 1 1\n")
        with Terminal(HOUSE, "-x", str(script), size=(24, 300)) as terminal:
            terminal.until(
                f"{script}:3: expected 12 on draw"
            )  # plainly told facts are what is expected, also at a terminal
            self.assertEqual(terminal.prompt(), "(11/13) ")
        with Terminal(HOUSE, "-x", str(script), "--batch", size=(24, 300)) as terminal:
            self.assertEqual(terminal.ended(), 1)
            self.assertIn("11 on draw 2 flat\r\n", terminal.shown)


class Looks(Folder):
    def test_half_blocks_at_each_size(self):
        """As many cells as the terminal has columns and rows for, after a resize too; each has the two colours of
        the image."""
        image = read_pam(shown_house())
        with Terminal(HOUSE, size=(24, 80), FDB_LOOK="half") as terminal:
            terminal.prompt()
            for rows, columns in ((24, 80), (24, 40), (70, 220)):
                terminal.resize(rows, columns)
                told = [line for line in terminal.ask("look") if "▀" in line]
                view = drawing.whole(image, columns, 2 * (rows - 2))
                self.assertLessEqual(view.columns, columns)
                self.assertEqual((len(told), len(cells(told[0]))), (-(-view.rows // 2), view.columns), (rows, columns))
                self.assertEqual(cells(told[3])[5], tuple(image.pixel(view.x(5), view.y(y))[:3] for y in (6, 7)))

    def test_round_a_pixel(self):
        image = read_pam(shown_house())
        with Terminal(HOUSE, FDB_LOOK="half") as terminal:
            terminal.prompt()
            told = terminal.ask("look 50 50 4")
            self.assertEqual(len(cells(told[0])), 80)
            self.assertEqual(cells(told[0])[0][0], image.pixel(40, 45)[:3])
            self.assertEqual(told[-1], "  columns 40 to 59, rows 45 to 55, each pixel 4 times")

    def test_sixel_where_the_terminal_says_so(self):
        with Terminal(HOUSE) as terminal:
            terminal.prompt()
            terminal.type("look\n")
            terminal.until("\x1b[c")
            terminal.type("x\x1b[?62;4;22c")  # somebody types an x meanwhile
            picture = re.search(r"\x1bP.*?\x1b\\", terminal.until("\x1b\\"), re.S)[0]
            self.assertEqual((len(unsixeled(picture)[0]), len(unsixeled(picture))), (96 * 6, 64 * 6))
            terminal.until(re.compile(r"\(13/13\) .*x"))
            terminal.type("\x08p 50 50\n")
            terminal.until("125 95 55 128")

    def test_half_blocks_where_it_does_not(self):
        for answer in ("\x1b[?62;22c", "\x1b[?64c", ""):
            with Terminal(HOUSE) as terminal:
                terminal.prompt()
                terminal.type("look\n")
                terminal.until("\x1b[c")
                if answer:
                    terminal.type(answer)
                terminal.until("▀")

    def test_kitty(self):
        for how in ({"TERM": "xterm-kitty"}, {"TERM_PROGRAM": "WezTerm"}, {"KITTY_WINDOW_ID": "1"}):
            with Terminal(HOUSE, **how) as terminal:
                terminal.prompt()
                terminal.type("look\n")
                self.assertIn("\x1b_Ga=T,f=24,o=z,s=576,v=384,", terminal.until("\x1b\\"))
        with Terminal(HOUSE, TERM="xterm-kitty", TMUX="x", FDB_LOOK="") as terminal:
            terminal.prompt()
            terminal.type("look\n")
            terminal.until("▀")


class Interrupted(Folder):
    """Ctrl-C, at the prompt and while framedbg works; and a run that ends by itself."""

    def environment(self, **more):
        return {"ASKED": str(self.folder / "asked"), "HUNG": str(self.folder / "hung")} | more

    def waits(self, terminal):
        """Until the run that stands in has got the command that it doesn't answer."""
        end = time.monotonic() + PATIENCE
        while not (self.folder / "hung").exists():
            self.assertIsNone(terminal.run.poll())
            self.assertLess(time.monotonic(), end, "framedbg didn't get the command")
            time.sleep(0.01)

    def test_at_the_prompt(self):
        with Terminal(HOUSE) as terminal:
            terminal.prompt()
            terminal.type("g 1")
            terminal.until("g 1")
            terminal.interrupt()
            terminal.type("p 50 50\n")  # what was begun is gone
            terminal.until("125 95 55 128")
            self.assertEqual(terminal.prompt(), "(13/13) ")

    def test_a_long_move(self):
        """It ends the run, and another one stands at the position before, with the same events off."""
        steps = self.steps()
        with Terminal(
            steps, program=stand_in(self.folder), **self.environment(HANG="goto 3", HUNG=str(self.folder / "hung"))
        ) as terminal:
            self.waits(terminal)  # on the way to the end, at the start
            terminal.type("\x03")
            self.assertEqual(terminal.prompt(), "(0/3) ")
            terminal.ask("off 2")
            terminal.ask("g 1")
            (self.folder / "hung").unlink()
            terminal.type("g 3\n")
            self.waits(terminal)
            (self.folder / "asked").write_text("")
            terminal.type("\x03")
            terminal.until("a new run is brought to 1")
            self.assertEqual(terminal.prompt(), "(1/3) ")
            self.assertEqual(plain(terminal.ask("i off")), ["2 x clear 2 2 3 4"])
            self.assertEqual(plain(terminal.ask("p 0 0")), ["1 2 3 4"])
        self.assertEqual((self.folder / "asked").read_text().splitlines()[:2], ["off 2", "goto 1"])

    def test_a_switch(self):
        """The flags are as they were before the line that was interrupted."""
        for line in ("off 1", "off 1 2 3"):
            with Terminal(
                self.steps(), program=stand_in(self.folder), **self.environment(HANG=line[:4] + line[-1])
            ) as terminal:
                terminal.prompt()
                terminal.type(line + "\n")
                self.waits(terminal)
                terminal.type("\x03")
                self.assertEqual(terminal.prompt(), "(3/3) ")
                self.assertEqual(plain(terminal.ask("i off")), ["all events are on"])
                self.assertEqual(plain(terminal.ask("events"))[1], "1 on clear 1 2 3 4")
            (self.folder / "hung").unlink()

    def test_in_the_middle_of_a_word(self):
        """`d 1 2` is at 1 when it is interrupted, and is taken back to 3."""
        with Terminal(self.steps(), program=stand_in(self.folder), **self.environment(HANG="goto 2")) as terminal:
            terminal.prompt()
            terminal.type("d 1 2\n")
            self.waits(terminal)
            terminal.type("\x03")
            terminal.until("a new run is brought to 3")
            terminal.until(re.compile(r"\(3/3\) "))

    def test_again_while_it_is_brought_back(self):
        with Terminal(self.steps(), program=stand_in(self.folder), **self.environment(HANG="goto 2")) as terminal:
            terminal.prompt()
            (self.folder / "hung").touch()
            terminal.ask("g 2")
            terminal.ask("off 3")
            (self.folder / "hung").unlink()
            terminal.type("run\n")
            self.waits(terminal)
            (self.folder / "hung").unlink()
            terminal.type("\x03")
            self.waits(terminal)
            terminal.type("\x03")
            terminal.until("the new run is at 0")
            self.assertEqual(terminal.prompt(), "(0/3) ")
            self.assertEqual(plain(terminal.ask("i off")), ["3 x clear 3 2 3 4"])

    def test_a_script(self):
        """What the script had done stays done; the line that was interrupted is taken back."""
        script = self.written("a.fdb", "off 3\ng 1\ng 2\np 0 0\n")
        with Terminal(
            self.steps(), program=stand_in(self.folder), size=(24, 300), **self.environment(HANG="goto 2")
        ) as terminal:
            terminal.prompt()
            terminal.type(f"source {script}\n")
            self.waits(terminal)
            terminal.type("\x03")
            self.assertEqual(terminal.prompt(), "(1/3) ")
            self.assertEqual(plain(terminal.ask("i off")), ["3 x clear 3 2 3 4"])

    def test_a_script_before_the_prompt(self):
        script = self.written("a.fdb", "g 1\ng 2\n")
        with Terminal(
            self.steps(), "-x", str(script), program=stand_in(self.folder), **self.environment(HANG="goto 2")
        ) as terminal:
            self.waits(terminal)
            terminal.type("\x03")
            self.assertEqual(terminal.prompt(), "(1/3) ")
            self.assertEqual(plain(terminal.ask("p 0 0")), ["1 2 3 4"])

    def test_without_a_prompt(self):
        script = self.written("a.fdb", "g 3\n")
        with Terminal(
            self.steps(),
            "--batch",
            "--at",
            "1",
            "-x",
            str(script),
            program=stand_in(self.folder),
            **self.environment(HANG="goto 3"),
        ) as terminal:
            self.waits(terminal)
            terminal.type("\x03")
            self.assertEqual(terminal.ended(), 130)
        self.assertEqual((self.folder / "asked").read_text(), "events\ngoto 1\n")  # no other run for nobody

    def test_a_run_that_ends(self):
        with Terminal(self.steps(), program=stand_in(self.folder), **self.environment(END="back")) as terminal:
            terminal.prompt()
            terminal.ask("off 1")
            told = plain(terminal.ask("rs"))
            self.assertEqual(told, ["framedbg: memory", "framedbg has ended (status 5); run starts another"])
            self.assertIn("run starts another", terminal.ask("p 0 0")[0])
            self.assertEqual(plain(terminal.ask("run")), ["=> 3 clear 3 2 3 4"])
            self.assertEqual(plain(terminal.ask("i off")), ["1 x clear 1 2 3 4"])

    def test_a_run_that_is_killed(self):
        with Terminal(HOUSE) as terminal:
            terminal.prompt()
            children = subprocess.run(
                ["ps", "-o", "pid=", "--ppid", str(terminal.run.pid)], capture_output=True, text=True, check=True
            ).stdout
            for pid in children.split():
                os.kill(int(pid), signal.SIGKILL)
            self.assertIn("run starts another", terminal.ask("s")[0])
            terminal.ask("run")
            self.assertEqual(plain(terminal.ask("p 50 50")), ["125 95 55 128"])

    def test_want_of_memory(self):
        with Terminal(
            self.steps(), "--at", "0", program=stand_in(self.folder), **self.environment(MOST="2")
        ) as terminal:
            terminal.prompt()
            self.assertEqual(
                plain(terminal.ask("g 3")),
                ["stopped 2: no more memory; the same word goes on from here", "=> 2 clear 2 2 3 4"],
            )


if __name__ == "__main__":
    unittest.main()
