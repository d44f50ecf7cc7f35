"""What shells complete: each is asked for the rest of a line that was begun, with the completions of a folder."""
import os
import shutil
import subprocess
import tempfile
import time

SECONDS = 60
BASH = """
source "$1/framedbg.bash"
read -ra COMP_WORDS <<< "$2"
[ "${2% }" = "$2" ] || COMP_WORDS+=("")
COMP_CWORD=$((${#COMP_WORDS[@]} - 1))
_framedbg
printf '%s\\n' "${COMPREPLY[@]}"
"""
FISH = 'source "$argv[1]/framedbg.fish"; complete -C "$argv[2]"'
ZSH = (
    'PROMPT="> "; unsetopt beep; fpath=("$SHARE" $fpath); autoload -Uz compinit; compinit -u -D; compdef '
    '_framedbg framedbg; print ready'
)


def run(*words):
    return subprocess.run(
        words, stdin=subprocess.DEVNULL, capture_output=True, text=True, timeout=SECONDS, check=True
    ).stdout


def bash(share, line):
    return set(run("bash", "--norc", "-c", BASH, "bash", share, line).split())


def fish(share, line):
    return {offered.split("\t")[0] for offered in run("fish", "--no-config", "-c", FISH, str(share), line).splitlines()}


class Zsh:
    """A zsh at a terminal, whose keyboard and screen are tmux's: it completes only what is typed."""

    def __init__(self, share):
        self.room = tempfile.TemporaryDirectory()
        self.tmux = ["tmux", "-f", os.devnull, "-S", f"{self.room.name}/screen"]
        environment = {**os.environ, "SHARE": str(share), "ZDOTDIR": self.room.name, "LC_ALL": "C.UTF-8"}
        run_there = [*self.tmux, "new-session", "-d", "-x", "120", "-y", "40", "zsh", "-f"]
        subprocess.run(run_there, cwd=self.room.name, env=environment, check=True)
        self.type(ZSH, "Enter")
        self.until(lambda lines: "ready" in lines)

    def type(self, *keys):
        subprocess.run([*self.tmux, "send-keys", *keys], check=True)

    def lines(self):
        return [line.rstrip() for line in run(*self.tmux, "capture-pane", "-p").splitlines() if line.strip()]

    def until(self, is_so, seconds=SECONDS):
        end = time.monotonic() + seconds
        while not is_so(lines := self.lines()) and time.monotonic() < end:
            time.sleep(0.05)
        return lines

    def completes(self, line, whole, seconds):
        """Whether the line becomes the whole by the key Tab."""
        self.type("C-u", "C-l")
        self.until(lambda lines: lines == [">"])
        self.type("-l", line)
        self.type("Tab")
        found = self.until(lambda lines: lines[:1] == [f"> {whole}"], seconds)
        return found[:1] == [f"> {whole}"]

    def close(self):
        subprocess.run([*self.tmux, "kill-server"], check=False)
        self.room.cleanup()


def installed(*names):
    return all(map(shutil.which, names))
