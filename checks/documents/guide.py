"""guide: the worked session of docs/GUIDE.md is examples/house_find.session and its replies, line by line; and what
README.md says of its own session is so."""
import re
import subprocess
import sys

from folders import BUILD, TOP

from wrong_versions import exchanged
from . import Found
from .sessions import difference, lines_of

GUIDE, README, SESSION = TOP / "docs/GUIDE.md", TOP / "README.md", TOP / "examples/house_find"
WRONG = {  # a text of the guide, and what stands there instead
    "another reply": ("11 0 drawn 190 60 50 128", "11 0 drawn 190 60 50 255"),
    "a line left out": ("3 on draw 2 linear\n", ""),
    "a line too many": ("```\n$ framedbg run", "```\nstep\n```\n```\n$ framedbg run"),
    "the end left out": ("\nquit\n", "\n"),
}
WRONG_README = {
    "another pixel": ("\nhistory 50 50\n", "\nhistory 51 12\n"),
    "another entry": ("`11 0 drawn 190", "`11 0 drawn 191"),
    "another triangle": ("triangle 0 of event 11", "triangle 1 of event 11"),
    "no session": ("<<'END'", ""),
}


def fault(guide):
    blocks = [
        block for language, block in re.findall(r"^```(\w*)\n(.*?)^```$", guide, re.M | re.S) if not language
    ]  # those in a language are no plain sessions
    shown = [line for block in blocks for line in block.splitlines() if not line.startswith("$ ")]
    return difference(shown, lines_of(SESSION.with_suffix(".session")), lines_of(SESSION.with_suffix(".expected")))


def readme_fault(readme):
    """What the README says of the last entry that its session is answered with, beside what the reference answers."""
    session = re.search(r"^framedbg run (\S+) <<'END'\n(.*?)^END$", readme, re.M | re.S)
    said = re.search(
        r"The last entry reads `(.+?)`: triangle (\d+) of event (\d+) drew ([\d ]+) over ([\d ]+), which gave "
        r"([\d ]+)\.$",
        readme,
        re.M,
    )
    if not (session and said):
        return "shows no session, or says nothing of it"
    ran = subprocess.run(
        [sys.executable, BUILD / "reference.py", TOP / session[1]],
        input=session[2],
        capture_output=True,
        text=True,
        check=True,
    )
    entry, triangle, event, *colours = said.groups()
    wanted = f"{event} {triangle} drawn {' '.join(colours)}"
    return (
        ""
        if ran.stdout.splitlines()[-2:] == [entry, "bye"] and entry == wanted
        else f"says '{entry}' of its session, which is answered with {ran.stdout}"
    )


def wrong_versions():
    guide, readme = GUIDE.read_text(), README.read_text()
    return {
        **{name: lambda change=change: fault(exchanged(guide, *change)) for name, change in WRONG.items()},
        **{
            name: lambda change=change: readme_fault(exchanged(readme, *change))
            for name, change in WRONG_README.items()
        },
    }


def found():
    told = {"docs/GUIDE.md": fault(GUIDE.read_text()), "README.md": readme_fault(README.read_text())}
    return Found(
        "a session that the gate replays, and one that the reference answers",
        [f"{page} {wrong}" for page, wrong in told.items() if wrong],
    )
