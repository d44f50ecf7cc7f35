"""The folders of this repository, whose modules are found once a program has imported this one.

Each folder of programs but tools/ has this file, of one text: what lies in tools/ is installed without the others,
and imports nothing of them. It is no link, since `rt ci` takes none.
"""
import pathlib
import sys

HERE = pathlib.Path(__file__).resolve().parent
TOP = HERE.parent.parent if HERE.name == "wrong" else HERE.parent
TOOLS, BUILD, CHECKS, TESTS, WRONG, BENCHES = FOLDERS = [
    TOP / name for name in ("tools", "build", "checks", "tests", "tests/wrong", "benches")
]

sys.path[1:1] = [str(folder) for folder in FOLDERS]  # behind the program's own folder
