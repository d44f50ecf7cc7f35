"""The zip for Windows: the player for Direct3D 11, captures, and what is right of each; the same bytes each time."""
import concurrent.futures
import io
import subprocess
import sys
import time
import zipfile

from folders import TOP

from framedbg_client.program import BUILT
from packing import Fault, when

PLAYER = TOP / "out/play_d3d11.exe"
CAPTURES = (
    "across_two_tiles",
    "added_twice",
    "alpha_scaled",
    "crossing",
    "culled_then_scissored",
    "depth_test",
    "each_depth_function",
    "gallery",
    "hidden_in_any_order",
    "house",
    "indexed",
    "linear_red",
    "masked_and_scissored",
    "drivers/softpipe_tie_in_x",
    "drivers/softpipe_equal_again",
    "drivers/wine_vulkan_loses_a_clear",
)
README = """framedbg {version}: does this machine's Direct3D 11 draw what is right? For Windows of 64 bits.

    try.cmd                     each capture of the folder captures by the first graphics card
    try.cmd --driver warp       by Microsoft's own rasteriser
    play_d3d11.exe --help       all words

One capture, event by event:

    play_d3d11.exe --against captures\\house.rules captures\\house.json

"only by the rules" and "only here" have to be 0, and colours and depths are to be off by 1 at most. A capture of your
own wants its rules, which framedbg-driver makes on Linux: framedbg-driver rules frame.json > frame.rules
"""
TRY = """@echo off
rem Each capture by Direct3D 11, beside what is right of it. Words go to play_d3d11.exe
for %%f in (captures\\*.json) do (
  echo %%~nf
  play_d3d11.exe --quiet %* --against captures\\%%~nf.rules captures\\%%~nf.json
)
"""


def rules_of(capture):
    """What is right at each position of a capture, as a file."""
    words = [sys.executable, TOP / "tools/framedbg-driver", "rules", capture, "--program", BUILT]
    ran = subprocess.run(words, capture_output=True, check=False)
    if ran.returncode:
        raise Fault(ran.stderr.decode(errors="replace").strip())
    return ran.stdout


def contents(version, player):
    """What goes in, by name. Texts have the ends of lines that Windows has."""
    captures = [TOP / "examples" / f"{name}.json" for name in CAPTURES]
    with concurrent.futures.ThreadPoolExecutor() as pool:
        rules = list(pool.map(rules_of, captures))
    texts = {"README.txt": README.format(version=version), "try.cmd": TRY}
    made = {name: text.replace("\n", "\r\n").encode() for name, text in texts.items()}
    made["play_d3d11.exe"] = player.read_bytes()
    for capture, right in zip(captures, rules):
        made |= {f"captures/{capture.name}": capture.read_bytes(), f"captures/{capture.stem}.rules": right}
    return made


def made(version, player=PLAYER):
    """The name of the zip, and its bytes."""
    if not player.exists():
        raise Fault(f"{player} isn't there: make d3d11 makes it")
    name, data = f"framedbg-{version}-windows", io.BytesIO()
    with zipfile.ZipFile(data, "w", zipfile.ZIP_DEFLATED, compresslevel=9) as archive:
        for file, text in sorted(contents(version, player).items()):
            entry = zipfile.ZipInfo(f"{name}/{file}", time.gmtime(when())[:6])
            entry.compress_type, entry.create_system, entry.external_attr = zipfile.ZIP_DEFLATED, 3, 0o100644 << 16
            archive.writestr(entry, text)
    return f"{name}.zip", data.getvalue()
