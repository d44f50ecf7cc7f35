#!/usr/bin/env python3
"""lower: the program framedbg, proved and lowered by rattle for x86-64, as LLVM's text.

rattle hands its module to the clang of the toolchain that it is given, and keeps nothing. So it is given the kit's,
but for a clang that first copies the module aside and then does its work. The kit, and the program as it was built,
stay as they are.
"""
import argparse
import importlib
import pathlib
import sys

sys.path.insert(0, str(pathlib.Path(__file__).resolve().parent.parent))
from page import kit  # noqa: E402

TOP = pathlib.Path(__file__).resolve().parent.parent.parent
# The first of the x86-64 processors, so that no instruction of that machine is named
WORDS = ["--cpu", "x86-64", "--jobs", "1"]
KEEPING = """#!/bin/sh
cp module.bc "{kept}" && exec "{clang}" "$@"
"""


def keeping_kit(folder, kept):
    """The kit, but for its clang, which keeps what it compiles."""
    stand_in, own = folder / "kit", kit.folder()
    (stand_in / "toolchain/bin").mkdir(parents=True)
    links = [it.relative_to(own) for below in (own, own / "toolchain", own / "toolchain/bin") for it in below.iterdir()]
    for it in links:
        if str(it) not in ("toolchain", "toolchain/bin", "toolchain/bin/clang"):
            (stand_in / it).symlink_to(own / it)
    clang = stand_in / "toolchain/bin/clang"
    clang.write_text(KEEPING.format(kept=kept, clang=kit.tool("clang")))
    clang.chmod(0o755)
    return stand_in


def main():
    words = argparse.ArgumentParser(description=__doc__, formatter_class=argparse.RawDescriptionHelpFormatter)
    words.add_argument("folder", metavar="FOLDER", type=pathlib.Path, help="gets framedbg.ll")
    folder = words.parse_args().folder.resolve()
    kept = folder / "kept.bc"
    sys.path.insert(0, str(kit.folder() / "bin"))
    rtlib = importlib.import_module("rtlib")
    rtlib.KIT = str(keeping_kit(folder, kept))
    crate = rtlib.Crate(str(TOP / "crates/framedbg"), str(TOP), {})
    status = crate.compile(WORDS, str(folder / "framedbg.o"))
    if status or not kept.exists():
        sys.exit("lower: the program is not proved, or rattle compiled it in another way")
    kit.run(
        kit.tool("clang"),
        "--target=x86_64-unknown-linux-gnu",
        "--no-default-config",
        "-S",
        "-emit-llvm",
        "-Xclang",
        "-disable-llvm-passes",
        "-x",
        "ir",
        kept,
        "-o",
        folder / "framedbg.ll",
    )


if __name__ == "__main__":
    main()
