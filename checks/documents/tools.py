"""tools: each tool that is run says with --help what it is, and does nothing else then.

It looks at the programs of tools/, build/, checks/, tests/ and benches/, and of the folders in them, each in an
empty folder with nothing on its standard input.
"""
import concurrent.futures
import os
import pathlib
import subprocess
import tempfile

import folders
from folders import TOP

from . import Found

MOST_SECONDS = 60
WRONG_TOOLS = {  # what a tool does instead
    "fails": "echo a tool\nexit 2",
    "says nothing": "exit 0",
    "says it on standard error": "echo a tool >&2",
    "writes a file": "echo a tool | tee made",
    "asks for more": "echo a tool\nread -r line",
}


def tools():
    return sorted(
        file
        for folder in folders.FOLDERS
        if folder.parent == TOP
        for file in folder.rglob("*")
        if file.is_file() and os.access(file, os.X_OK)
    )


def fault(tool):
    """What is wrong with a tool's --help, or nothing."""
    with tempfile.TemporaryDirectory() as folder:
        try:
            done = subprocess.run(
                [tool, "--help"],
                cwd=folder,
                stdin=subprocess.DEVNULL,
                capture_output=True,
                timeout=MOST_SECONDS,
                check=False,
            )
        except (OSError, subprocess.TimeoutExpired) as failed:
            return str(failed)
        if done.returncode:
            return f"ends with status {done.returncode}"
        if not done.stdout.strip():
            return "says nothing"
        return ", ".join(f"makes {made.name}" for made in pathlib.Path(folder).iterdir())


def is_seen(body):
    with tempfile.TemporaryDirectory() as folder:
        tool = pathlib.Path(folder) / "tool"
        tool.write_text(f"#!/bin/sh\n{body}\n")
        tool.chmod(0o755)
        return fault(tool) != ""


def wrong_versions():
    return {f"a tool that {name}": lambda body=body: is_seen(body) for name, body in WRONG_TOOLS.items()}


def found():
    todo = tools()
    with concurrent.futures.ThreadPoolExecutor(len(os.sched_getaffinity(0))) as pool:
        wrong = [f"{tool.relative_to(TOP)}: --help {said}" for tool, said in zip(todo, pool.map(fault, todo)) if said]
    return Found(f"{len(todo)} tools", wrong)
