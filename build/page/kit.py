"""The kit that the page is built with, and the steps that lean on how it does its work."""
import contextlib
import pathlib
import shutil
import subprocess
import time

TRIED = "rattle-kit-13b logic dac8208d650f15bf"  # the kit that the steps were tried with

WORTH_TELLING = 5  # seconds that a step took


class Failed(Exception):
    """A step that didn't work: with another kit there may be no such way."""


@contextlib.contextmanager
def step(name):
    began = time.monotonic()
    try:
        yield
    except (OSError, ValueError, subprocess.CalledProcessError) as fault:
        raise Failed(f"the step '{name}' failed: {told(fault)}") from fault
    if time.monotonic() - began >= WORTH_TELLING:
        print(f"{name}: {time.monotonic() - began:.0f} s", flush=True)


def told(fault):
    if not isinstance(fault, subprocess.CalledProcessError):
        return fault
    return f"{pathlib.Path(fault.cmd[0]).name} ended with status {fault.returncode}"


def run(*words, **how):
    subprocess.run([str(it) for it in words], check=True, **how)


def folder():
    found = shutil.which("rt")
    if not found:
        raise OSError("rt is not on the path")
    return pathlib.Path(found).resolve().parent.parent


def name():
    return (folder() / "KIT-ID").read_text().strip()


def tool(which):
    return folder() / "toolchain/bin" / which
