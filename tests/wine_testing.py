"""Programs of Windows under Wine for tests: a display, a prefix and a server of their own in a folder, which end
with it."""
import os
import pathlib
import shutil
import subprocess

from display import Display

NEEDS = {"wine": "wine", "wineserver": "wine", "Xvfb": "xvfb", "x86_64-w64-mingw32-gcc": "gcc-mingw-w64-x86-64-win32"}
ZLIB = pathlib.Path("/usr/x86_64-w64-mingw32/include/zlib.h")
WINESERVERS = ("/usr/lib/wine", "/usr/lib/wine64")  # where Debian has a wineserver that isn't on the path
SECONDS, TRIES = 180, 2  # Wine itself may end at a cold start


def wineserver():
    path = os.pathsep.join([os.environ.get("PATH", ""), *WINESERVERS])
    return next((found for name in ("wineserver", "wineserver64") if (found := shutil.which(name, path=path))), None)


def missing():
    """Why there is no Wine here, or no compiler for it, or None."""
    absent = [
        package for name, package in NEEDS.items() if not (wineserver() if name == "wineserver" else shutil.which(name))
    ]
    absent += [] if ZLIB.exists() else ["libz-mingw-w64-dev"]
    return f"{', '.join(sorted(set(absent)))} isn't installed" if absent else None


class Wine:
    """`with Wine(folder) as wine: wine.run("program.exe", ..)`."""

    def __init__(self, folder):
        self.folder = pathlib.Path(folder)
        self.environment = {name: value for name, value in os.environ.items() if name != "GALLIUM_DRIVER"}
        self.environment |= {
            "WINEPREFIX": str(self.folder / "prefix"),
            "WINEARCH": "win64",
            "WINEDEBUG": "-all",
            "WINEDLLOVERRIDES": "mscoree,mshtml=",
            "LIBGL_ALWAYS_SOFTWARE": "1",
        }
        self.display = None

    def __enter__(self):
        try:
            self.display = Display()
            self.environment["DISPLAY"] = self.display.name
            self.run("wineboot", "--init")
        except BaseException:
            self.__exit__()
            raise
        return self

    def __exit__(self, *_):
        subprocess.run(
            [wineserver(), "-k"],
            env=self.environment,
            stdin=subprocess.DEVNULL,
            stdout=subprocess.DEVNULL,
            stderr=subprocess.DEVNULL,
            check=False,
        )
        if self.display:
            self.display.end()
            self.display = None

    def run(self, *words):
        """(status, the lines on standard output, those on standard error) of a program. It is tried once more where
        a signal ended it, or where it failed and said nothing: then Wine did. Files stand for pipes, which Wine's
        server would hold open."""
        for _ in range(TRIES):
            with open(self.folder / "out", "wb") as out, open(self.folder / "errors", "wb") as errors:
                ran = subprocess.run(
                    ["wine", *map(str, words)],
                    cwd=self.folder,
                    env=self.environment,
                    stdin=subprocess.DEVNULL,
                    stdout=out,
                    stderr=errors,
                    timeout=SECONDS,
                    check=False,
                )
                has_said = out.seek(0, os.SEEK_END) + errors.seek(0, os.SEEK_END) > 0
            if 0 <= ran.returncode < 128 and (ran.returncode == 0 or has_said):
                break
        out, errors = (
            (self.folder / name).read_text(errors="replace").replace("\r", "").splitlines()
            for name in ("out", "errors")
        )
        return ran.returncode, out, errors
