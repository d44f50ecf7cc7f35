"""The captures of a folder, each with its picture of the same name, and what is kept of each."""
import hashlib
import json
import pathlib
from dataclasses import dataclass
from typing import Any

from blaming.faults import Fault
from writing import files

PICTURES = (".png", ".pam", ".ppm")
RESULTS = "night"  # the folder of results, in that of the captures
MARK = ".framedbg-night"  # a file that each folder of results has
Result = dict[str, Any]  # of a case, as JSON

BEGINNING = b'{\n "format": "framedbg-night"'  # of the result of a capture


@dataclass(frozen=True)
class Case:
    """A capture by its name in the folder, without its ending; `picture` is None where there is none. With words of
    a driver the capture is compared with that, and where there is no capture the driver's features are tried."""

    name: str
    capture: pathlib.Path | None
    picture: pathlib.Path | None
    driver: tuple[str, ...] | None = None

    @property
    def is_wanted(self) -> bool:
        return self.picture is not None or self.driver is not None


def cases_of(folder: pathlib.Path, results: pathlib.Path) -> list[Case]:
    """All captures below a folder but those among the results, by name."""
    found = []
    for path in sorted(folder.rglob("*.json")):
        if path.is_file() and not path.resolve().is_relative_to(results.resolve()):
            picture = next((path.with_suffix(end) for end in PICTURES if path.with_suffix(end).is_file()), None)
            found.append(Case(path.relative_to(folder).with_suffix("").as_posix(), path, picture))
    return found


class Results:
    """What is known of each case: a file of JSON for each, with a key of what it is a result of."""

    def __init__(self, folder: pathlib.Path) -> None:
        self.folder = folder

    def claim(self, captures: pathlib.Path) -> None:
        """Makes the folder. What lacks the mark of results is somebody's own, and is never written over."""
        if captures.resolve().is_relative_to(self.folder.resolve()):
            raise Fault(f"{self.folder}: the captures lie in it: results want a folder of their own")
        mark = self.folder / MARK
        if not mark.exists():
            if self.folder.is_dir() and any(self.folder.iterdir()):
                raise Fault(
                    f"{self.folder}: it has files, and no results of framedbg-night: name another folder with --results"
                )
            self.folder.mkdir(parents=True, exist_ok=True)
            mark.touch()

    def path(self, name: str, end: str = ".json") -> pathlib.Path:
        return self.folder / f"{name}{end}"

    def read(self, case: Case, how: list[Any]) -> Result | None:
        """The result of a case, where it is of these very files and of the same words; else None."""
        try:
            kept = json.loads(self.path(case.name).read_text(encoding="utf-8"))
        except (OSError, ValueError):
            return None
        return kept if isinstance(kept, dict) and kept.get("key") == key_of(case, how) else None

    def write(self, case: Case, how: list[Any], result: Result) -> None:
        """Keeps a result. A capture that somebody has put in its place stays."""
        path = self.path(case.name)
        if path.exists() and not is_result(path):
            raise Fault(f"{path}: no result of framedbg-night: it isn't written over")
        told = {"format": "framedbg-night", "name": case.name, "key": key_of(case, how), **result}
        self.keep(case.name, ".json", json.dumps(told, indent=1).encode())

    def keep(self, name: str, end: str, data: bytes) -> None:
        """Writes a file whole, or leaves what was there: two jobs at once, or one that is killed, leave no half of
        one."""
        path = self.path(name, end)
        path.parent.mkdir(parents=True, exist_ok=True)
        files.keep(path, data)


def is_result(path: pathlib.Path) -> bool:
    """Whether a file is a result, or half of one."""
    with open(path, "rb") as file:
        begun = file.read(len(BEGINNING))
    return BEGINNING.startswith(begun)


def key_of(case: Case, how: list[Any]) -> str:
    """What a result is a result of: the bytes of the capture and of the picture, and the words of the run that
    matter."""
    made = hashlib.sha256(json.dumps(how if case.driver is None else [how, case.driver]).encode())
    for path in (case.capture, case.picture):
        if path:
            made.update(hashlib.sha256(path.read_bytes()).digest())
    return made.hexdigest()
