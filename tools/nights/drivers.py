"""The jobs of a night that hold drivers, by framedbg-driver: a capture event by event, or the features."""
import argparse
import json
import os
import pathlib
import re
import subprocess
import sys
from collections.abc import Iterable, Sequence
from html import escape
from typing import Any

from blaming.faults import READING, Fault
from writing.counting import counted

from .folder import Case, Result, Results
from .job import how_of

TOOL = pathlib.Path(__file__).resolve().parent.parent / "framedbg-driver"
SCENES = 2  # of each feature
VARIABLE = re.compile(r"[A-Za-z_][A-Za-z_0-9]*=")
ALIKE, DIFFERS = 0, 1  # statuses of framedbg-driver


def cases_of(captures: Sequence[Case], drivers: Iterable[Sequence[str]]) -> list[Case]:
    """For each driver its features, and each capture."""
    cases = []
    for number, words in enumerate(drivers, 1):
        cases.append(Case(f"driver {number} features", None, None, tuple(words)))
        cases += [Case(f"driver {number}/{case.name}", case.capture, None, tuple(words)) for case in captures]
    return cases


def do(case: Case, results: Results, given: argparse.Namespace) -> None:
    """Does a case, and keeps what comes of it."""
    value = called(case, given)
    told = of_features(value) if case.capture is None else of_capture(value)
    results.write(case, how_of(given), {"driver": value["driver"], "seconds": value["seconds"], **told})


def called(case: Case, given: argparse.Namespace) -> dict[str, Any]:
    """What framedbg-driver tells, as JSON. Its words that stand before its options are variables."""
    driver = case.driver or ()
    count = next((number for number, word in enumerate(driver) if not VARIABLE.match(word)), len(driver))
    variables = dict(word.split("=", 1) for word in driver[:count])
    what = ["try", "--scenes", str(SCENES)] if case.capture is None else ["compare", str(case.capture)]
    words = [sys.executable, str(TOOL), *what, "--json", "--tolerance", str(max(given.tolerance)), *driver[count:]]
    ran = subprocess.run(
        [*words, "--program", given.program],
        env=os.environ | variables,
        stdin=subprocess.DEVNULL,
        capture_output=True,
        text=True,
        check=False,
    )
    if ran.returncode not in (ALIKE, DIFFERS):
        said = ran.stderr.strip().splitlines() or [f"framedbg-driver ended with status {ran.returncode}"]
        raise Fault(said[-1].removeprefix("framedbg-driver: "), READING)
    told: dict[str, Any] = json.loads(ran.stdout)
    return told | {"is_alike": ran.returncode == ALIKE}


# ---- What is told
def listed(counts: dict[str, int]) -> str:
    return ", ".join(f"{count:,} {kind}" for kind, count in counts.items())


def driver_line(driver: dict[str, str]) -> str:
    return f"{driver['renderer']}, {driver['version']}"


def of_capture(value: dict[str, Any]) -> Result:
    sums, first = value["sums"], value["first"]
    if value["is_alike"]:
        said = listed(sums) or "no pixel differs"
    else:
        place = " ".join(map(str, first["pixel"]))
        said = f"{listed(sums)}: first event {first['event']}, pixel {place}, {first['kind']}"
    events = [one for one in value["events"] if one["differ"]]
    lines = [f"event {one['event']}: {one['kind']}, {listed(one['differ'])}" for one in events]
    lines.insert(0, driver_line(value["driver"]))
    return {"differ": 0 if value["is_alike"] else sum(sums.values()), "headline": said, "report": lines}


def of_features(value: dict[str, Any]) -> Result:
    features = value["features"]
    beyond = [name for name, row in features.items() if row["verdict"] == "differs"]
    said = f"{counted(len(features), 'feature')}: {', '.join(beyond) or 'none'} beyond rounding"
    lines = [f"{name}: {row['verdict']} {listed(row['differ'])}".rstrip() for name, row in features.items()]
    told = {"headline": said, "report": [driver_line(value["driver"]), *lines], "features": features}
    return told | {"differ": 0 if value["is_alike"] else max(1, len(beyond))}


def table(results: Iterable[Result | None]) -> str:
    """The features by driver, as HTML, of the results that there are."""
    known = [result for result in results if result]
    if not known:
        return ""
    names = dict.fromkeys(name for result in known for name in result["features"])
    head = "".join(f"<th>{escape(driver_line(result['driver']))}</th>" for result in known)
    cells = {name: "".join(cell(result["features"].get(name)) for result in known) for name in names}
    rows = "\n".join(f"<tr><td>{escape(name)}</td>{cells[name]}</tr>" for name in names)
    return f'<table class="features"><tr><th>feature</th>{head}</tr>\n{rows}</table>\n'


def cell(row: dict[str, Any] | None) -> str:
    if not row:
        return "<td></td>"
    kinds, breaks = escape(listed(row["differ"])), f" ({row['breaks']})" if row["breaks"] else ""
    return f'<td class="{row["verdict"].split(" ")[0]}" title="{kinds}">{row["verdict"]}{breaks}</td>'
