"""A night, from its words to its status: which captures are to do, their jobs, and the reports."""
import argparse
import json
import os
import pathlib
import shlex
import signal
import sys
from collections.abc import Sequence

from blaming.faults import INTERRUPTED, MEMORY, READING, WORDS, Fault
from explaining.printable import printable
from framedbg_client import Ended, Garbled, Refusal, find_program
from writing.counting import counted

from . import drivers, job, junit, local, page, slurm
from .folder import RESULTS, Case, Result, Results, cases_of
from .told import Told

TOOL = pathlib.Path(__file__).resolve().parent.parent / "framedbg-night"
ALIKE, DIFFERS, FAILED = 0, 1, 4
WIDE = 30  # of the bar


def run(given: argparse.Namespace) -> int:
    """The status of a night, or of one of its jobs. Who ends it by a signal is told so too, and its jobs end with
    it."""
    sys.stdout.reconfigure(errors="backslashreplace")  # type: ignore[attr-defined]  # an io.TextIOWrapper has it
    signal.signal(signal.SIGTERM, signal.default_int_handler)
    try:
        return night(given) if given.job is None and given.task is None else one_job(given)
    except KeyboardInterrupt:
        return told("interrupted: the same command goes on from here", INTERRUPTED)
    except Fault as fault:
        return told(fault, fault.status)
    except Ended as ended:
        return told(ended.said or ended, READING)
    except (Garbled, Refusal) as fault:
        return told(fault, READING)
    except OSError as fault:
        return told(f"{fault.filename}: {fault.strerror}" if fault.filename else fault, READING)
    except MemoryError:
        return told("memory", MEMORY)


def told(why: object, status: int) -> int:
    print(f"framedbg-night: {printable(str(why))}", file=sys.stderr)
    return status


def places(given: argparse.Namespace) -> tuple[pathlib.Path, Results, list[Case]]:
    if not given.folder.is_dir():
        raise Fault(f"{given.folder}: no such folder", WORDS)
    results = given.results or given.folder / RESULTS
    cases = cases_of(given.folder, results)
    return results, Results(results), drivers.cases_of(cases, given.driver) if given.driver else cases


def one_job(given: argparse.Namespace) -> int:
    """What a job does: the case of a name, or of the line of a task."""
    _, results, cases = places(given)
    name = given.job if given.task is None else json.loads(given.names.read_text(encoding="utf-8"))[given.task]
    case = next((case for case in cases if case.name == name and case.is_wanted), None)
    if case is None:
        raise Fault(f"{name}: no capture with a picture")
    if given.again or results.read(case, job.how_of(given)) is None:
        (job if case.driver is None else drivers).do(case, results, given)
    return 0


def night(given: argparse.Namespace) -> int:
    folder, results, cases = places(given)
    given.program = given.program or find_program()
    if not given.program:
        raise Fault("framedbg isn't built or installed here", READING)
    results.claim(given.folder)
    how = job.how_of(given)
    wanted = [case for case in cases if case.is_wanted]
    todo = [case for case in wanted if given.again or results.read(case, how) is None]
    if given.again:
        for case in todo:
            results.path(case.name).unlink(missing_ok=True)
    bar = Bar(len(wanted), len(wanted) - len(todo))
    failed = (
        done_by_slurm(todo, folder, results, given, bar)
        if given.slurm
        else local.run_all(todo, lambda case: [*words_of(given), f"--job={case.name}"], given, bar.tell)
    )
    bar.end()
    report = [
        of_case(number, case, results.read(case, how) if case.is_wanted else None, failed)
        for number, case in enumerate(cases)
    ]
    results.keep("night", ".xml", junit.text_of(report).encode())
    tables = [results.read(case, how) for case in cases if case.capture is None]
    results.keep(
        "night", ".html", page.text_of(report, results, drivers.table(tables)).encode(errors="backslashreplace")
    )
    return summed(report, len(todo), given, folder)


def words_of(given: argparse.Namespace) -> list[str]:
    """The command line of a job, but for which it is."""
    made = [
        sys.executable,
        str(TOOL),
        str(given.folder.resolve()),
        "--tolerance",
        ",".join(map(str, given.tolerance)),
        "--seconds",
        f"{given.seconds:g}",
        "--program",
        os.path.abspath(given.program),
    ]
    made += [f"--driver={shlex.join(words)}" for words in given.driver or []]
    return (
        made
        + (["--results", str(given.results.resolve())] if given.results else [])
        + (["--again"] if given.again else [])
    )


def done_by_slurm(
    todo: Sequence[Case], folder: pathlib.Path, results: Results, given: argparse.Namespace, bar: "Bar"
) -> dict[str, str]:
    """Why each case has no result that has none after the arrays."""
    how, tasks = job.how_of(given), (folder / "tasks").resolve()
    if todo:
        slurm.run_all(
            todo,
            words_of(given),
            tasks,
            given.sbatch,
            lambda: bar.set(sum(results.path(case.name).exists() for case in todo)),
        )
    said = slurm.said(todo, tasks)
    return {
        case.name: said[case.name] or "the job left no result: it was killed or lost"
        for case in todo
        if results.read(case, how) is None
    }


def of_case(number: int, case: Case, result: Result | None, failed: dict[str, str]) -> Told:
    if not case.is_wanted:
        return Told(number, case.name, "no picture", "no picture of this name", (), 0.0)
    if result is None:
        why = failed.get(case.name, "the job left no result: it was killed or lost")
        return Told(
            number, case.name, "failed", printable(why), (printable(why), "the same command does it once more"), 0.0
        )
    lines = tuple(result["report"])
    said = headline(result) if case.driver is None else result["headline"]
    return Told(number, case.name, "differs" if result["differ"] else "alike", said, lines, result["seconds"])


def headline(result: Result) -> str:
    if not result["differ"]:
        return "no pixel differs"
    best = result["changes"][:1]
    named = f"event {result['suspects'][0]['event']}" if result["suspects"] else "nobody is named"
    mended = f"; mended by event {best[0]['event']}, {best[0]['change']}" if result["mended"] else ""
    return f"{result['differ']:,} of {result['pixels']:,} pixels differ: {named}{mended}"


def summed(report: Sequence[Told], done: int, given: argparse.Namespace, folder: pathlib.Path) -> int:
    """Tells what came of the night, and gives its status."""
    count = {word: sum(one.verdict == word for one in report) for word in ("alike", "differs", "failed", "no picture")}
    print(
        f"{counted(len(report), 'job' if given.driver else 'capture')}: {count['alike']} alike, "
        f"{count['differs']} differ, {count['failed']} failed, {count['no picture']} without a picture; {done} "
        f"done now"
    )
    untold = ("alike", "no picture") if given.allow_missing else ("alike",)
    for one in report:
        if one.verdict not in untold:
            print(printable(f"{one.shown}: {one.headline}"))
    print(f"{folder / 'night.xml'} and {folder / 'night.html'} tell more")
    is_missing = (count["no picture"] or not report) and not given.allow_missing
    return FAILED if count["failed"] or is_missing else DIFFERS if count["differs"] else ALIKE


class Bar:
    """How far the night has come, on a terminal."""

    def __init__(self, total: int, before: int) -> None:
        self.total, self.before, self.done, self.failed = total, before, 0, 0
        self.is_shown = sys.stderr.isatty()
        self.show()

    def tell(self, _: Case, why: str | None) -> None:
        self.done, self.failed = self.done + 1, self.failed + bool(why)
        self.show()

    def set(self, done: int) -> None:
        self.done = done
        self.show()

    def show(self) -> None:
        if self.is_shown and self.total:
            done = self.before + self.done
            full = WIDE * done // self.total
            sys.stderr.write(
                f"\r\x1b[K[{'#' * full}{'.' * (WIDE - full)}] {done} of "
                f"{self.total}{f', {self.failed} failed' if self.failed else ''}"
            )
            sys.stderr.flush()

    def end(self) -> None:
        if self.is_shown:
            sys.stderr.write("\r\x1b[K")
            sys.stderr.flush()
