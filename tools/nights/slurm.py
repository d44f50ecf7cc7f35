"""The jobs of a night as job arrays of Slurm. Which task is which case stands in a file; what came of each is read
from the results alone."""
import json
import os
import pathlib
import shlex
import subprocess
import time
from collections.abc import Callable, Sequence

from blaming.faults import READING, Fault

from .folder import Case

MOST_TASKS = 1000  # of one array: Slurm's own bound is 1,001 where it isn't set otherwise
BETWEEN = 1.0  # seconds between two looks
WAIT = 60  # seconds that a call of Slurm may take


def called(*words: str) -> subprocess.CompletedProcess[str]:
    try:
        ran = subprocess.run(words, stdin=subprocess.DEVNULL, capture_output=True, text=True, timeout=WAIT, check=False)
    except (OSError, subprocess.TimeoutExpired) as fault:
        raise Fault(f"{words[0]}: {fault}", READING) from None
    return ran


def submit(words: Sequence[str], logs: pathlib.Path, count: int, options: Sequence[str]) -> str:
    """Submits an array of so many tasks, and gives its number."""
    script = "#!/bin/sh\nexec " + " ".join(map(shlex.quote, words)) + ' --task "$SLURM_ARRAY_TASK_ID"\n'
    path = logs / "task.sh"
    path.write_bytes(os.fsencode(script))
    ran = called(
        "sbatch",
        "--parsable",
        f"--array=0-{count - 1}",
        "--job-name=framedbg-night",
        "--cpus-per-task=1",
        f"--output={logs}/%a.log",
        *options,
        str(path),
    )
    if ran.returncode:
        raise Fault(f"sbatch: {(ran.stderr.strip().splitlines() or ['no reason told'])[-1]}", READING)
    return ran.stdout.strip().split(";")[0]


def is_waiting(job: str) -> bool:
    """Whether an array has tasks that aren't over. One that Slurm doesn't know any more is over."""
    ran = called("squeue", "--noheader", "--jobs", job, "--format=%i")
    return ran.returncode == 0 and bool(ran.stdout.strip())


def run_all(
    cases: Sequence[Case],
    words: Sequence[str],
    tasks: pathlib.Path,
    options: Sequence[str],
    tell: Callable[[], None],
) -> None:
    """Runs arrays over cases, one after the other. `tasks` is the folder of the lists of their names and of what
    they say; `tell` looks at what is done."""
    for number, start in enumerate(range(0, len(cases), MOST_TASKS)):
        some = cases[start : start + MOST_TASKS]
        logs = tasks / str(number)
        logs.mkdir(parents=True, exist_ok=True)
        (logs / "names").write_text(json.dumps([case.name for case in some]), encoding="utf-8")
        for old in logs.glob("*.log"):
            old.unlink()
        job = submit([*words, "--names", str(logs / "names")], logs, len(some), options)
        try:
            while is_waiting(job):
                tell()
                time.sleep(BETWEEN)
        except BaseException:
            called("scancel", job)
            raise


def said(cases: Sequence[Case], tasks: pathlib.Path) -> dict[str, str]:
    """The last line of what each task said, by the name of its case."""
    found = {}
    for number, case in enumerate(cases):
        log = tasks / str(number // MOST_TASKS) / f"{number % MOST_TASKS}.log"
        lines = log.read_text(encoding="utf-8", errors="replace").strip().splitlines() if log.exists() else []
        found[case.name] = lines[-1].removeprefix("framedbg-night: ") if lines else ""
    return found
