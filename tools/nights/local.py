"""The jobs of a night on this machine: a process for each capture, so that one that is killed takes no other with
it."""
import argparse
import concurrent.futures
import contextlib
import os
import signal
import subprocess
import threading
from collections.abc import Callable, Iterable, Sequence

from .folder import Case

Job = subprocess.Popen[bytes]

SLACK = 120  # seconds beside those of the search that a job may take
GRACE = 10  # seconds that a job has to end when it is told to


class Over(Exception):
    """The night is over before this job has begun."""


class Jobs:
    """Those that run. Each has a session of its own, so that a Ctrl-C is the night's, which ends them."""

    def __init__(self) -> None:
        self.running: set[Job] = set()
        self.lock, self.is_over = threading.Lock(), False

    def start(self, words: Sequence[str]) -> Job:
        with self.lock:
            if self.is_over:
                raise Over
            job = subprocess.Popen(
                words,
                stdin=subprocess.DEVNULL,
                stdout=subprocess.DEVNULL,
                stderr=subprocess.PIPE,
                start_new_session=True,
            )
            self.running.add(job)
            return job

    def end(self) -> None:
        with self.lock:
            self.is_over = True
            for job in self.running:
                job.terminate()
            for job in self.running:
                end(job)

    def done(self, job: Job) -> None:
        with self.lock:
            self.running.discard(job)


def end(job: Job) -> None:
    """Ends a job that was told to end, if it doesn't hear it, and what it leaves behind: a program that it began when
    it was told."""
    try:
        job.wait(GRACE)
    except subprocess.TimeoutExpired:
        job.kill()
        job.wait()
    with contextlib.suppress(ProcessLookupError):
        os.killpg(job.pid, signal.SIGKILL)


def run_all(
    cases: Iterable[Case],
    words: Callable[[Case], list[str]],
    given: argparse.Namespace,
    tell: Callable[[Case, str | None], None],
) -> dict[str, str]:
    """Runs a job for each case; `words` gives the command line of one. Gives why it failed, by name, for those that
    did."""
    failed: dict[str, str] = {}
    running = Jobs()
    with concurrent.futures.ThreadPoolExecutor(given.processes) as pool:
        jobs = {pool.submit(run, running, words(case), given.seconds + SLACK): case for case in cases}
        try:
            for job in concurrent.futures.as_completed(jobs):
                why = job.result()
                if why:
                    failed[jobs[job].name] = why
                tell(jobs[job], why)
        except BaseException:
            pool.shutdown(wait=False, cancel_futures=True)
            running.end()
            raise
    return failed


def run(running: Jobs, words: Sequence[str], seconds: float) -> str | None:
    """Why a job failed, in one line, or None."""
    try:
        job = running.start(words)
    except (OSError, Over) as fault:
        return str(fault) or "the night is over"
    try:
        said = job.communicate(timeout=seconds)[1].decode("utf-8", "replace").strip().splitlines()
    except subprocess.TimeoutExpired:
        job.terminate()
        end(job)
        return f"not done within {seconds:g} s"
    finally:
        running.done(job)
    if job.returncode == 0:
        return None
    return said[-1].removeprefix("framedbg-night: ") if said and job.returncode > 0 else ending(job.returncode)


def ending(status: int) -> str:
    return f"killed by {signal.Signals(-status).name}" if status < 0 else f"ended with status {status}"
