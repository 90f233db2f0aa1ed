"""What is done on a worker: one run of the program's `solve` on the problem with a cube's literals."""

from __future__ import annotations

import os
import platform
import signal
import subprocess
import tempfile
import threading
import zlib
from collections import Counter
from collections.abc import Iterable
from dataclasses import dataclass
from pathlib import Path

from .. import program as programs

OFFERED = 20  # variables to split on, of a cube whose budget is spent


@dataclass(frozen=True)
class Job:
    """A cube to be solved: its literals, a budget of learned clauses, and the name of the run it belongs to.

    `program` is the path of the program, or None where the worker finds its own.
    """

    run: str
    literals: tuple[int, ...]
    budget: int
    program: str | None = None


@dataclass(frozen=True)
class Result:
    """What came of a job: the exit code of `solve`, and its answer, compressed, where the budget wasn't spent.

    Where it was, `branches` are variables that the learned clauses have most often, most often first. `seconds` is
    processor time. Nothing of all this is believed: see `judging`.
    """

    status: int
    answer: bytes
    branches: tuple[int, ...]
    seconds: float
    worker: str


# The processes of the program that this one started, by the name of the run of cubes for which they work.
running: dict[str, set[int]] = {}
stopped: set[str] = set()
lock = threading.Lock()


def unit_clauses(literals: Iterable[int]) -> bytes:
    """The literals as clauses of their own, as they stand behind a problem's text."""
    return b"\n" + "".join(f"{literal} 0\n" for literal in literals).encode()


def work(problem: bytes, job: Job) -> Result:
    """Solves a cube. `ProgramMissing`: this machine has no program."""
    program = programs.find(job.program)
    with tempfile.TemporaryDirectory(prefix="gulfezo-cube-") as folder:
        file, answer = Path(folder, "problem.gnf"), Path(folder, "answer")
        file.write_bytes(problem + unit_clauses(job.literals))
        words = [program, "solve", str(file), "--conflicts", str(job.budget)]
        with open(answer, "wb") as out:
            status, seconds = timed(job.run, words, out.fileno())
        worker = name_of_worker() or platform.node()
        if status == 0:
            return Result(status, b"", most_met(answer, job.literals), seconds, worker)
        return Result(status, zlib.compress(answer.read_bytes(), 1), (), seconds, worker)


def timed(run: str, words: list[str], out: int) -> tuple[int, float]:
    """The exit code of a process and its processor time in seconds; `stop` ends it early."""
    with lock:
        if run in stopped:
            raise RuntimeError("the run of cubes is over")
        process = subprocess.Popen(words, stdin=subprocess.DEVNULL, stdout=out)
        running.setdefault(run, set()).add(process.pid)
    os.waitid(os.P_PID, process.pid, os.WEXITED | os.WNOWAIT)
    with lock:  # its number stays its own until it is waited for, so that no other process is ended by it
        running[run].discard(process.pid)
        _, status, usage = os.wait4(process.pid, 0)
    process.returncode = os.waitstatus_to_exitcode(status)
    return process.returncode, usage.ru_utime + usage.ru_stime


def stop(run: str) -> None:
    """Ends the processes of a run of cubes that this process started, and lets it start no more."""
    with lock:
        stopped.add(run)
        for number in running.get(run, ()):
            os.kill(number, signal.SIGTERM)


def name_of_worker() -> str:
    """The address of the Dask worker on which this runs, or nothing."""
    try:
        from distributed import get_worker

        return str(get_worker().address)
    except (ImportError, ValueError):
        return ""


def most_met(answer: Path, assumed: Iterable[int]) -> tuple[int, ...]:
    """The variables that the learned clauses of a spent run have most often, but for assumed and settled ones.

    Often with either sign: one that they have with one sign alone leaves a branch as hard as the whole, so the measure
    is the product of both numbers, each of them with 1 added.
    """
    met: Counter[int] = Counter()
    settled: set[int] = {abs(literal) for literal in assumed}
    with open(answer, "rb") as lines:
        for line in lines:
            if line.startswith(b"chain "):
                clause = list(map(int, line.split(b" 0 ", 1)[0].split()[1:]))
                met.update(clause)
                if len(clause) == 1:
                    settled.add(abs(clause[0]))
    variables = {abs(literal) for literal in met} - settled
    found = sorted((-(met[variable] + 1) * (met[-variable] + 1), variable) for variable in variables)
    return tuple(variable for _, variable in found[:OFFERED])
