"""Runs of programs with their processor time, and what `check` says of an answer."""

from __future__ import annotations

import contextlib
import math
import os
import resource
import signal
import subprocess
import sys
import threading
from collections.abc import Iterator
from dataclasses import dataclass
from pathlib import Path

NO_BUDGET = 2**64 - 1
ANSWERS = {10: "accepted model", 20: "accepted refutation"}
NAMES = {10: "model", 20: "refuted"}
PATIENCE = 20  # a run that takes so many times its limit by the clock does nothing, even where others work beside it


class Wrong(Exception):
    """What is wrong with a run whose time would say nothing."""


@dataclass
class Run:
    """The processor time and the status of a run, and whether it was stopped at its limit."""

    seconds: float
    status: int
    stopped: bool = False

    @property
    def answered(self) -> bool:
        """Whether it ended with a model or a refutation."""
        return self.status in ANSWERS

    @property
    def failed(self) -> bool:
        """Whether it ended by itself and without an answer: its time says nothing."""
        return not self.answered and not self.stopped

    @property
    def name(self) -> str:
        """How it ended."""
        if self.stopped:
            return "limit"
        return f"signal {-self.status}" if self.status < 0 else NAMES.get(self.status, f"status {self.status}")


@contextlib.contextmanager
def about(label: str, again: str) -> Iterator[None]:
    """Runs over one input. Where one is `Wrong` the script ends, and tells the input and the command that shows it."""
    try:
        yield
    except Wrong as wrong:
        sys.exit(f"{label}: {wrong}\n  again: {again}")


def is_idle(what: str, answers: int, limit: int) -> bool:
    """Whether no run over some inputs had an answer, which is told.

    A run may pass its limit; but a program none of whose runs ends may be one that only spins.
    """
    if not answers:
        print(f"WRONG {what}: no run had an answer within {limit} s", flush=True)
    return not answers


def shown(words: list[str]) -> str:
    """The words of a run without the folders of its files, which are gone when they are read."""
    return " ".join(map(os.path.basename, words))


def timed(words: list[str], out: str, limit: int) -> Run:
    """A run whose output goes to a file; after so many seconds of processor time it is stopped.

    `Wrong`: it hangs, and takes no such time.
    """

    def bound() -> None:
        resource.setrlimit(resource.RLIMIT_CPU, (limit, limit + 1))

    with open(out, "wb") as written:
        process = subprocess.Popen(
            words, stdout=written, stderr=subprocess.DEVNULL, preexec_fn=bound, start_new_session=True
        )
        hangs = threading.Event()
        timer = threading.Timer(PATIENCE * limit, stop, [process.pid, hangs])
        timer.start()
        _, status, used = os.wait4(process.pid, 0)
        timer.cancel()
    process.returncode = os.waitstatus_to_exitcode(status)
    if hangs.is_set():
        raise Wrong(f"{shown(words)} hangs: it was stopped after {PATIENCE * limit} s by the clock")
    seconds = used.ru_utime + used.ru_stime
    by_limit = process.returncode in (-signal.SIGXCPU, -signal.SIGKILL) and seconds > 0.9 * limit
    return Run(seconds, process.returncode, by_limit)


def stop(process: int, hangs: threading.Event) -> None:
    """Ends a run, with all that it began."""
    hangs.set()
    os.killpg(process, signal.SIGKILL)


def judged(words: list[str], out: str, limit: int) -> tuple[Run, str]:
    """A run of `check`, and what it says: its one line without the end, and how it ended, where that isn't with 0."""
    run = timed(words, out, limit)
    says = Path(out).read_text(errors="replace").removesuffix("\n")
    return run, says if run.status == 0 else f"{says} ({run.name})"


class Solver:
    """A program of this project, over files in a folder: the input `f` and the answer `a`."""

    def __init__(self, program: str, folder: str, limit: int) -> None:
        self.program, self.folder, self.limit = program, folder, limit

    def path(self, name: str) -> str:
        """The path of a file in the folder."""
        return os.path.join(self.folder, name)

    def put(self, text: str) -> None:
        """The input's text."""
        Path(self.path("f")).write_text(text)

    def solve(self, budget: int = NO_BUDGET, out: str = "a") -> Run:
        """The run of `solve` on the input."""
        words = [self.program, "solve", self.path("f"), "--conflicts", str(budget)]
        return timed(words, self.path(out), self.limit)

    def check(self) -> tuple[Run, str]:
        """The run of `check` on the answer, and what it says."""
        return judged([self.program, "check", self.path("f"), self.path("a")], self.path("verdict"), 10 * self.limit)

    def conflicts(self) -> int:
        """The least budget that brings the answer, to within a twentieth: so many clauses are learned."""
        low, high = 0, 1
        while not self.ends_within(high):
            low, high = high, 4 * high
        while high - low > 1 + high // 20:
            middle = (low + high) // 2
            if self.ends_within(middle):
                high = middle
            else:
                low = middle
        return high

    def ends_within(self, budget: int) -> bool:
        """Whether this budget brings the answer. `Wrong`: the run ends in a third way."""
        run = self.solve(budget, "unused")
        if run.failed and run.status != 0:
            raise Wrong(f"solve with a budget of {budget}: {run.name}")
        return run.answered


def minisat(folder: str, limit: int) -> Run:
    """The run of MiniSat on the input."""
    return timed(["minisat", os.path.join(folder, "f")], os.devnull, limit)


def ratio(one: float, other: float) -> float:
    """Of two times in seconds; below a millisecond nothing is told apart."""
    return max(one, 0.001) / max(other, 0.001)


def geometric_mean(ratios: list[float]) -> float:
    return math.exp(sum(map(math.log, ratios)) / len(ratios))
