"""Solves a problem: writes its file, runs `solve`, runs `check` on what was printed, and then hands out an answer."""

from __future__ import annotations

import contextlib
import os
import shutil
import tempfile
import time
from collections.abc import Callable, Iterable, Iterator, Sequence
from dataclasses import dataclass, field
from pathlib import Path
from typing import TypeVar

from . import program as programs
from .answer import Answer, accepted
from .errors import BudgetSpent, RejectedAnswer, RunError, UnexpectedStatus
from .limits import seconds_of, whole
from .literals import Literal, several
from .model import Model
from .phases import Phase
from .problem import Problem
from .reasons import explained
from .steps import Refutation

# What `check` says of an answer with that exit code, and the class of the answer.
EXPECTED: dict[int, tuple[str, type[Answer]]] = {
    10: ("accepted model", Model),
    20: ("accepted refutation", Refutation),
}
SPENT = 0  # the exit code where the budget is spent
MOST_BUDGET = 2**64 - 1
MOST_ASSUMPTIONS = 1_000
ROUNDS = 10  # of workers, where nothing is said

Result = TypeVar("Result")
Folder = str | os.PathLike[str] | None


@dataclass
class Run:
    """How a problem is solved: the program, its budget, when its time is over, and whether lines tell of it.

    A budget of None is no limit. `form` is the word that is run; `team` is empty, or has the number of workers and of
    rounds. `seconds` are those of each phase so far.
    """

    program: str
    budget: int | None
    deadline: float | None
    progress: bool
    form: str = "solve"
    team: list[int] = field(default_factory=list)
    seconds: dict[str, float] = field(default_factory=dict)

    @contextlib.contextmanager
    def phase(self, word: str, note: str | Callable[[], str]) -> Iterator[None]:
        """Times a phase, and tells of it where that is wanted."""
        began = time.monotonic()
        try:
            with Phase(note if self.progress else ""):
                yield
        finally:
            took = time.monotonic() - began
            self.seconds[word] = self.seconds.get(word, 0.0) + took
            programs.LOG.info("%s took %.3f s", note() if callable(note) else note, took)

    def limit(self) -> list[str]:
        """The words that bound a run of `solve`."""
        return ["--conflicts", str(MOST_BUDGET if self.budget is None else self.budget)]


def run_of(program: str | None, budget: int | None, seconds: float | None, progress: bool) -> Run:
    """How a problem is solved. `ValueError`: the budget or the seconds are no such number."""
    if budget is not None:
        budget = whole(budget, "a budget of learned clauses", MOST_BUDGET, 1)
    seconds = seconds_of(seconds)
    deadline = None if seconds is None else time.monotonic() + seconds
    return Run(programs.find(program), budget, deadline, progress)


def assumed(problem: Problem, assumptions: Iterable[Literal]) -> dict[int, Literal]:
    """The literals by their numbers, each once. `ValueError`: one is of another problem, or there are above 1,000."""
    found: dict[int, Literal] = {}
    for literal in several(assumptions, "assumptions"):
        found.setdefault(problem.require_own(literal).number, literal)
    if len(found) > MOST_ASSUMPTIONS:
        raise ValueError(f"{len(found)} assumptions are too many: {MOST_ASSUMPTIONS} are the most")
    return found


def team_of(workers: int | None, rounds: int | None, has_budget: bool) -> list[int]:
    """The numbers of workers and rounds, or nothing. `ValueError`: what is given says something else than it seems."""
    if workers is None:
        if rounds is not None:
            raise ValueError("`rounds` are those of workers: give `workers` too, or a `budget` instead")
        return []
    if has_budget:
        raise ValueError("the budget of workers is their rounds, each of 1,000 learned clauses")
    rounds = ROUNDS if rounds is None else rounds
    return [whole(workers, "a number of workers", 8, 1), whole(rounds, "a number of rounds", 100, 1)]


@contextlib.contextmanager
def folder_of(folder: Folder) -> Iterator[tuple[Path, bool]]:
    """The user's folder, which stays, or one of its own, which goes again unless an error names it; and which it is."""
    if folder is not None:
        place = Path(folder)
        place.mkdir(parents=True, exist_ok=True)
        yield place, True
        return
    place = Path(tempfile.mkdtemp(prefix="gulfezo-"))
    try:
        yield place, False
    except RunError:
        raise  # it names the files, so they stay
    except BaseException:
        shutil.rmtree(place)
        raise
    shutil.rmtree(place)


def in_folder(folder: Folder, work: Callable[[Path, bool], Result]) -> Result:
    """What is done in the user's folder or in one of its own. The work is told the folder, and whether it stays."""
    with programs.tidy_on_signals(), folder_of(folder) as (place, keeps):
        return work(place, keeps)


def assume(file: str | os.PathLike[str], literals: Iterable[int]) -> None:
    """Writes a clause for each literal, by its number, behind those of a problem's file."""
    with open(file, "a", encoding="utf-8") as out:
        out.writelines(f"{literal} 0\n" for literal in literals)


def write(problem: Problem, file: Path, run: Run) -> None:
    """Writes the problem's file."""
    with run.phase("writing", f"writing the problem (variables: {problem.variables}, clauses: {len(problem.clauses)})"):
        problem.write(file)


def solve_in(
    place: Path, problem: Problem, run: Run, keeps: bool, literals: Sequence[int], writes: bool = True
) -> Model | Refutation:
    """Solves with the files `problem.gnf` and `answer` in that folder, which the user `keeps` or which goes again.

    With assumptions, what `solve` is given is `assumed.gnf`, which has them as clauses behind the problem's. Unless
    it `writes` it, the problem's file is there.
    """
    file, printed = place / "problem.gnf", place / "answer"
    if writes:
        write(problem, file, run)
    given = file
    if literals:
        given = place / "assumed.gnf"
        shutil.copy(file, given)
        assume(given, literals)
    words = [run.program, run.form, str(given), *map(str, run.team), *([] if run.team else run.limit())]
    with open(printed, "wb") as answer:
        with run.phase("solving", f"solving (variables: {problem.variables}, clauses: {len(problem.clauses)})"):
            status = programs.run(words, answer, run.deadline)
    if status == SPENT and is_progress(printed):
        more = "more `rounds`" if run.team else "`budget` more, or None for no limit"
        spent = f"the budget of learned clauses is spent; give {more}"
        raise BudgetSpent(spent, *((file, printed) if keeps else ()))
    return checked(problem, status, run, file, printed, literals)


def said_in(printed: Path) -> str:
    """What a run wrote that is no answer."""
    with open(printed, "rb") as text:
        return text.read(1000).decode("utf-8", "replace").strip()


def is_progress(printed: Path) -> bool:
    """Whether a run wrote what the program writes where its budget is spent."""
    with open(printed, "rb") as text:
        return text.readline(100).split() == [b"s", b"UNKNOWN"]


def unexpected(status: int, run: Run, file: Path, printed: Path) -> UnexpectedStatus:
    """The error about a run that ended with that status and is no answer."""
    reason, said = programs.meaning(status), explained(said_in(printed), file)
    if status == SPENT:
        reason = f"no text of the program is there; is {run.program} the program `gulfezo`?"
    elif status > 0 and status not in programs.NO_ANSWER:
        reason += f"; is {run.program} the program `gulfezo`?"
    return UnexpectedStatus(f"{run.form} ended with {status}: {reason}{said}", file, printed)


def checked(
    problem: Problem, status: int, run: Run, file: Path, printed: Path, literals: Sequence[int] = ()
) -> Model | Refutation:
    """The answer in the file, once `check` accepted it as what the exit code says.

    With assumptions it is `check-with`, which is given the problem's own file and the literals.
    """
    if status not in EXPECTED:
        raise unexpected(status, run, file, printed)
    wanted, kind = EXPECTED[status]
    size = f"{printed.stat().st_size / 1e6:.1f} MB"
    with run.phase("checking", f"checking the answer ({size})"):
        found = programs.verdict(run.program, file, printed, run.deadline, literals)
    if " ".join(found.split()[:2]) != wanted:
        fault = f"{run.form} ended with {status}, but check says '{found}' and not '{wanted}'"
        raise RejectedAnswer(fault + explained(found, printed), file, printed)
    with run.phase("reading", f"reading the answer ({size})"):
        answer = accepted(problem, file, printed, literals)
    if not isinstance(answer, (Model, Refutation)) or not isinstance(answer, kind):
        raise UnexpectedStatus(f"{run.form} ended with {status} and printed another answer", file, printed)
    answer.seconds = run.seconds
    return answer
