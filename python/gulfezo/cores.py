"""Cores: which of some assumptions can't hold together, and why each of these is needed, by the program's `core`."""

from __future__ import annotations

import os
from collections.abc import Iterable, Iterator
from dataclasses import dataclass
from pathlib import Path
from typing import TYPE_CHECKING, Literal as Constant, NoReturn

from . import program as programs
from .answer import accepted
from .errors import BudgetSpent, RejectedAnswer, UnexpectedStatus
from .literals import Literal
from .model import Model
from .reasons import explained
from .solving import Run, assumed, checked, in_folder, is_progress, run_of, write
from .statistics import Statistics
from .steps import Refutation

if TYPE_CHECKING:
    from .problem import Problem

CORE, SPENT = 20, 0  # exit codes of `core`, and 10 with a model

# A line of a core: its word, its literal, and the numbers behind it.
Head = tuple[str, int, list[int]]


@dataclass(frozen=True)
class Need:
    """Why a literal is in a core.

    `model` makes all other literals of the core true, and so this one false; `check-with` has accepted it. Without it
    this literal wasn't left out because 100,000 learned clauses didn't tell whether the literals of `tried` hold
    together, which are the other ones of the core and perhaps more.
    """

    literal: Literal
    model: Model | None
    tried: tuple[Literal, ...]


class Core:
    """Assumptions that can't hold together.

    `refutation` shows it, and `check-with` has accepted it under `literals`. `needs` has one entry for each of them, in
    order.
    """

    def __init__(self, problem: Problem, needs: list[Need], refutation: Refutation) -> None:
        self.problem = problem
        self.needs = needs
        self.refutation = refutation

    def __bool__(self) -> Constant[False]:
        return False

    def __len__(self) -> int:
        return len(self.needs)

    def __iter__(self) -> Iterator[Literal]:
        return iter(self.literals)

    def __contains__(self, literal: object) -> bool:
        """Whether it has the literal, by whichever edge or name it is called."""
        numbers = {need.literal.number for need in self.needs}
        return isinstance(literal, Literal) and literal.owner is self.problem and literal.number in numbers

    def __repr__(self) -> str:
        return f"<core of {len(self)}: {', '.join(self.names)}>"

    def _repr_svg_(self) -> str | None:
        """The first lemma of its refutation as a picture, which Jupyter shows."""
        return self.refutation._repr_svg_()

    if not TYPE_CHECKING:  # of a type checker these names stay unknown

        def __getattr__(self, name: str) -> NoReturn:
            raise AttributeError(f"a core has no {name!r}: its literals can't hold together, so there is no model")

        def __getitem__(self, thing: object) -> NoReturn:
            raise TypeError(f"a core has no value of {thing!r}: there is no model; `literals` lists what is in it")

    @property
    def literals(self) -> list[Literal]:
        """The assumptions of the core, as they were given and in that order."""
        return [need.literal for need in self.needs]

    @property
    def names(self) -> list[str]:
        """The literals in words: see `Problem.described`."""
        return [self.problem.described(literal) for literal in self.literals]

    @property
    def statistics(self) -> Statistics:
        """What it took, and what its refutation has."""
        return self.refutation.statistics

    @property
    def is_minimal(self) -> bool:
        """Whether no literal could be left out: each of them has a model of the others."""
        return all(need.model is not None for need in self.needs)


def core(
    problem: Problem,
    assumptions: Iterable[Literal],
    folder: str | os.PathLike[str] | None,
    program: str | None,
    progress: bool,
    seconds: float | None,
) -> Model | Core:
    """See `Problem.core`."""
    chosen = assumed(problem, assumptions)
    if not chosen:
        raise ValueError("core wants at least one assumption; solve says whether there is a model without any")
    run = run_of(program, None, seconds, progress)
    run.form = "core"
    return in_folder(folder, lambda place, keeps: core_in(place, problem, run, keeps, chosen))


def core_in(place: Path, problem: Problem, run: Run, keeps: bool, chosen: dict[int, Literal]) -> Model | Core:
    """Asks for a core with the files `problem.gnf` and `answer` in that folder."""
    file, printed, literals = place / "problem.gnf", place / "answer", list(chosen)
    write(problem, file, run)
    with open(printed, "wb") as out:
        with run.phase("solving", f"looking for a core (assumptions: {len(literals)})"):
            status = programs.run([run.program, run.form, str(file), *map(str, literals)], out, run.deadline)
    if status == SPENT and is_progress(printed):
        spent = "100,000 learned clauses don't tell whether the assumptions hold together; assume less"
        raise BudgetSpent(spent, *((file, printed) if keeps else ()))
    kept = literals
    heads: list[Head] = []
    if status == CORE:
        try:
            kept, heads = heads_of(printed, literals)
        except ValueError as fault:
            raise UnexpectedStatus(f"core ended with 20 and printed no core: {fault}", file, printed) from fault
    answer = checked(problem, status, run, file, printed, kept)
    if isinstance(answer, Model):
        return answer
    needs = [need_of(problem, run, place, kept, head, chosen) for head in heads]
    return Core(problem, needs, answer)


def heads_of(printed: Path, literals: list[int]) -> tuple[list[int], list[Head]]:
    """The core, which is of these literals, and in its order what is said of each. `ValueError`: there is none."""
    rows = list(rows_of(printed))
    if not rows or rows[0][0] != "core":
        raise ValueError("it doesn't begin with a core")
    (_, kept), *rest = rows
    if kept != [literal for literal in literals if literal in set(kept)]:
        raise ValueError("it has a literal that wasn't assumed")
    if [numbers[:1] for _, numbers in rest] != [[literal] for literal in kept]:
        raise ValueError("it doesn't say of each literal why it is needed")
    if not all(word == "needed" or word == "open" and set(numbers) <= set(literals) for word, numbers in rest):
        raise ValueError("what was tried wasn't assumed")
    return kept, [(word, numbers[0], numbers[1:]) for word, numbers in rest]


def rows_of(printed: Path) -> Iterator[tuple[str, list[int]]]:
    """The words and numbers of the lines `c core`, `c needed` and `c open`, without the ending 0, in their order."""
    with open(printed, "rb") as lines:
        for line in lines:
            tokens = line.split()
            if tokens[:1] != [b"c"]:
                break
            if tokens[1:2] in ([b"core"], [b"needed"], [b"open"]):
                *numbers, end = map(int, tokens[2:])
                if end != 0:
                    raise ValueError("a list has no end")
                yield tokens[1].decode(), numbers


def need_of(
    problem: Problem, run: Run, place: Path, kept: list[int], head: Head, chosen: dict[int, Literal]
) -> Need:
    """The need of a literal by its line. `RejectedAnswer`: what stands there as a model of the others isn't one."""
    word, literal, listed = head
    own = chosen[literal]
    if word == "open":
        return Need(own, None, tuple(chosen[number] for number in listed))
    file, path = place / "problem.gnf", place / f"needed-{literal}"
    path.write_text(f"s SATISFIABLE\nv {' '.join(map(str, listed))} 0\n")
    others = [number for number in kept if number != literal]
    said = programs.verdict(run.program, file, path, run.deadline, others)
    if said != "accepted model":
        raise RejectedAnswer(f"check says '{said}' of a need of a core{explained(said, path)}", file, path)
    model = accepted(problem, file, path)
    assert isinstance(model, Model), "its text begins as a model's"
    return Need(own, model, ())
