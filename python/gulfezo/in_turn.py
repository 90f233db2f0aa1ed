"""Several aims one after the other: what is best of the first is required before the second is asked for."""

from __future__ import annotations

import time
from collections.abc import Sequence
from dataclasses import dataclass
from typing import TYPE_CHECKING

from .best import Incumbent, Limits, optimum, restricted
from .errors import NotSolved
from .limits import seconds_of
from .literals import Kind, Predicate
from .objectives import Aim
from .steps import Refutation
from .sums import Sum

if TYPE_CHECKING:
    from .problem import Problem
    from .solving import Folder


@dataclass(frozen=True)
class Least:
    """The least value of a sum, a distance or a tree."""

    aim: Aim


@dataclass(frozen=True)
class Greatest:
    """The greatest value of a sum or a flow."""

    aim: Aim


def in_turn(
    problem: Problem,
    aims: Sequence[Least | Greatest],
    folder: Folder,
    program: str | None,
    progress: bool,
    budget: int | None,
    seconds: float | None,
) -> list[Incumbent] | Refutation:
    """See `Problem.in_turn`."""
    if not isinstance(aims, Sequence):
        raise TypeError(f"in_turn takes a list, as [Least(costs), Greatest(flow)], and {aims!r} is none")
    for aim in aims:
        if not isinstance(aim, (Least, Greatest)):
            raise TypeError(f"{aim!r} is no aim: write Least(costs) or Greatest(flow)")
    seconds = seconds_of(seconds)
    deadline = None if seconds is None else time.monotonic() + seconds
    copied = problem.copy()
    found: list[Incumbent] = []
    for aim in aims:
        moved, greatest = of_copy(copied, aim.aim), isinstance(aim, Greatest)
        left = None if deadline is None else max(0.001, deadline - time.monotonic())
        try:
            best = optimum(copied, moved, greatest, folder, program, progress, Limits(budget, left))
        except NotSolved:
            if not found:
                raise
            break
        if isinstance(best, Refutation):
            return best
        found.append(of_problem(problem, best))
        require(copied, moved, greatest, best.value)
    return found


def of_copy(copied: Problem, aim: Aim) -> Aim:
    """The aim as one of a copy of its problem."""
    if isinstance(aim, Sum):
        return aim.moved(copied)
    return copied.predicates[aim.predicate_number - 1] if isinstance(aim, Predicate) else aim


def of_problem(problem: Problem, best: Incumbent) -> Incumbent:
    """The same with a model of the problem itself."""
    fields = {name: getattr(best, name) for name in ("value", "bound", "refutation", "statistics")}
    return type(best)(model=restricted(best.model, problem), kept=best.kept, **fields)


def require(problem: Problem, aim: Aim, greatest: bool, value: int) -> None:
    """No worse value than that from now on."""
    if isinstance(aim, Sum):
        problem.require(aim.at_least(value) if greatest else aim.at_most(value))
    elif aim.kind is Kind.MAXIMUM_FLOW:
        problem.require(problem.graphs[aim.graph].add_predicate("maximum_flow_geq", aim.ends, value))
    else:
        word = f"{aim.word.rsplit('_', 1)[0]}_leq"
        problem.require(problem.graphs[aim.graph].add_predicate(word, aim.ends, value))
