"""Assignments of a small problem, all of which can be tried."""

from __future__ import annotations

import itertools
from collections.abc import Iterator

import reference
from reference import Problem, Signs


def satisfies(problem: Problem, signs: Signs) -> bool:
    """Whether each clause has a true literal, and each predicate's variable says what the present edges say."""
    if not all(reference.is_satisfied(clause, signs) for clause in problem.clauses):
        return False
    return reference.first_wrong_predicate(problem, signs) is None


def satisfying(problem: Problem) -> Iterator[Signs]:
    """The assignments that satisfy the problem."""
    for values in itertools.product([False, True], repeat=problem.variables):
        signs = dict(enumerate(values, 1))
        if satisfies(problem, signs):
            yield signs


def is_satisfiable(problem: Problem) -> bool:
    """Whether some assignment satisfies the problem."""
    return next(satisfying(problem), None) is not None


def is_model(problem: Problem, values: list[int]) -> bool:
    """Whether these are the literals of all variables, in order, and satisfy the problem."""
    if [abs(x) for x in values] != list(range(1, problem.variables + 1)):
        return False
    return satisfies(problem, {abs(x): x > 0 for x in values})
