"""At most so many of some literals: by pairs, by a totalizer, or as a sum, whichever is best by measure.

Pairs: one clause for each two literals, and no further variable. A totalizer (O. Bailleux, Y. Boufkhad, "Efficient CNF
Encoding of Boolean Cardinality Constraints", CP 2003) is a tree, at each of whose nodes further variables say that at
least 1, 2, .. of the literals below it are true; here no node counts beyond the bound, and the root has none. A sum is
the length of a walk (`gulfezo.sums`), which takes one edge for each literal and one lemma where too many are true.
"""

from __future__ import annotations

import itertools
from collections.abc import Sequence
from typing import TYPE_CHECKING

from .literals import Literal

if TYPE_CHECKING:
    from .problem import Problem

# Up to so many literals, at most one of them is told by pairs. They propagate in one step and need no further variable.
# On 24 boards that six nets share, pairs found 14 answers within 20,000 learned clauses and 25 seconds, a counter 11.
PAIRWISE = 8
# A totalizer of up to so many clauses is taken; beyond that a sum. Of 42 problems of 60 to 1,000 literals totalizers of
# up to 170,000 clauses answered 30 within 12 seconds each, and sums 19, all of them among the 30 (docs/ENCODING.md).
MOST_CLAUSES = 200_000


def require_at_most(problem: Problem, bound: int, literals: Sequence[Literal]) -> None:
    """At most `bound` of the literals are true; one that is listed twice counts twice."""
    if bound < 0:
        problem.add_clause()
    elif bound == 0:
        problem.require(*(~x for x in literals))
    elif bound >= len(literals):
        return
    elif bound == 1 and len(literals) <= PAIRWISE:
        for x, y in itertools.combinations(literals, 2):
            problem.add_clause(~x, ~y)
    elif clauses_of_totalizer(bound, len(literals)) <= MOST_CLAUSES:
        totalize(problem, bound, literals)
    else:
        problem.require(problem.add_sum([(x, 1) for x in literals]).at_most(bound))


def clauses_of_totalizer(bound: int, count: int) -> int:
    """How many clauses a totalizer has, or a number above each limit where there are many."""
    if count <= 1:
        return 0
    low, high = count // 2, count - count // 2
    own = (min(low, bound) + 1) * (min(high, bound) + 1)
    return own + clauses_of_totalizer(bound, low) + clauses_of_totalizer(bound, high)


def totalize(problem: Problem, bound: int, literals: Sequence[Literal]) -> None:
    """The totalizer's clauses, for a bound from 1 to one less than there are literals."""
    middle = len(literals) // 2
    low, high = (counted(problem, bound, half) for half in (literals[:middle], literals[middle:]))
    refuse_more(problem, bound, low, high)


def counted(problem: Problem, bound: int, literals: Sequence[Literal]) -> list[Literal]:
    """Literals that are true where at least 1, 2, .. of the given ones are, up to the bound."""
    if len(literals) == 1:
        return list(literals)
    middle = len(literals) // 2
    low, high = (counted(problem, bound, half) for half in (literals[:middle], literals[middle:]))
    found = problem.add_variables(min(bound, len(literals)))
    for i, j in itertools.product(range(len(low) + 1), range(len(high) + 1)):
        if 0 < i + j <= bound:
            given = [~x for x in (*low[i - 1 : i], *high[j - 1 : j])]
            problem.add_clause(*given, found[i + j - 1])
    refuse_more(problem, bound, low, high)
    return found


def refuse_more(problem: Problem, bound: int, low: list[Literal], high: list[Literal]) -> None:
    """No more than the bound of what both count."""
    for i, x in enumerate(low, 1):
        j = bound + 1 - i
        if 0 < j <= len(high):
            problem.add_clause(~x, ~high[j - 1])
