"""Right answers for small problems: a model, or a refutation with lemmas and chains, by splitting on each variable."""

from __future__ import annotations

import random
from collections.abc import Iterable

import reference
import witnesses
from reference import Problem, Signs

# The tokens of a row, numbers as numbers.
Row = list[object]


class Model(Exception):
    """An assignment that satisfies the problem."""

    def __init__(self, signs: Signs) -> None:
        super().__init__(signs)
        self.signs = signs


class Refuter:
    """Splits until a clause is false; where none is, a lemma of a wrong predicate is; then resolves on the way back."""

    def __init__(self, problem: Problem, drawn: random.Random) -> None:
        self.problem, self.random = problem, drawn
        self.clauses = [frozenset(c) for c in problem.clauses]
        self.rows: list[Row] = []
        self.chains: dict[int, list[int]] = {}  # clause number: the clause numbers of its chain

    def false_clause(self, signs: Signs) -> int | None:
        for number, clause in enumerate(self.clauses, 1):
            if all(signs.get(abs(x)) == (x < 0) for x in clause):
                return number
        return None

    def add(self, row: Row, clause: Iterable[int]) -> int:
        self.rows.append(row)
        self.clauses.append(frozenset(clause))
        return len(self.clauses)

    def add_lemma(self, signs: Signs) -> int:
        number = reference.first_wrong_predicate(self.problem, signs)
        if number is None:
            raise Model(dict(signs))
        word, _, literals, listed = witnesses.lemma(self.problem, number, signs)
        if self.random.random() < 0.2:  # a literal more does no harm
            x = self.random.choice(list(signs))
            literals = sorted({*literals, -x if signs[x] else x})
        self.random.shuffle(literals)
        return self.add([word, number, *literals, 0, *listed], literals)

    def refute(self, signs: Signs) -> int:
        """The number of a clause that these signs make false."""
        found = self.false_clause(signs)
        if found is not None:
            return found
        left = [x for x in range(1, self.problem.variables + 1) if x not in signs]
        if not left:
            return self.add_lemma(signs)
        x, sign = self.random.choice(left), self.random.random() < 0.5
        ends = []
        for value in (sign, not sign):
            number = self.refute({**signs, x: value})
            if not {x, -x} & self.clauses[number - 1]:
                return number
            ends.append(number)
        return self.resolve(*ends)

    def resolve(self, one: int, other: int) -> int:
        clause = list(reference.resolvent(self.clauses[one - 1], self.clauses[other - 1]) or ())
        self.random.shuffle(clause)
        # The chain of the first clause is gone on with, now and then, in place of the clause.
        used = [*self.chains.get(one, [one]), other] if self.random.random() < 0.3 else [one, other]
        number = self.add(["chain", *clause, 0, *used], clause)
        self.chains[number] = used
        return number


def rows_of(problem: Problem, drawn: random.Random) -> list[Row]:
    """The rows of a right answer: a model, a refutation or progress."""
    refuter = Refuter(problem, drawn)
    try:
        last = refuter.refute({})
    except Model as model:
        literals = [x if sign else -x for x, sign in sorted(model.signs.items())]
        if refuter.rows and drawn.random() < 0.3:
            return [["s", "UNKNOWN"], *refuter.rows]
        return [["s", "SATISFIABLE"], ["v", *literals, 0]]
    if not refuter.rows or refuter.rows[-1][:2] != ["chain", 0]:
        refuter.add(["chain", 0, last], [])
    if drawn.random() < 0.2:
        return [["s", "UNKNOWN"], *refuter.rows[: drawn.randint(0, len(refuter.rows))]]
    return [["s", "UNSATISFIABLE"], *refuter.rows]


def answer(problem: Problem, drawn: random.Random) -> list[list[str]]:
    """The rows of a right answer, as tokens."""
    return [list(map(str, row)) for row in rows_of(problem, drawn)]
