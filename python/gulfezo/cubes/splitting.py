"""On which variable a cube is split: one that its learned clauses have often, or one that the problem has often."""

from __future__ import annotations

import re
from collections import Counter
from collections.abc import Iterator

from .tree import Cube

NUMBER_LINE = re.compile(rb"^[ \t\r]*[-0-9][-0-9 \t\r]*$", re.MULTILINE)
NUMBER = re.compile(rb"-?[0-9]{1,99}")  # what else stands there, in a file that is refused or in none, isn't counted
DEEPEST = 1_000  # literals with which `check-with` judges an answer
METHODS = ("learned", "occurrence")


def most_frequent(problem: bytes) -> tuple[int, ...]:
    """The variables of a problem's clauses, those that occur most often first."""
    counts: Counter[int] = Counter()
    for line in NUMBER_LINE.finditer(problem):
        counts.update(abs(int(token)) for token in line[0].split() if NUMBER.fullmatch(token))
    del counts[0]
    return tuple(variable for _, variable in sorted((-count, variable) for variable, count in counts.items()))


class Splitting:
    """Chooses variables. `method` is `learned` or `occurrence`."""

    def __init__(self, problem: bytes, method: str = "learned") -> None:
        self.frequent = most_frequent(problem)
        self.known = set(self.frequent)
        self.method = method

    def choice(self, cube: Cube, met: tuple[int, ...]) -> int | None:
        """The variable for a cube, whose run has met these most often; None where it decides all, or too many, already.

        What a worker says that it has met is used only where it is a variable of the problem's clauses.
        """
        if len(cube.literals) >= DEEPEST:
            return None
        decided = {abs(literal) for literal in cube.literals}
        return next((variable for variable in self.ordered(met) if variable not in decided), None)

    def ordered(self, met: tuple[int, ...]) -> Iterator[int]:
        """All variables, the best first."""
        if self.method == "learned":
            yield from (variable for variable in met if variable in self.known)
        yield from self.frequent
