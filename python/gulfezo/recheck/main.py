"""Judges an answer by the second checker: gulfezo-recheck FILE ANSWER [LIT..]

It says what `gulfezo check FILE ANSWER` says, and with literals what `check-with` says, and ends as they do: 0 where
the answer is accepted, 1 where it is rejected, 3 where the input is refused, 4 where a file can't be read. It is
written in Python, for being read, and takes much longer.
"""

from __future__ import annotations

import sys
from collections.abc import Sequence
from pathlib import Path

from . import judging
from .formats import MOST_CLAUSES, MOST_LITERALS, MOST_VARIABLES, Fault, Problem, read, row, signed

USAGE = "usage: gulfezo-recheck FILE ANSWER [LIT..]"
MOST_ASSUMED = 1000


def assume(problem: Problem, literals: list[int]) -> Problem:
    """The problem with a clause more for each literal. `Fault`: there is no room for them."""
    count = sum(map(len, problem.clauses))
    if len(problem.clauses) + len(literals) > MOST_CLAUSES or count + len(literals) > MOST_LITERALS:
        raise Fault(0, "TooMany")
    variables = max(problem.variables, *(abs(literal) for literal in literals))
    clauses = [*problem.clauses, *([literal] for literal in literals)]
    return Problem(variables, problem.graphs, problem.edges, problem.predicates, clauses)


def verdict(file: bytes, answer: bytes | None, literals: list[int]) -> tuple[int, str]:
    """The exit code and the line about an answer, which is None where it can't be read."""
    try:
        problem = assume(read(file), literals) if literals else read(file)
    except Fault as fault:
        return 3, row("refused", *fault.args)
    if answer is None:
        return 4, "read fault"
    try:
        return 0, judging.judged(problem, answer)
    except judging.Rejected as rejected:
        return 1, row("rejected", *rejected.args)


def content(path: str) -> bytes | None:
    """The bytes of a file, or None where it can't be read."""
    try:
        return Path(path).read_bytes()
    except OSError:
        return None


def main(words: Sequence[str] | None = None) -> int:
    """See above."""
    given = list(sys.argv[1:] if words is None else words)
    if given in (["-h"], ["--help"]):
        print((__doc__ or "").strip())
        return 0
    literals = [signed(word.encode("utf-8", "replace")) for word in given[2:]]
    numbers = [number for number in literals if number and abs(number) <= MOST_VARIABLES]
    if len(given) < 2 or len(numbers) < len(literals) or len(numbers) > MOST_ASSUMED:
        print(USAGE)
        return 2
    file = content(given[0])
    status, said = (4, "read fault") if file is None else verdict(file, content(given[1]), numbers)
    print(said)
    return status


if __name__ == "__main__":
    sys.exit(main())
