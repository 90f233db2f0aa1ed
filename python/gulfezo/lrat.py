"""Writes a refutation by clauses alone as a proof for other checkers: gulfezo-lrat FILE ANSWER [-o PROOF] [--cnf FILE]

LRAT (L. Cruz-Filipe, M. Heule, W. Hunt, M. Kaufmann, P. Schneider-Kamp, "Efficient Certified RAT Verification", CADE
2017) names for each clause the earlier ones by which unit propagation finds it, in that order and the false clause
last. Here a chain begins with that clause and goes back, so the hints are the chain turned round; one whose literal is
known to be true already when it comes is left out. DRAT (N. Wetzler, M. Heule, W. Hunt, SAT 2014) has clauses alone.

A lemma about a graph has no counterpart there: clauses alone don't give it. With --cnf the lemmas' clauses are written
as further clauses of that file, behind the problem's, and the proof is about them all: `gulfezo check` judges the
lemmas, and the other checker the rest. Without it an answer that has a lemma is refused.

What was assumed is one clause for each literal, behind the problem's: an answer of `core` says itself what that is.
"""

from __future__ import annotations

import argparse
import os
import sys
from collections.abc import Iterable, Iterator, Sequence

from .asked import judged_answer
from .errors import GulfezoError
from .files import write_whole
from .problem import Problem
from .steps import Refutation


class NoCounterpart(GulfezoError):
    """The answer is no refutation by clauses alone."""


def hints(clause: Sequence[int], chain: Iterable[tuple[int, frozenset[int]]]) -> list[int]:
    """The numbers of the chain's clauses in the order in which unit propagation uses them, from the clause's negation.

    The chain is given with the clauses that it names.
    """
    false, used = set(clause), []
    for number, named in reversed(list(chain)):
        left = set(named - false)
        if any(-literal in false for literal in left):
            continue  # it is true by now, and implies nothing
        used.append(number)
        if not left:
            break  # it is false, which ends the step
        if len(left) > 1:
            raise NoCounterpart(f"clause {number} implies no literal: has `check` accepted this answer?")
        false.add(-left.pop())
    else:
        raise NoCounterpart("unit propagation finds no false clause: has `check` accepted this answer?")
    return used


def numbers_of(problem: Problem, answer: Refutation) -> list[int]:
    """The number of each clause in a proof, by the place of its step: the lemmas' come first, then those of chains."""
    lemma = len(problem.clauses) + len(answer.assumptions)
    chain = lemma + len(answer.lemmas)
    numbers = []
    for place in answer.steps.places:
        if answer.steps.lines.is_chain(place):
            chain += 1
            numbers.append(chain)
        else:
            lemma += 1
            numbers.append(lemma)
    return numbers


def proof(problem: Problem, answer: Refutation, with_hints: bool = True) -> list[str]:
    """The lines of the LRAT proof, or of the DRAT proof where hints aren't wanted, over `clauses_of` both."""
    answer.require_clauses()
    clauses = [frozenset(clause) for clause in given_clauses(problem, answer)]
    numbers = [*range(1, len(clauses) + 1), *numbers_of(problem, answer)]
    lines = []
    for step in answer.steps:
        if not all(0 < number <= len(clauses) for number in step.listed if step.predicate is None):
            raise NoCounterpart(f"line {step.line} names a clause that isn't there: has `check` accepted this answer?")
        if step.predicate is None and with_hints:
            named = hints(step.clause, ((number, clauses[number - 1]) for number in step.listed))
            row = [*dict.fromkeys(step.clause), 0, *(numbers[number - 1] for number in named), 0]
            lines.append(f"{numbers[step.number - 1]} {' '.join(map(str, row))}")
        elif step.predicate is None:
            lines.append(dimacs(step.clause))
        clauses.append(frozenset(step.clause))
    return lines


def given_clauses(problem: Problem, answer: Refutation) -> Iterator[Sequence[int]]:
    """The problem's clauses, and one for each literal that was assumed."""
    yield from problem.clauses
    yield from ((number,) for number in answer.assumptions)


def clauses_of(problem: Problem, answer: Refutation) -> str:
    """The problem's clauses, those of what was assumed, and then those of the lemmas, as a DIMACS CNF file."""
    answer.require_clauses()
    count = len(problem.clauses) + len(answer.assumptions) + len(answer.lemmas)
    rows = [f"p cnf {problem.variables} {count}"]
    rows += [dimacs(clause) for clause in given_clauses(problem, answer)]
    rows += [dimacs(step.clause) for step in answer.lemmas]
    return "\n".join(rows) + "\n"


def require_no_lemma(answer: Refutation) -> None:
    """`NoCounterpart`: a step is a lemma; the message names the first one."""
    for step in answer.lemmas[:1]:
        raise NoCounterpart(
            f"line {step.line} of the answer, clause {step.number}, is a lemma `{step.word}` on predicate "
            f"{step.predicate}: LRAT and DRAT have clauses alone, and no step for graphs. With --cnf FILE the lemmas' "
            "clauses are written there, behind the problem's, and `gulfezo check` judges them"
        )


def dimacs(clause: Iterable[int]) -> str:
    """A clause as a line, each of its literals once."""
    return " ".join(map(str, (*dict.fromkeys(clause), 0)))


def convert(
    file: str,
    answer: str,
    with_hints: bool = True,
    with_lemmas: bool = False,
    assume: Sequence[int] = (),
    atom: int | None = None,
) -> tuple[str, str, int, str]:
    """The proof, the clauses it is about, how many of these are lemmas, and the words by which the program judges them.

    An answer of `core` is about its core too, one of another run about what is to be assumed with it, and one of `best
    FILE ATOM` about what `ask` prints; see `asked.judged_answer`.
    """
    given = judged_answer(file, answer, assume, atom, unchecked=True)
    problem, found = given.problem, given.answer
    if not isinstance(found, Refutation):
        raise NoCounterpart(f"{answer} is no refutation: only `s UNSATISFIABLE` has a proof")
    if not with_lemmas:
        require_no_lemma(found)
    lines = proof(problem, found, with_hints)
    return "".join(line + "\n" for line in lines), clauses_of(problem, found), len(found.lemmas), given.words


def main(words: Sequence[str] | None = None) -> int:
    """Ends with 0 where the proof was written, and with 1, and a message on standard error, where there is none."""
    parser = argparse.ArgumentParser(prog="gulfezo-lrat", description=(__doc__ or "").split("\n", maxsplit=1)[0])
    parser.add_argument("file", metavar="FILE", help="the problem")
    parser.add_argument("answer", metavar="ANSWER", help="a refutation of it that `gulfezo check` accepts")
    parser.add_argument("-o", metavar="PROOF", dest="out", help="where to write the proof (standard output)")
    parser.add_argument("--cnf", metavar="FILE", help="where to write the clauses it is about, lemmas' last")
    parser.add_argument("--assume", metavar="LIT", nargs="+", type=int, default=[], help="what the answer assumes")
    parser.add_argument("--best", metavar="ATOM", type=int, help="ANSWER is what `best FILE ATOM` wrote")
    parser.add_argument("--drat", action="store_true", help="without hints, for checkers of DRAT")
    given = parser.parse_args(words)
    try:
        asked = given.assume, given.best
        text, clauses, lemmas, judges = convert(given.file, given.answer, not given.drat, bool(given.cnf), *asked)
        if given.cnf:
            write_whole(given.cnf, clauses.encode())
        if lemmas:
            last, them = (f"{lemmas} clauses", "them") if lemmas > 1 else ("clause", "it")
            are = "are lemmas" if lemmas > 1 else "is a lemma"
            told = f"the last {last} of {given.cnf} {are} about graphs, which clauses alone don't give"
            print(f"gulfezo-lrat: {told}; '{judges}' judges {them}", file=sys.stderr)
        if given.out:
            write_whole(given.out, text.encode())
        else:
            sys.stdout.write(text)
            sys.stdout.flush()
    except BrokenPipeError:
        # Whoever reads has enough. Python flushes once more at its end, which mustn't fail again.
        os.dup2(os.open(os.devnull, os.O_WRONLY), sys.stdout.fileno())
        return 1
    except (GulfezoError, OSError, ValueError) as fault:
        print(f"gulfezo-lrat: {fault}", file=sys.stderr)
        return 1
    return 0


if __name__ == "__main__":
    sys.exit(main())
