"""Compares `solve` with trying all assignments, on small problems: solve.py [--rounds N] [--first SEED]

Each seed makes one problem, so the same seeds give the same problems. An answer is right where it is a model and some
assignment satisfies the problem, a refutation and none does, or progress with exactly the budget's number of learned
clauses, each new. Each answer is judged by fuzz/reference.py and by the program's own `check`, and a second run has to
write the same bytes. The status is 0 exactly where nothing differs.
"""

from __future__ import annotations

import problems
import reference
from assignments import is_satisfiable
from reference import Clause, Problem
from rounds import Rounds, play
from runs import Wrong

STATUSES = {b"s SATISFIABLE": 10, b"s UNSATISFIABLE": 20, b"s UNKNOWN": 0}
DEFAULT_BUDGET = 100_000


# ---- new learned clauses


def is_quiet_without(clauses: list[Clause], assumed: set[int], literal: int) -> bool:
    """Whether unit propagation from the assumed literals comes to no false clause and leaves the literal open."""
    true = set(assumed)
    if any(-x in true for x in true):
        return False
    changed = True
    while changed:
        changed = False
        for clause in clauses:
            if clause & true:
                continue
            left = {x for x in clause if -x not in true}
            if not left:
                return False
            if len(left) == 1:
                true |= left
                changed = True
    return literal not in true and -literal not in true


def is_new(known: list[Clause], clause: Clause) -> bool:
    """Whether some literal of the clause doesn't follow from the others by unit propagation."""
    return any(is_quiet_without(known, {-x for x in clause if x != literal}, literal) for literal in clause)


def check_progress(problem: Problem, answer: bytes, budget: int) -> None:
    """Each chain has exactly its end, is nonempty and new, and there are as many as the budget."""
    clauses = [frozenset(c) for c in problem.clauses]
    known, chains = list(clauses), 0
    for line, tokens in list(reference.lines(answer))[1:]:
        step = reference.step_line(line, tokens)
        clause = frozenset(step.literals)
        if step.is_chain:
            if reference.chain_end(clauses, step.listed) != clause or not clause:
                raise Wrong(f"line {line} isn't exactly the end of its chain, or is empty")
            if not is_new(known, clause):
                raise Wrong(f"line {line} isn't new")
            known.append(clause)
            chains += 1
        clauses.append(clause)
    if chains != budget:
        raise Wrong(f"{chains} chains at a budget of {budget}")


def check_is_trimmed(problem: Problem, answer: bytes) -> None:
    """Each step but the last is named by a later one."""
    steps = [reference.step_line(line, tokens) for line, tokens in list(reference.lines(answer))[1:]]
    first = len(problem.clauses) + 1
    named = {n for step in steps if step.is_chain for n in step.listed}
    if not all(first + k in named for k in range(len(steps) - 1)):
        raise Wrong("a step that nothing rests on")


# ---- runs


class Solved(Rounds):
    """Problems that are solved, most of them within a small budget."""

    def judge_answer(self, problem: Problem, status: int, answer: bytes, budget: int) -> None:
        """The verdict that the answer has to have, which the reference and the program have to give it."""
        first = answer.split(b"\n")[0]
        if STATUSES.get(first) != status:
            raise Wrong(f"status {status} with {first!r}")
        if status == 10:
            verdict = "accepted model"
        elif status == 20:
            verdict = "accepted refutation"
            check_is_trimmed(problem, answer)
        else:
            verdict = f"accepted progress {budget}"
            check_progress(problem, answer, budget)
            if budget >= 3**problem.variables:
                raise Wrong("enough budget, and yet it was spent")
        self.judge(self.text, answer, "check", "f", "a", due=f"{verdict}\n")

    def compare(self, seed: int) -> str:
        small = problems.Small(seed)
        self.take(small.text())
        problem = reference.read(self.text)
        budget = small.random.choice([1, 2, 3, 5, DEFAULT_BUDGET] if small.is_hard else [1, 3, DEFAULT_BUDGET])
        words = ["solve", "f"] + (["--conflicts", str(budget)] if budget != DEFAULT_BUDGET else [])
        status, answer = self.run(*words)
        self.judge_answer(problem, status, answer, budget)
        if status and is_satisfiable(problem) != (status == 10):
            raise Wrong(f"status {status}, and trying all assignments says otherwise")
        if self.run(*words) != (status, answer):
            raise Wrong("a second run wrote other bytes")
        met = {predicate.meaning.kind for predicate in problem.predicates} or {"clauses"}
        return {10: "model", 20: "refutation", 0: "progress"}[status] + " " + "+".join(sorted(met))


if __name__ == "__main__":
    play(__doc__, Solved, "problems", 5000)
