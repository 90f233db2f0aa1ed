"""Compares `team` with trying all assignments, and judges whole boards: teams.py [--rounds N] [--first SEED]

Each seed makes one small problem and draws 1 to 8 workers and 1 to 3 rounds. A model has to be found exactly where
some assignment satisfies the problem, and a refutation has to be trimmed; fuzz/reference.py and `check` judge each
answer, an altered one too, and a second run has to write the same bytes. A few seeds make clauses that are too hard for
a few thousand conflicts: there the board has to have 1,000 learned clauses for each worker and round, and a chain names
clauses of the input, steps of its own turn, and those chains of earlier rounds that have at most 8 literals. The status
is 0 exactly where nothing differs.
"""

from __future__ import annotations

import random

import mutations
import problems
import reference
from assignments import is_satisfiable
from reference import Step
from rounds import Rounds, play
from runs import Wrong
from solve import STATUSES, check_is_trimmed

SLICE = 1000
MOST_TAKEN_LITERALS = 8
HARD = 300  # each so many seeds one makes hard clauses


def hard_clauses(drawn: random.Random) -> bytes:
    """Clauses of three literals over 250 variables, close to as many as rule all assignments out."""
    rows = []
    for _ in range(1065):
        literals = [drawn.choice([-1, 1]) * x for x in drawn.sample(range(1, 251), 3)]
        rows.append(f"{reference.row(*literals, 0)}\n")
    return "".join(rows).encode()


class Board:
    """The chains of a board, turn by turn: what a worker may name in its turn, and what the next round may name."""

    def __init__(self, first: int, workers: int) -> None:
        self.first, self.workers = first, workers
        self.turn_of: dict[int, int] = {}  # of each step
        self.taken: set[int] = set()  # chains that every worker has
        self.short: list[int] = []  # those of this round with few literals
        self.chains = 0

    def add(self, number: int, step: Step) -> None:
        """A step of the board. A lemma behind the last chain of a turn counts to the next one; no step names it."""
        turn = self.turn_of[number] = self.chains // SLICE
        if not step.is_chain:
            return
        if not step.literals:
            raise Wrong("an empty chain on a board without an answer")
        if self.chains % (SLICE * self.workers) == 0:
            self.taken.update(self.short)
            self.short = []
        for n in step.listed:
            if n >= self.first and n not in self.taken and self.turn_of[n] != turn:
                raise Wrong(f"turn {turn} names the step {n} of turn {self.turn_of[n]}")
        if len(step.literals) <= MOST_TAKEN_LITERALS:
            self.short.append(number)
        self.chains += 1


class Teams(Rounds):
    """Problems that workers solve together."""

    def played(self, workers: int, rounds: int) -> tuple[int, bytes]:
        """The status and the answer, which two runs have to have in common."""
        status, answer = self.run("team", "f", workers, rounds)
        if STATUSES.get(answer.split(b"\n")[0]) != status:
            raise Wrong(f"status {status} with {answer[:40]!r}")
        if self.run("team", "f", workers, rounds) != (status, answer):
            raise Wrong("a second run wrote other bytes")
        return status, answer

    def small(self, workers: int, rounds: int, drawn: random.Random) -> str:
        """The runs over a small problem."""
        problem = reference.read(self.text)
        status, answer = self.played(workers, rounds)
        if status == 0 or is_satisfiable(problem) != (status == 10):
            raise Wrong(f"status {status}, and trying all assignments says otherwise")
        if status == 20:
            check_is_trimmed(problem, answer)
        kind = "model" if status == 10 else "refutation"
        self.judge(self.text, answer, "check", "f", "a", due=f"accepted {kind}\n")
        rows = [line.split(" ") for line in answer.decode().splitlines()]
        changes = mutations.Mutations(drawn)
        changes.alter(rows)
        self.judge(self.text, changes.text(rows), "check", "f", "a")
        return kind

    def hard(self, workers: int, rounds: int) -> str:
        """The runs over clauses that are too hard for so few conflicts."""
        status, answer = self.played(workers, rounds)
        if status:
            verdict, kind = f"accepted {'model' if status == 10 else 'refutation'}", "hard clauses with an answer"
        else:
            first = len(reference.read(self.text).clauses) + 1
            board = Board(first, workers)
            for place, (line, tokens) in enumerate(list(reference.lines(answer))[1:]):
                board.add(first + place, reference.step_line(line, tokens))
            if board.chains != workers * rounds * SLICE:
                raise Wrong(f"{board.chains} chains of {workers} workers in {rounds} rounds")
            verdict, kind = f"accepted progress {board.chains}", "board"
        self.program.put("a", answer)
        found = self.run("check", "f", "a")
        if found != (0, f"{verdict}\n".encode()):
            raise Wrong(f"it says {found}, and not {verdict!r}")
        return kind

    def compare(self, seed: int) -> str:
        drawn = random.Random(-seed)
        rounds = drawn.randint(1, 3)
        if seed % HARD == 0:
            self.take(hard_clauses(drawn))
            return self.hard(drawn.randint(1, 3), rounds)
        self.take(problems.Small(seed).text())
        return self.small(drawn.randint(1, 8), rounds, drawn)


if __name__ == "__main__":
    play(__doc__, Teams, "teams", 1000)
