"""Compares `check` with fuzz/reference.py on right answers and altered ones: answers.py [--rounds N] [--first SEED]

Each seed draws one small problem and a right answer to it (a model, a refutation with lemmas, or progress), in
version 1 or 2, which both have to accept; then altered answers, and the right one for an altered input. Answers are
migrated to the other version too: the right one there and back, which has to give it again, and now and then an
altered one. The same seeds give the same texts. The status is 0 exactly where no run differs.
"""

from __future__ import annotations

import argparse
import random

import kinds
import mutations
import problems
import reference
import refutations
from comparison import Comparison
from rounds import Rounds, play
from runs import Program, Wrong

ALTERED = 12  # altered answers a problem


class Answers(Rounds):
    """Right answers, and altered ones."""

    def __init__(self, program: Program, args: argparse.Namespace) -> None:
        super().__init__(program, args)
        self.comparison = Comparison(program, self.found)
        self.migrates = kinds.MIGRATE not in args.without
        self.drawn = random.Random()
        self.changes = mutations.Mutations(self.drawn)

    def compare(self, seed: int) -> str:
        """The runs on the right answer, and on altered ones."""
        self.drawn.seed(-seed)
        text = problems.Small(seed).text()
        rows = refutations.answer(reference.read(text), self.drawn)
        plain = self.changes.plain(rows)
        said = self.comparison.compare("check", text, plain)
        if not said.startswith("accepted"):
            raise Wrong(f"a right answer is due to be {said!r}: input {text!r}, answer {plain!r}")
        if self.migrates:
            rows = self.versioned(text, plain, said)
        self.alter(text, rows)
        self.comparison.compare("check", self.changes.input(text), self.changes.plain(rows))
        return "problems"

    def versioned(self, text: bytes, plain: bytes, said: str) -> list[mutations.Row]:
        """The rows of a right answer in version 1 or 2, which are compared before."""
        two = self.comparison.compare("migrate", text, plain, 2).encode()
        if self.comparison.compare("migrate", text, two, 1).encode() != plain:
            raise Wrong(f"a right answer isn't the same there and back: input {text!r}, answer {plain!r}")
        if self.drawn.choice([1, 2]) == 1:
            return rows_of(plain)
        if self.comparison.compare("check", text, two) != said:
            raise Wrong(f"the versions of a right answer are judged differently: input {text!r}, answer {two!r}")
        return rows_of(two)

    def alter(self, text: bytes, rows: list[mutations.Row]) -> None:
        """The runs on altered answers."""
        for _ in range(ALTERED):
            altered = [list(row) for row in rows]
            for _ in range(self.drawn.choice([1, 1, 1, 1, 2, 3])):
                if altered:
                    self.changes.alter(altered)
            made = self.changes.text(altered)
            self.comparison.compare("check", text, made)
            if self.migrates and self.drawn.random() < 0.1:
                self.comparison.compare("migrate", text, made, self.drawn.choice([1, 2]))


def rows_of(answer: bytes) -> list[mutations.Row]:
    """The tokens of the answer's rows."""
    return [line.split() for line in answer.decode().splitlines()]


if __name__ == "__main__":
    play(__doc__, Answers, "problems", 150)
