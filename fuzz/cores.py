"""Compares `core` and `check-with` with trying all assignments, on small problems: cores.py [--rounds N] [--first SEED]

Each seed makes one problem, mostly with some of its clauses left out, and up to ten assumptions, some of them over
variables that the problem lacks; an assumption may stand there twice, or beside its negation. A core has to be a
sublist of the assumptions, no assignment may satisfy the problem under it, and for each of its members there is a
model under the others, of exactly the variables that are left. Each answer is judged by fuzz/reference.py and by
`check-with`, which has to say of an altered answer, too, what the reference says of it over the problem with one more
clause for each assumption. The status is 0 exactly where nothing differs.
"""

from __future__ import annotations

import random

import mutations
import problems
import reference
from assignments import is_model, is_satisfiable
from reference import Problem
from rounds import Rounds, play
from runs import Wrong

STATUSES = {"s SATISFIABLE": 10, "s UNSATISFIABLE": 20}


def assuming(text: bytes, literals: list[int]) -> bytes:
    """The input with one more clause for each literal."""
    return text + "".join(f"{x} 0\n" for x in literals).encode()


def problem_under(text: bytes, literals: list[int]) -> Problem:
    """The problem with one more clause for each literal."""
    return reference.read(assuming(text, literals))


def is_sublist(some: list[int], literals: list[int]) -> bool:
    """Whether these are some of the literals, in their order."""
    left = iter(literals)
    return all(x in left for x in some)


def numbers(tokens: list[str]) -> list[int]:
    """The numbers of a list that ends with 0, which is left out."""
    found = [int(token) for token in tokens]
    if not found or found[-1] != 0 or 0 in found[:-1]:
        raise Wrong(f"a list without its end: {tokens}")
    return found[:-1]


class Cores(Rounds):
    """Problems under assumptions."""

    def judge_under(self, literals: list[int], answer: bytes, due: str = "") -> None:
        """`check-with`, or `check` where there is no assumption, says what the reference says."""
        verb = "check-with" if literals else "check"
        self.judge(assuming(self.text, literals), answer, verb, "f", "a", *literals, due=due)

    def core_of(self, literals: list[int], rows: list[mutations.Row]) -> list[int]:
        """The core that the first lines say, where each of its members has a model under the others."""
        if rows[0][:2] != ["c", "core"]:
            raise Wrong(f"no core, but {rows[0]}")
        core = numbers(rows[0][2:])
        if not is_sublist(core, literals):
            raise Wrong(f"{core} isn't a sublist")
        if is_satisfiable(problem_under(self.text, core)):
            raise Wrong(f"there is a model under {core}")
        if any(row[0] == "c" for row in rows[len(core) + 1 :]) or len(rows) < len(core) + 2:
            raise Wrong("not one need for each member of the core")
        for place, row in enumerate(rows[1 : len(core) + 1]):
            self.check_need(core, place, row)
        return core

    def check_need(self, core: list[int], place: int, row: mutations.Row) -> None:
        """The line is a model under the other members of the core."""
        if row[:3] != ["c", "needed", str(core[place])]:
            raise Wrong(f"no model for {core[place]}, but {row}")
        others = core[:place] + core[place + 1 :]
        if not is_model(problem_under(self.text, others), numbers(row[3:])):
            raise Wrong(f"no model under {others}: {row}")

    def answer_under(self, literals: list[int], drawn: random.Random) -> str:
        """The runs over these assumptions, and what they came to."""
        status, answer = self.run("core", "f", *literals)
        rows = [line.split(" ") for line in answer.decode().splitlines()]
        first = next((" ".join(row) for row in rows if row[0] != "c"), "")
        if STATUSES.get(first) != status:
            raise Wrong(f"status {status} with {answer!r}")
        if is_satisfiable(problem_under(self.text, literals)) != (status == 10):
            raise Wrong(f"status {status}, and trying all assignments says otherwise")
        core = self.core_of(literals, rows) if status == 20 else literals
        self.judge_under(core, answer, f"accepted {'model' if status == 10 else 'refutation'}\n")
        if self.run("core", "f", *literals) != (status, answer):
            raise Wrong("a second run wrote other bytes")
        changes = mutations.Mutations(drawn)
        changes.alter(rows)
        for under in (core, literals):
            self.judge_under(under, changes.text(rows))
        return "model" if status == 10 else f"core of {len(core)}"

    def compare(self, seed: int) -> str:
        small, drawn = problems.Small(seed), random.Random(-seed)
        self.take(problems.thinned(small.text(), drawn))
        most = max(reference.read(self.text).variables + drawn.choice([0, 0, 0, 1, 2]), 1)
        literals = [drawn.choice([-1, 1]) * drawn.randint(1, most) for _ in range(drawn.randint(1, 10))]
        return self.answer_under(literals, drawn)


if __name__ == "__main__":
    play(__doc__, Cores, "problems under assumptions", 1000)
