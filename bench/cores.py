"""Measures `core` on inputs that have no model under their assumptions.

cores.py [SIZE..]                            boards with so many cells on a side (16 and 20): of 50 nets none is asked
                                             for, and each one's predicate is an assumption
cores.py --clauses [SIZE..]                  random clauses over so many variables (30 and 40), six for each variable,
                                             each under an assumption of its own; beside it PicoSAT's `picomus` on the
                                             clauses (Debian's picosat)

A row says how long the first refutation takes (`solve` with one more clause for each assumption), how long `core`
takes, how many assumptions are left, for how many of these a model shows that they are needed, and a ratio that should
be at most 1: on boards to 3 times the first refutation's time and 0.2 of it for each assumption that is left, on
clauses to twice picomus' time. Each core is judged by `check-with`. Times are processor times of whole runs. No time is
tested; the status is 1 where a core is refused, a run ends without one before its limit, or none of a size has one.
"""

from __future__ import annotations

import argparse
import random
import sys
import tempfile
from dataclasses import dataclass
from pathlib import Path

import flags
from families.boards import routed
from families.encoding import Encoding
from runs import ANSWERS, Run, Solver, about, is_idle, judged, ratio, timed

NETS = 50


@dataclass
class Input:
    """An input, and the literals that are assumed."""

    made: Encoding
    assumed: list[int]

    def text(self, assuming: bool) -> str:
        """The input's text, with one more clause for each assumption or without them."""
        kept = list(self.made.clauses)
        self.made.clauses += [(x,) for x in self.assumed] if assuming else []
        text = self.made.text()
        self.made.clauses = kept
        return text


def board(cells: int, seed: int) -> Input:
    """A board as in the family `routing`, whose nets are only assumed."""
    made = routed(cells, NETS, cells * cells // 8, seed)
    asked = [clause[0] for clause in made.clauses if len(clause) == 1 and clause[0] > 0]
    made.clauses = [clause for clause in made.clauses if len(clause) > 1 or clause[0] < 0]
    return Input(made, asked)


def plain_clauses(variables: int, seed: int) -> list[list[int]]:
    """Random clauses of three literals, six for each variable."""
    drawn = random.Random(seed)
    of_three = [drawn.sample(range(1, variables + 1), 3) for _ in range(6 * variables)]
    return [[drawn.choice([-1, 1]) * x for x in clause] for clause in of_three]


def selected(variables: int, clauses: list[list[int]]) -> Input:
    """The clauses, each under an assumption of its own."""
    made = Encoding()
    made.variables = variables
    for clause in clauses:
        made.clause(-made.variable(), *clause)
    return Input(made, list(range(variables + 1, made.variables + 1)))


def unselected(variables: int, clauses: list[list[int]]) -> str:
    """The text of the clauses."""
    made = Encoding()
    made.variables = variables
    made.clauses = list(clauses)
    return made.text()


class Cores(Solver):
    """`core` and what it is measured by."""

    wrong = 0

    def first(self, given: Input) -> Run:
        """The run of `solve` under all assumptions."""
        self.put(given.text(True))
        return self.solve()

    def core(self, given: Input) -> Run:
        """The run of `core`."""
        self.put(given.text(False))
        return timed([self.program, "core", self.path("f"), *map(str, given.assumed)], self.path("a"), self.limit)

    def picomus(self, text: str) -> Run:
        """The run of picomus on clauses."""
        self.put(text)
        return timed(["picomus", self.path("f")], self.path("unused"), self.limit)

    def found(self) -> tuple[list[str], int]:
        """The core that was written, and how many of its members are needed for a model's sake."""
        lines = Path(self.path("a")).read_text(errors="replace").splitlines()
        notes = [line.split() for line in lines if line.startswith("c ")] or [[]]
        return notes[0][2:-1], sum(words[1:2] == ["needed"] for words in notes)

    def judge(self) -> None:
        """Says where `check-with` refuses the core."""
        core, _ = self.found()
        form = "check-with" if core else "check"
        words = [self.program, form, self.path("f"), self.path("a"), *core]
        says = judged(words, self.path("verdict"), 10 * self.limit)[1]
        if says != ANSWERS[20]:
            self.wrong += 1
            print(f"  WRONG {form}: {says}")

    def row(self, label: str, given: Input, clauses: str | None) -> bool:
        """Prints a row of the table, and returns whether there is a core; the clauses are what picomus reads."""
        theirs = self.picomus(clauses) if clauses else Run(0, 20)
        first, whole = self.first(given), self.core(given)
        both = f"{label:14} {first.name:8} {first.seconds:8.3f} s, core {whole.name:8} {whole.seconds:8.3f} s"
        if any(run.status != 20 for run in (theirs, first, whole)):
            # none of the inputs has a model
            failed = any(run.status != 20 and not run.stopped for run in (theirs, first, whole))
            self.wrong += failed
            print(f"{'WRONG ' * failed}{both}", flush=True)
        else:
            core, models = self.found()
            aim = 2 * theirs.seconds or (3 + 0.2 * len(core)) * first.seconds
            left = f"{len(core)} of {len(given.assumed)} left, {models} models"
            print(f"{both}, {left}, ratio {ratio(whole.seconds, aim):.2f}", flush=True)
        if whole.status == 20:
            self.judge()
        return first.status == whole.status == 20

    def size(self, args: argparse.Namespace, size: int) -> None:
        """The rows of a size."""
        answers = 0
        for seed in flags.seeds(args):
            label = f"{size}, seed {seed}"
            clauses = plain_clauses(size, seed) if args.clauses else None
            given = selected(size, clauses) if clauses else board(size, seed)
            text = unselected(size, clauses) if clauses else None
            command = flags.again(args, *["--clauses"] * args.clauses, "--only", seed, size)
            with about(f"{'clauses' if args.clauses else 'board'} {label}", command):
                answers += self.row(label, given, text)
        self.wrong += is_idle(f"size {size}", answers, self.limit)


def arguments() -> argparse.Namespace:
    """What the command's words say."""
    parser = flags.parser(__doc__)
    add = parser.add_argument
    add("--clauses", action="store_true", help="clauses in place of boards")
    flags.add_seeds(parser, 3)
    add("sizes", nargs="*", type=int, metavar="SIZE")
    args = parser.parse_args()
    args.sizes = args.sizes or ([30, 40] if args.clauses else [16, 20])
    return args


def main() -> None:
    args = arguments()
    with tempfile.TemporaryDirectory() as folder:
        cores = Cores(args.program, folder, args.limit)
        for size in args.sizes:
            cores.size(args, size)
    sys.exit(1 if cores.wrong else 0)


if __name__ == "__main__":
    main()
