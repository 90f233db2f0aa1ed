"""Measures `team` beside `solve` on boards with so many cells on a side (20): team.py [SIZE..]

A row has the time and the conflicts of `solve`, and of `team FILE K R` the time, in how many turns of 1,000 conflicts
it ended, and what part of that time the beginnings of all turns but the first take. A beginning costs what `solve`
with a budget of one conflict takes more than `check` of an empty file. In the first round nothing is shared yet, so
there it is known which search found the answer; of a later round all turns are counted. Each answer is judged by
`check`, and so are the steps of a team that is out of turns, which has none. Times are processor times of whole runs.
No time is tested; the status is 1 where an answer is refused, the two differ, a run ends without an answer before its
limit, or no row of a size has both ended.
"""

from __future__ import annotations

import argparse
import sys
import tempfile
from collections.abc import Callable
from dataclasses import dataclass
from pathlib import Path

import flags
from families.boards import boards
from runs import ANSWERS, Run, Solver, Wrong, about, geometric_mean, is_idle, judged, ratio, timed

TURN = 1000  # conflicts


def least(most: int, holds: Callable[[int], bool]) -> int:
    """The least number from 1 up to this one from which on it holds; that it holds at the end isn't asked."""
    low, high = 1, most
    while low < high:
        middle = (low + high) // 2
        low, high = (low, middle) if holds(middle) else (middle + 1, high)
    return high


@dataclass
class Found:
    """A run of `team`, and in which round and turn its answer came, or the last ones."""

    run: Run
    rounds: int
    turns: int

    def text(self) -> str:
        """How it ended."""
        most = "" if self.rounds == 1 or not self.run.answered else " at most"
        return f"{self.run.name:8} {self.run.seconds:7.3f} s, {self.turns:3} turns{most}, round {self.rounds}"


class Teams(Solver):
    """`team` with so many searches and rounds, and what it is measured by."""

    wrong = ended = 0  # sizes of which no row has both ended; rows of a size that do

    def __init__(self, args: argparse.Namespace, folder: str) -> None:
        super().__init__(args.program, folder, args.limit)
        self.searches, self.rounds = args.searches, args.rounds

    def team(self, searches: int, rounds: int, out: str = "unused") -> Run:
        """The run of `team` on the input. `Wrong`: it ends by itself, and neither with an answer nor out of turns."""
        words = [self.program, "team", self.path("f"), str(searches), str(rounds)]
        run = timed(words, self.path(out), self.limit)
        if run.failed and run.status != 0:
            raise Wrong(f"team with {searches} searches and {rounds} rounds: {run.name}")
        return run

    def require(self, due: str) -> None:
        """`Wrong`: `check` says something else of what was written."""
        says = self.check()[1]
        if says != due:
            raise Wrong(f"check says {says!r}, where {due!r} is due")

    def found(self) -> Found:
        """The run with all searches and rounds, which is judged, and where in it the answer came."""
        run = self.team(self.searches, self.rounds, "a")
        turns = self.searches * self.rounds
        if run.stopped:
            return Found(run, self.rounds, turns)
        self.require(ANSWERS.get(run.status, f"accepted progress {TURN * turns}"))
        if not run.answered:
            return Found(run, self.rounds, turns)
        rounds = least(self.rounds, lambda r: self.team(self.searches, r).answered)
        turns = self.searches * rounds
        if rounds == 1:
            turns = least(self.searches, lambda k: self.team(k, 1).answered)
        return Found(run, rounds, turns)

    def beginning(self) -> float:
        """What a search costs before its first conflict. `Wrong`: one of the two runs ends otherwise than is due."""
        begun = self.solve(1, "unused")
        if not begun.answered and begun.status != 0:
            raise Wrong(f"solve with a budget of 1: {begun.name}")
        Path(self.path("empty")).write_text("")
        words = [self.program, "check", self.path("f"), self.path("empty")]
        read, says = judged(words, self.path("unused"), self.limit)
        if says != "rejected 1 NotAnswer (status 1)":
            raise Wrong(f"check of an empty answer: {says}")
        return max(0.0, begun.seconds - read.seconds)

    def row(self, label: str, text: str) -> float | None:
        """The ratio of `team` to `solve`, where both have an answer; prints the input's line."""
        self.put(text)
        alone = self.solve()
        if alone.answered:
            self.require(ANSWERS[alone.status])
        beginning, found = self.beginning(), self.found()
        both = alone.answered and found.run.answered
        if alone.failed or (both and alone.status != found.run.status):
            raise Wrong(f"solve {alone.name}, team {found.run.name}")
        self.ended += alone.answered and not found.run.stopped
        share = 100 * (found.turns - 1) * beginning / max(found.run.seconds, 0.001)
        conflicts = f"{self.conflicts():7} conflicts" if alone.answered else ""
        row = f"{label:14} solve {alone.name:8} {alone.seconds:7.3f} s {conflicts:17}, team {found.text()}"
        print(f"{row}, beginnings {share:.0f} %", flush=True)
        return ratio(found.run.seconds, alone.seconds) if both else None

    def size(self, args: argparse.Namespace, size: int) -> None:
        """The rows of a size."""
        self.ended = 0
        ratios: list[float] = []
        shape = ["--searches", args.searches, "--rounds", args.rounds, "--nets", args.nets]
        for seed in flags.seeds(args):
            label = f"{size}, seed {seed}"
            with about(f"board {label}", flags.again(args, *shape, "--only", seed, size)):
                found = self.row(label, boards((size, args.nets), seed).text())
            if found is not None:
                ratios.append(found)
        if ratios:
            print(f"{size}: geometric mean of team to solve {geometric_mean(ratios):.2f} of {len(ratios)} inputs")
        self.wrong += is_idle(f"size {size}", self.ended, self.limit)


def arguments() -> argparse.Namespace:
    """What the command's words say."""
    parser = flags.parser(__doc__)
    add = parser.add_argument
    add("--searches", metavar="K", type=flags.positive, default=4, help="searches that take turns (%(default)s)")
    add("--rounds", metavar="R", type=flags.positive, default=8, help="rounds of their turns (%(default)s)")
    add("--nets", metavar="N", type=int, default=6, help="nets of a board (%(default)s)")
    flags.add_seeds(parser, 10)
    add("sizes", nargs="*", type=int, metavar="SIZE", default=[20])
    return parser.parse_args()


def main() -> None:
    args = arguments()
    with tempfile.TemporaryDirectory() as folder:
        teams = Teams(args, folder)
        for size in args.sizes:
            teams.size(args, size)
    sys.exit(1 if teams.wrong else 0)


if __name__ == "__main__":
    main()
