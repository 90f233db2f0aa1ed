"""The tables that solve.py prints: of one program, and of two beside each other."""

from __future__ import annotations

import collections
import os
import shutil
from collections.abc import Callable, Iterable
from dataclasses import dataclass
from typing import Any

import runs
from families.catalogue import Family, Input

COUNTED = 3  # seconds: the conflicts of a longer run aren't counted
# By a family and an input of it, the command that measures that one again.
Again = Callable[[str, Input], str]


@dataclass
class Row:
    """One input: the run of `solve`, and, where it ended, what `check` says and costs."""

    run: runs.Run
    says: str = ""
    check: float = 0
    size: int = 0
    conflicts: int | None = None
    minisat: runs.Run | None = None

    @property
    def right(self) -> bool:
        """Whether `check` accepts the answer, and MiniSat says nothing else; only the limit excuses a lack of it."""
        if not self.run.answered:
            return self.run.stopped
        theirs = self.minisat
        agrees = theirs is None or not theirs.answered or theirs.status == self.run.status
        return self.says == runs.ANSWERS[self.run.status] and agrees

    def text(self) -> str:
        """The input's line."""
        text = f"{self.run.name:8} {self.run.seconds:8.3f} s"
        if self.run.answered:
            counted = "" if self.conflicts is None else f"{self.conflicts:8} conflicts"
            text += f"{counted} {self.size:10} bytes, check {self.check:7.3f} s, {self.says}"
        if self.minisat is not None:
            text += f", MiniSat {self.minisat.name} {self.minisat.seconds:.3f} s"
        return text if self.right else "WRONG " + text


class Table:
    """The rows of one program, and the sums of each family."""

    def __init__(self, solver: runs.Solver, again: Again, count_conflicts: bool) -> None:
        self.solver, self.again, self.count_conflicts = solver, again, count_conflicts
        self.families: list[tuple[str, list[Row]]] = []
        self.wrong = 0  # answers, and families without any

    def family(self, name: str, family: Family[Any], inputs: Iterable[Input]) -> None:
        """Measures these inputs; prints a line for each."""
        rows = []
        for given in inputs:
            with runs.about(f"{name} {given.label}", self.again(name, given)):
                self.solver.put(given.make().text())
                rows.append(self.row(family.clauses_alone))
            print(f"{name:12} {given.label:22} {rows[-1].text()}", flush=True)
        self.families.append((name, rows))
        self.wrong += sum(not row.right for row in rows)
        self.wrong += runs.is_idle(name, sum(row.run.answered for row in rows), self.solver.limit)

    def row(self, clauses_alone: bool) -> Row:
        """The runs on the input in the solver's folder."""
        row = Row(self.solver.solve())
        if row.run.answered:
            checked, row.says = self.solver.check()
            row.check, row.size = checked.seconds, os.path.getsize(self.solver.path("a"))
            if self.count_conflicts and row.run.seconds < COUNTED:
                row.conflicts = self.solver.conflicts()
        if clauses_alone and shutil.which("minisat"):
            row.minisat = runs.minisat(self.solver.folder, self.solver.limit)
        return row

    def summary(self) -> None:
        """Prints the sums of each family."""
        heads = ["Family", "Inputs", "Models, refutations, at the limit", "`solve`", "Conflicts", "Answers", "`check`"]
        heads += ["MiniSat", "to MiniSat"]
        print(f"\n| {' | '.join(heads)} |\n{'|---' * len(heads)}|")
        for name, rows in self.families:
            print(f"| {name} | {' | '.join(sums(rows))} |")


def sums(rows: list[Row]) -> list[str]:
    """The cells of a family. Runs at the limit are counted, and left out of the sums."""
    ended = [row for row in rows if row.run.answered]
    split = [sum(row.run.status == status for row in ended) for status in runs.ANSWERS] + [len(rows) - len(ended)]
    cells = [str(len(rows)), ", ".join(map(str, split)), f"{sum(row.run.seconds for row in ended):.2f} s"]
    counted = [row.conflicts for row in ended if row.conflicts is not None]
    runs_counted = f" ({len(counted)} runs)" if len(counted) < len(ended) else ""
    cells.append(f"{sum(counted)}{runs_counted}" if counted else "")
    cells += [f"{sum(row.size for row in ended) // 1000} kB", f"{sum(row.check for row in ended):.2f} s"]
    both = [(row.run.seconds, row.minisat.seconds) for row in ended if row.minisat is not None]
    if both:
        ratios = [runs.ratio(ours, theirs) for ours, theirs in both]
        cells += [f"{sum(theirs for _, theirs in both):.2f} s", f"{runs.geometric_mean(ratios):.2f}"]
    return cells + [""] * (8 - len(cells))


class Ratios:
    """Two programs on the same inputs, in turn; the ratio is new to old."""

    def __init__(self, old: runs.Solver, new: runs.Solver, again: Again) -> None:
        self.solvers = {"old": old, "new": new}
        self.again = again
        self.wrong = 0  # inputs, and families of which one of the two answers none
        self.sums: list[tuple[str, list[float]]] = []
        self.answers: collections.Counter[str] = collections.Counter()  # of the family, by program

    def family(self, name: str, _: Family[Any], inputs: Iterable[Input]) -> None:
        """Measures these inputs; prints a line for each."""
        self.answers.clear()
        ratios = []
        for given in inputs:
            with runs.about(f"{name} {given.label}", self.again(name, given)):
                found = self.ratio(f"{name:12} {given.label:22}", given)
            if found is not None:
                ratios.append(found)
        for which, solver in self.solvers.items():
            self.wrong += runs.is_idle(f"{name}, the {which} program", self.answers[which], solver.limit)
        if ratios:
            self.sums.append((name, ratios))

    def answer(self, which: str) -> tuple[runs.Run, str]:
        """The run of one of the two, and what its own `check` says of the answer."""
        solver = self.solvers[which]
        run = solver.solve()
        if not run.answered:
            return run, "-"
        self.answers[which] += 1
        return run, solver.check()[1]

    def ratio(self, label: str, given: Input) -> float | None:
        """Of one input. A run at the limit counts with it, so that the ratio is a bound; a wrong one has none."""
        self.solvers["new"].put(given.make().text())
        (old, old_says), (new, says) = both = self.answer("old"), self.answer("new")
        row = f"{label} old {old.name:8} {old.seconds:8.3f} s, new {new.name:8} {new.seconds:8.3f} s"
        failed = any(run.failed or (run.answered and says != runs.ANSWERS[run.status]) for run, says in both)
        if failed or (old.answered and new.answered and old.status != new.status):
            self.wrong += 1
            print(f"WRONG {row}, {old_says}, {says}", flush=True)
            return None
        found = runs.ratio(new.seconds, old.seconds)
        print(f"{row}, ratio {found:7.3f}, {says}", flush=True)
        return found

    def summary(self) -> None:
        """Prints the geometric means of the families, and that of all."""
        print()
        means = [runs.geometric_mean(ratios) for _, ratios in self.sums]
        for mean, (name, ratios) in zip(means, self.sums):
            least_and_most = f"({min(ratios):.3f} to {max(ratios):.3f})"
            print(f"{name:12} {len(ratios):3} inputs: geometric mean of new to old {mean:.3f} {least_and_most}")
        if means:
            print(f"{'all':12} geometric mean of the families {runs.geometric_mean(means):.3f}")
