"""A problem's file that is kept, so that the next solve writes what is new alone."""

from __future__ import annotations

import contextlib
import os
from collections.abc import Iterable, Iterator
from pathlib import Path

from .problem import Mark, Problem

HEADER = "p gnf {:07d} {:07d}\n"  # as long whatever the numbers are, so that it can be written over


class KeptFile:
    """The file of a problem that grows: what stood there stays, and what is new is appended.

    Lines of a file come in any order, but that a graph is declared before it is named. Where more than clauses,
    variables and predicates have come, or where something has gone, the file is written anew.
    """

    def __init__(self, problem: Problem, path: Path) -> None:
        self.problem = problem
        self.path = path
        self.mark: Mark | None = None

    def write(self) -> None:
        """Makes the file that of the problem as it is."""
        mark, before = self.problem.mark(), self.mark
        self.mark = None
        if before is None or not self.has_grown(before, mark):
            with open(self.path, "w", encoding="utf-8", errors="replace", newline="\n") as file:
                file.write(HEADER.format(mark.variables, mark.clauses))
                file.writelines(self.problem.head_rows())
                file.writelines(self.problem.clauses.rows())
        elif before != mark:
            with open(self.path, "r+", encoding="utf-8", errors="replace", newline="\n") as file:
                file.write(HEADER.format(mark.variables, mark.clauses))
                file.seek(0, os.SEEK_END)
                new = range(before.variables + 1, mark.variables + 1)
                names = self.problem.names
                file.writelines(f"c variable {number} {names[number]}\n" for number in new if number in names)
                file.writelines(f"{x.word} {x.fields}\n" for x in self.problem.predicates[before.predicates :])
                file.writelines(self.problem.clauses.rows(before.clauses))
        self.mark = mark

    @staticmethod
    def has_grown(before: Mark, now: Mark) -> bool:
        """Whether only variables, predicates and clauses have come, and nothing has gone."""
        is_same = (before.nodes, before.edges, before.graphs) == (now.nodes, now.edges, now.graphs)
        return is_same and all(old <= new for old, new in zip(before, now))


@contextlib.contextmanager
def with_lines(path: Path, lines: Iterable[str]) -> Iterator[Path]:
    """Within it, the file has these lines behind its own."""
    size = path.stat().st_size
    try:
        with open(path, "a", encoding="utf-8") as file:
            file.writelines(f"{line}\n" for line in lines)
        yield path
    finally:
        os.truncate(path, size)
