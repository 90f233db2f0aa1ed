"""Solving a problem again and again while it grows: its file is kept, and what is new is appended to it."""

from __future__ import annotations

import contextlib
from collections.abc import Iterable
from types import TracebackType
from typing import TYPE_CHECKING, Self

from . import program as programs
from .kept import KeptFile
from .solving import Folder, assumed, folder_of, run_of, solve_in

if TYPE_CHECKING:
    from .literals import Literal
    from .model import Model
    from .problem import Problem
    from .steps import Refutation


class Session:
    """See `Problem.session`."""

    def __init__(
        self,
        problem: Problem,
        folder: Folder = None,
        program: str | None = None,
        progress: bool = True,
        budget: int | None = None,
        seconds: float | None = None,
    ) -> None:
        run_of(program, budget, seconds, progress)  # what is wrong is said at once
        self.problem = problem
        self._folder = folder
        self._program, self._budget, self._seconds, self._progress = program, budget, seconds, progress
        self._open = contextlib.ExitStack()
        self._file: KeptFile | None = None

    def __enter__(self) -> Self:
        self._place, self._keeps = self._open.enter_context(folder_of(self._folder))
        self._file = KeptFile(self.problem, self._place / "problem.gnf")
        return self

    def __exit__(self, kind: type[BaseException] | None, fault: BaseException | None, at: TracebackType | None) -> None:
        self._file = None
        self._open.__exit__(kind, fault, at)

    def solve(self, assumptions: Iterable[Literal] = (), seconds: float | None = None) -> Model | Refutation:
        """As `Problem.solve`, of the problem as it is now."""
        if self._file is None:
            raise ValueError("a session is open within `with problem.session() as session:`")
        literals = list(assumed(self.problem, assumptions))
        run = run_of(self._program, self._budget, self._seconds if seconds is None else seconds, self._progress)
        with programs.tidy_on_signals():
            with run.phase("writing", "writing what is new"):
                self._file.write()
            return solve_in(self._place, self.problem, run, self._keeps, literals, writes=False)
