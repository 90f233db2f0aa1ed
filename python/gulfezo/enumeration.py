"""All models of a problem, one by one: each is ruled out by a clause before the next one is asked for."""

from __future__ import annotations

import time
from collections.abc import Generator, Iterable, Iterator
from typing import TYPE_CHECKING

from .best import restricted
from .errors import TimeSpent
from .limits import seconds_of, whole
from .literals import Literal, several
from .session import Session
from .solving import Folder
from .steps import Refutation

if TYPE_CHECKING:
    from .model import Model
    from .problem import Problem


class Models(Iterator["Model"]):
    """See `Problem.models`. `refutation` shows that there is no further model; it is None until all have come.

    It is a refutation of a copy of the problem, `refutation.problem`, which has a clause for each model that came. No
    run of the program goes on between two models.
    """

    def __init__(
        self,
        problem: Problem,
        over: Iterable[Literal] | None,
        limit: int | None,
        folder: Folder,
        program: str | None,
        progress: bool,
        budget: int | None,
        seconds: float | None,
    ) -> None:
        self.problem = problem
        self.refutation: Refutation | None = None
        chosen = range(1, problem.variables + 1) if over is None else numbers_of(problem, over)
        self._copied = problem.copy()
        self._chosen = [self._copied.literal(number) for number in chosen]
        self._left = None if limit is None else whole(limit, "a number of models")
        seconds = seconds_of(seconds)
        self._deadline = None if seconds is None else time.monotonic() + seconds
        self._session = Session(self._copied, folder, program, progress, budget, seconds)
        self._found = self._models()

    def __next__(self) -> Model:
        return next(self._found)

    def close(self) -> None:
        """Ends it early; its files go."""
        self._found.close()

    def _models(self) -> Generator[Model, None, None]:
        with self._session as session:
            while self._left is None or self._left > 0:
                seconds = None if self._deadline is None else self._deadline - time.monotonic()
                if seconds is not None and seconds <= 0:
                    raise TimeSpent("the time that was given is over, and there may be further models")
                answer = session.solve(seconds=seconds)
                if isinstance(answer, Refutation):
                    self.refutation = answer
                    return
                found = restricted(answer, self.problem)
                found.seconds = answer.seconds
                self._left = None if self._left is None else self._left - 1
                yield found
                self._copied.add_clause([~x if answer[x] else x for x in self._chosen])


def numbers_of(problem: Problem, over: Iterable[Literal]) -> list[int]:
    """The numbers of the literals, each variable once."""
    return list({problem.require_own(x).variable: x.number for x in several(over, "over")}.values())
