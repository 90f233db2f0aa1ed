"""What a problem can be asked: for an answer, a core, the best value, all models."""

from __future__ import annotations

import os
from collections.abc import Callable, Iterable, Sequence
from typing import TYPE_CHECKING, cast

from .literals import Literal, Predicate

if TYPE_CHECKING:
    from .best import Found, Incumbent, Incumbents
    from .cores import Core
    from .enumeration import Models
    from .in_turn import Greatest, Least
    from .model import Model
    from .objectives import Aim
    from .problem import Problem
    from .session import Session
    from .steps import Refutation

Path = str | os.PathLike[str]


class Unsaid(int):
    """A number that holds where nothing is said. Whoever gives the same one gives another object."""


BUDGET = Unsaid(100_000)  # learned clauses: seconds to minutes


class Asking:
    """The part of `Problem` that asks the program.

    All calls have these in common. Files are written into `folder`, or into a temporary one that goes again. `program`
    is the path of the program: see `gulfezo.program.find`. With `progress`, a line on standard error tells what is done
    and for how long, where that is more than a second. After `seconds` the program is ended, be it solving or checking.
    `budget` bounds the learned clauses of each search; None is no limit.

    `BudgetSpent`, `TimeSpent`: there is no answer within the budget or the time. What was learned by then is neither
    checked nor read; its file stays where a folder was asked for. `RejectedAnswer`: `check` doesn't accept what the
    program printed. `UnexpectedStatus`: it printed no answer. Both name the files, which stay. `ProgramMissing`: there
    is no program. However it ends, also by Ctrl-C, SIGTERM or SIGHUP, no run of the program is left behind.
    """

    @property
    def _asked(self) -> Problem:
        return cast("Problem", self)

    def solve(
        self,
        budget: int | None = BUDGET,
        folder: Path | None = None,
        program: str | None = None,
        progress: bool = True,
        *,
        seconds: float | None = None,
        conflicts: int | None = None,
        assumptions: Iterable[Literal] = (),
        workers: int | None = None,
        rounds: int | None = None,
    ) -> Model | Refutation:
        """A model, which is true in an `if`, or a refutation, which is false; `check` has accepted either.

        `assumptions` are up to 1,000 literals that are to be true in this one answer, and aren't clauses of the problem
        after it; `check-with` judges an answer under them, and `core` says which of them stand against each other.

        The files are `problem.gnf` and `answer`. `budget` is from 1, and 100,000 where it is left out; `conflicts` is
        another name of it. With `workers`, from 1 to 8, so many searches take turns and share what they learn, for up
        to `rounds` rounds, from 1 to 100 (10 where it is left out), in which each learns 1,000 clauses; that is their
        budget.
        """
        from . import solving

        if conflicts is not None and not isinstance(budget, Unsaid):
            raise ValueError("`conflicts` is another name of `budget`: give one of the two")
        spent = budget if conflicts is None else conflicts
        literals = list(solving.assumed(self._asked, assumptions))
        team = solving.team_of(workers, rounds, not isinstance(spent, Unsaid))
        run = solving.run_of(program, spent, seconds, progress)
        if team:
            run.form, run.team = "team", team
        problem = self._asked
        return solving.in_folder(folder, lambda place, keeps: solving.solve_in(place, problem, run, keeps, literals))

    def session(
        self,
        folder: Path | None = None,
        program: str | None = None,
        progress: bool = True,
        *,
        budget: int | None = BUDGET,
        seconds: float | None = None,
    ) -> Session:
        """Within `with problem.session() as session:`, each `session.solve()` writes what the problem has more alone.

        `seconds` are those of one solve.
        """
        from .session import Session

        return Session(self._asked, folder, program, progress, budget, seconds)

    def models(
        self,
        over: Iterable[Literal] | None = None,
        limit: int | None = None,
        folder: Path | None = None,
        program: str | None = None,
        progress: bool = True,
        *,
        budget: int | None = BUDGET,
        seconds: float | None = None,
    ) -> Models:
        """The models one by one, each judged by `check`; those that agree on all literals of `over` count as one.

        Where `over` is left out, it is all variables, which is rarely what is meant: a problem has variables of its own
        making. The problem stays as it is. At most `limit` models come. When all have come, `models.refutation` shows
        that there is no further one. `seconds` are those of the whole.
        """
        from .enumeration import Models

        return Models(self._asked, over, limit, folder, program, progress, budget, seconds)

    def core(
        self,
        assumptions: Iterable[Literal],
        folder: Path | None = None,
        program: str | None = None,
        progress: bool = True,
        *,
        seconds: float | None = None,
    ) -> Model | Core:
        """Which of the assumptions can't hold together, with why each is needed; or a model in which all of them hold.

        A core is false in an `if`, a model true. Both are judged by the program: see `Core`. The folder has the files
        `problem.gnf` and `answer`, and `needed-N` for a need that is a model. `BudgetSpent`: a search learned 100,000
        clauses before it was known whether the assumptions hold together.
        """
        from .cores import core

        return core(self._asked, assumptions, folder, program, progress, seconds)

    def minimise(
        self,
        aim: Aim,
        folder: Path | None = None,
        program: str | None = None,
        progress: bool = True,
        *,
        budget: int | None = BUDGET,
        seconds: float | None = None,
        on_improvement: Callable[[Incumbent], object] | None = None,
    ) -> Found:
        """The least value that a sum, a distance or a tree has over all models. The problem stays as it is.

        A `Best` has a model that attains it, and the refutation that shows that nothing is better. Where the budget or
        the time was spent after a model was found, it is an `Incumbent`: the best model so far, the best bound that was
        refuted, and the gap between them. A refutation, which is false, where there is no model with any value.

        The predicate's own bound, and whether it is to hold, don't matter. `budget` is that of each search on the way.
        `on_improvement` is called with each `Incumbent`, also the last one. `NoBound`: the least value is beyond 2^53,
        the greatest bound of the format. `BudgetSpent`, `TimeSpent`: not even one model was found.
        """
        return self._optimum(aim, False, folder, program, progress, budget, seconds, on_improvement)

    def maximise(
        self,
        aim: Aim,
        folder: Path | None = None,
        program: str | None = None,
        progress: bool = True,
        *,
        budget: int | None = BUDGET,
        seconds: float | None = None,
        on_improvement: Callable[[Incumbent], object] | None = None,
    ) -> Found:
        """The greatest value that a sum or a flow has over all models: see `minimise`. `NoBound`: a flow has any."""
        return self._optimum(aim, True, folder, program, progress, budget, seconds, on_improvement)

    def best(
        self,
        predicate: Predicate,
        folder: Path | None = None,
        program: str | None = None,
        progress: bool = True,
        *,
        budget: int | None = BUDGET,
        seconds: float | None = None,
        on_improvement: Callable[[Incumbent], object] | None = None,
    ) -> Found:
        """The best bound of a predicate: the greatest of a flow, the least of a distance or a tree; see `minimise`."""
        greatest = is_flow(predicate)
        return self._optimum(predicate, greatest, folder, program, progress, budget, seconds, on_improvement)

    def incumbents(
        self,
        aim: Aim,
        greatest: bool = False,
        folder: Path | None = None,
        program: str | None = None,
        progress: bool = True,
        *,
        budget: int | None = BUDGET,
        seconds: float | None = None,
    ) -> Incumbents:
        """An iterator over what `minimise` (or `maximise`, where the `greatest` is asked for) finds on its way.

        Each is an `Incumbent` that is better than the one before it, by its value or by its bound; the last one is what
        `minimise` gives. `close` ends it early.
        """
        from .best import Limits, incumbents

        return incumbents(self._asked, aim, greatest, folder, program, progress, Limits(budget, seconds))

    def in_turn(
        self,
        aims: Sequence[Least | Greatest],
        folder: Path | None = None,
        program: str | None = None,
        progress: bool = True,
        *,
        budget: int | None = BUDGET,
        seconds: float | None = None,
    ) -> list[Incumbent] | Refutation:
        """Several aims one after the other: the best of the first, and of the models that have it the best of the next.

        Each result is a `Best`, or an `Incumbent` where the budget was spent; the last one's model has all the values.
        `seconds` are those of the whole; where they are spent, aims behind that point have no result.
        """
        from .in_turn import in_turn

        return in_turn(self._asked, aims, folder, program, progress, budget, seconds)

    def _optimum(
        self,
        aim: Aim,
        greatest: bool,
        folder: Path | None,
        program: str | None,
        progress: bool,
        budget: int | None,
        seconds: float | None,
        on_improvement: Callable[[Incumbent], object] | None,
    ) -> Found:
        from .best import Limits, optimum

        limits = Limits(budget, seconds)
        return optimum(self._asked, aim, greatest, folder, program, progress, limits, on_improvement)


def is_flow(predicate: Predicate) -> bool:
    """Whether it is a predicate on flows. `ValueError`: it is no predicate at all."""
    from .literals import Kind

    if not isinstance(predicate, Predicate):
        raise ValueError(f"{predicate!r} is no predicate with a bound; of a sum minimise and maximise ask for the best")
    return predicate.kind is Kind.MAXIMUM_FLOW
