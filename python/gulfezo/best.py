"""The best bound of a predicate and the best value of a sum: incumbents on the way there, each with its proofs.

A search asks for less than the model at hand has, and goes down from the value that each new model has by itself. Its
steps double while that is easy, and one that is refuted bounds the value. Where even one less is hard, it is bounded by
what can be refuted more easily, before the whole budget goes into that one question.
"""

from __future__ import annotations

import shutil
import time
from collections.abc import Callable, Generator, Iterator
from dataclasses import dataclass
from pathlib import Path
from typing import TYPE_CHECKING, Literal as Constant, NoReturn

from . import program as programs
from .asking import BUDGET
from .answer import accepted, values_in
from .errors import BudgetSpent, FormatError, GulfezoError, NotSolved, RejectedAnswer, TimeSpent, UnexpectedStatus
from .kept import with_lines
from .limits import MOST_BOUND
from .model import Model, Values
from .objectives import Aim, Objective
from .problem import Problem
from .reasons import explained
from .solving import Folder, Run, folder_of, is_progress, run_of, unexpected, write
from .statistics import Statistics
from .steps import Refutation

MODEL, REFUTATION, SPENT = 10, 20, 0  # exit codes of `solve`
# Learned clauses after which a question is hard, and those of an easy one: some, and more in a large problem, of which
# reading it costs as much.
HARD, EASY, SIZE_OF_ONE = 10_000, 100, 100
FEW = 8  # questions that look for what bounds the value
SMALL = 10_000  # variables and literals of a problem of which `best` takes no longer than `solve` again and again


class NoBound(GulfezoError):
    """There is no best value within the format's numbers: a flow may be as great as one likes, or a sum, a distance or
    a tree is greater than 2^53 in every model."""


@dataclass(frozen=True)
class Incumbent:
    """The best model so far.

    `model` has the `value`, and `check` has accepted it as one that has. `bound` is the best value that isn't refuted:
    no model is better, which `refutation` shows; `check` has accepted it too. Both are None where nothing is refuted.
    Each was judged against the text that the program's `ask` prints for its bound; `refutation.problem` is that
    problem, with its names: it has a further predicate, and a clause that requires it.

    `kept` is the same model of a copy of the problem as it was then, `kept.problem`, which can be drawn and written
    after the problem itself has grown.
    """

    value: int
    model: Model
    kept: Model
    bound: int | None
    refutation: Refutation | None
    statistics: Statistics

    def __bool__(self) -> Constant[True]:
        return True

    @property
    def gap(self) -> int | None:
        """How far the value is from the bound: 0 where nothing is better, None where nothing is refuted."""
        return None if self.bound is None else abs(self.value - self.bound)

    @property
    def is_best(self) -> bool:
        """Whether it is known that nothing is better."""
        return self.gap == 0

    def __repr__(self) -> str:
        known = f", gap {self.gap}" if self.gap else "" if self.is_best else ", nothing refuted"
        return f"<{type(self).__name__.lower()} {self.value}{known}>"

    def _repr_svg_(self) -> str | None:
        """Its model as a picture, which Jupyter shows."""
        return self.kept._repr_svg_()

    if not TYPE_CHECKING:  # of a type checker these names stay unknown

        def __getattr__(self, name: str) -> NoReturn:
            raise AttributeError(f"a best value has no {name!r}; what a model has its `model` has")

        def __getitem__(self, thing: object) -> NoReturn:
            raise TypeError(f"a best value has no value of {thing!r}: `best.model[..]` has one, `best.value` its own")


@dataclass(frozen=True, repr=False)
class Best(Incumbent):
    """The best value over all models: the greatest of a flow, the least of a distance or a tree, and of a sum either.

    Its `refutation` shows that no model has the next better one. `bound` is its value.
    """

    bound: int
    refutation: Refutation


Found = Incumbent | Refutation


@dataclass
class Limits:
    """What bounds a search: learned clauses of each of its solves, and seconds of all of them."""

    budget: int | None
    seconds: float | None


class Incumbents(Iterator[Found]):
    """What a search for the best value finds, better and better, until `close`, or until it is over.

    The last one is a `Best`, or an `Incumbent` where the budget or the time was spent, or a `Refutation` where there is
    no model at all. No run of the program goes on between two of them; SIGTERM then ends the process at once, and the
    temporary folder stays.
    """

    def __init__(self, found: Generator[Found, None, None]) -> None:
        self._found = found

    def __next__(self) -> Found:
        with programs.tidy_on_signals():
            return next(self._found)

    def close(self) -> None:
        """Ends the search; its files go."""
        self._found.close()


def incumbents(
    problem: Problem,
    aim: Aim,
    greatest: bool,
    folder: Folder,
    program: str | None,
    progress: bool,
    limits: Limits,
    each: bool = True,
) -> Incumbents:
    """See `Problem.incumbents`. Unless `each` is wanted the last one comes alone."""
    objective = Objective(problem, aim, greatest)
    run = run_of(program, limits.budget, limits.seconds, progress)
    is_plain = not each and run.deadline is None and run.budget in (None, BUDGET)

    def found() -> Generator[Found, None, None]:
        with folder_of(folder) as (place, _):
            yield from Descent(objective, run, place, is_plain).found(each)

    return Incumbents(found())


def optimum(
    problem: Problem,
    aim: Aim,
    greatest: bool,
    folder: Folder,
    program: str | None,
    progress: bool,
    limits: Limits,
    on_improvement: Callable[[Incumbent], object] | None = None,
) -> Found:
    """The last one of the incumbents; see `Problem.minimise`."""
    each = on_improvement is not None
    with programs.tidy_on_signals():
        for found in incumbents(problem, aim, greatest, folder, program, progress, limits, each):
            if on_improvement is not None and isinstance(found, Incumbent):
                on_improvement(found)
    return found


@dataclass
class Held:
    """What `solve` printed into a file: a model, which has the cost, or a refutation, which rules it out.

    The model is one of the copy, and has a variable more. The refutation is read where it is judged.
    """

    cost: int
    file: Path
    model: Model | None = None
    refutation: Refutation | None = None
    is_judged: bool = False


class Descent:
    """A search for the least cost, with the files `problem.gnf`, `probe.gnf` and `answer` in a folder.

    Only the last model and the last refutation matter, so they are judged where they are handed out. Where the time is
    limited, a refutation is judged at once, and so is the first model; of a later one `sure` is the last before it that
    was judged, should there be no time for it.

    Where the last one alone is wanted and no limit was given (`is_plain`), bounds on the way are of no use; and of a
    small problem the program's `best`, which gives all or nothing, is asked once a question was hard (`asks_best`).
    """

    def __init__(self, objective: Objective, run: Run, place: Path, is_plain: bool = False) -> None:
        self.objective = objective
        self.run = run
        self.place = place
        self.model: Held | None = None
        self.sure: Held | None = None
        self.refutation: Held | None = None
        size = objective.copied.variables + len(objective.copied.clauses.flat)
        self.easy = min(HARD, EASY + size // SIZE_OF_ONE)
        self.is_plain, self.is_hard = is_plain, False
        self.asks_best = is_plain and size <= SMALL
        self.searches = self.learned = 0
        self.to_judge = 0.0  # seconds to keep for judging a model

    @property
    def cost(self) -> int:
        """The cost of the best model, and of the weakest question where there is none."""
        return self.objective.weakest if self.model is None else self.model.cost

    @property
    def least(self) -> int | None:
        """The least cost that isn't refuted."""
        return None if self.refutation is None else self.refutation.cost + 1

    def note(self, phase: str = "solving") -> str:
        """The line that tells of progress."""
        parts = [f"searches: {self.searches}", f"learned clauses: {self.learned} or more"]
        if self.model is not None:
            parts.append(f"best: {self.objective.value(self.cost)}")
        if self.least is not None:
            parts.append(f"bound: {self.objective.value(self.least)}")
        if self.model is not None and self.least is not None:
            parts.append(f"gap: {self.cost - self.least}")
        return f"looking for the best value of {self.objective.name}, {phase} ({', '.join(parts)})"

    def found(self, each: bool) -> Iterator[Found]:
        """Each improvement, or the last one alone, until nothing is better, or the budget or the time is spent.

        `BudgetSpent`, `TimeSpent`: not even one model was found.
        """
        write(self.objective.copied, self.place / "problem.gnf", self.run)
        shutil.copyfile(self.place / "problem.gnf", self.place / "probe.gnf")
        reason = "the budget of learned clauses is spent"
        error: type[NotSolved] = BudgetSpent
        try:
            for end in self.improvements():
                if end is not None:
                    yield end
                    return
                if each:
                    yield self.incumbent()
        except TimeSpent:
            reason, error = "the time that was given is over", TimeSpent
        if self.model is None:
            raise error(f"{reason}, and no model was found before")
        if not each:
            yield self.last()
        if self.least is None or self.least < self.cost:
            programs.LOG.info("%s: %s", reason, self.note())

    def improvements(self) -> Iterator[Refutation | None]:
        """The refutation that there is no model; or after the first model, and after each of what is better, None."""
        first = self.ask(self.objective.weakest, self.run.budget)
        if first is None:
            return
        if first.model is None:
            yield self.hopeless(first)
            return
        yield None
        yield from self.descend()

    def descend(self) -> Iterator[None]:
        """Improvements of the model at hand and of what bounds it, until they meet or the budget is spent.

        A step of more than one that was too hard isn't tried again before twice as many models as the last time. Behind
        a model that is better by a quarter steps stay as they are: the search goes down by itself.
        """
        budget: int | None = self.within(HARD)
        step, waits, pause, is_bounded = 1, 0, 1, self.is_plain
        while self.least is None or self.least < self.cost:
            least, before = self.objective.strongest if self.least is None else self.least, self.cost
            answer = self.ask(max(before - step, least), budget if step == 1 else self.within(self.easy))
            if answer is None and self.asks_best:
                self.asks_best = False
                if self.rest():
                    yield None
                    continue
            if answer is not None:
                waits = max(0, waits - 1)
                if answer.model is None:
                    step = max(1, step // 2)
                elif waits:
                    step = 1
                elif before - self.cost <= abs(before) // 4:
                    step = 2 * step
                yield None
            elif step > 1:
                if not is_bounded:
                    is_bounded = True
                    yield from self.bounds(self.within(self.easy), step)
                step, waits, pause = 1, pause, 2 * pause
            elif self.is_hard:
                return
            else:
                self.is_hard, cost = True, self.cost
                yield from self.bounds(self.within(HARD // 4), step)
                if budget == self.run.budget and cost == self.cost:
                    return
                budget = self.run.budget

    def bounds(self, budget: int | None, near: int) -> Iterator[None]:
        """What bounds the value: between a step that is too hard and one that is refuted, each time the middle one."""
        far = None if self.least is None else self.cost - self.least + 1
        room = abs(self.cost) // 2
        for _ in range(FEW):
            room = max(room, 2 * near) if far is None else (near + far) // 2
            if far is not None and room <= near:
                return
            target = max(self.cost - room, self.objective.strongest)
            answer = self.ask(target, budget)
            if answer is None:
                if target == self.objective.strongest:
                    return
                near = room
            else:
                yield None
                if answer.model is not None:
                    return
                far = self.cost - target

    def rest(self) -> bool:
        """Goes the whole way by the program's `best`, where it comes to the end.

        Its searches begin with the signs of the last model, so they learn less than those of `solve`.
        """
        printed, number = self.place / "answer", str(self.objective.predicate.predicate_number)
        with open(printed, "wb") as out, self.run.phase("solving", self.note):
            status = programs.run([self.run.program, "best", str(self.place / "problem.gnf"), number], out)
        with open(printed, "rb") as lines:
            head, model = lines.readline(100).split(), lines.readline().split()
        if status != MODEL or head[:2] != [b"c", b"best"] or model[:2] != [b"c", b"v"]:
            return False
        bound, kept = int(head[2]), printed.replace(self.place / "best")
        printed.write_bytes(b" ".join([b"s SATISFIABLE\nv", *model[2:]]) + b"\n")
        self.take_model(printed)
        self.take_refutation(kept, (-bound if self.objective.is_flow else bound) - 1)
        return True

    def within(self, budget: int) -> int:
        """So many learned clauses, or the whole budget where it is less."""
        return budget if self.run.budget is None else min(budget, self.run.budget)

    def ask(self, cost: int, budget: int | None) -> Held | None:
        """A model of at most that cost or a refutation, which is kept; None where the budget is spent."""
        printed, probe = self.place / "answer", self.place / "probe.gnf"
        self.searches += 1
        run = Run(self.run.program, budget, self.run.deadline, self.run.progress, seconds=self.run.seconds)
        if run.deadline is not None and self.model is not None and not self.model.is_judged:
            run.deadline -= self.to_judge
        with with_lines(probe, self.objective.lines(cost)), open(printed, "wb") as out:
            with run.phase("solving", self.note):
                status = programs.run([run.program, "solve", str(probe), *run.limit()], out, run.deadline)
        if status == SPENT and is_progress(printed):
            self.learned += budget or 0
            return None
        if status == MODEL:
            return self.take_model(printed)
        if status == REFUTATION:
            return self.take_refutation(printed, cost)
        raise unexpected(status, run, self.place / "problem.gnf", printed)

    def take_model(self, printed: Path) -> Held:
        """Keeps the model in that file, as one of the cost that it has by itself."""
        copied = self.objective.copied
        try:
            model = Model(copied, values_in(printed, copied.variables + 1), "")
        except FormatError as fault:
            said = f"solve ended with 10, and its model isn't understood: {fault}"
            raise UnexpectedStatus(said, self.place / "problem.gnf", printed) from fault
        cost = self.objective.cost_in(model)
        found = Held(cost, printed.replace(self.place / "model"), model)
        if self.model is not None and self.model.is_judged:
            self.sure = self.model
        is_endless = self.objective.is_flow and -cost > MOST_BOUND
        if is_endless or self.run.deadline is not None and self.sure is None:
            began = time.monotonic()
            self.judge(found)
            self.to_judge = 0.2 + 3 * (time.monotonic() - began)
        if is_endless:
            raise NoBound(f"{self.objective.name} has models with every bound up to 2^53")
        self.model = found
        return found

    def take_refutation(self, printed: Path, cost: int) -> Held:
        """Keeps the refutation in that file, as one of what `ask` prints for that cost."""
        with open(printed, "rb") as lines:
            self.learned += sum(line.startswith(b"chain") for line in lines)
        found = Held(cost, printed.replace(self.place / "refutation"))
        if self.run.deadline is not None:
            self.judge(found)
        self.refutation = found
        return found

    def judge(self, held: Held) -> None:
        """Has `check` accept the answer, for the text that `ask` prints for its cost, unless it did so before."""
        if held.is_judged:
            return
        word = "refutation" if held.model is None else "model"
        bound, asked, copied = self.objective.bound(held.cost), held.file.with_suffix(".gnf"), self.objective.copied
        number = str(self.objective.predicate.predicate_number)
        words = [self.run.program, "ask", str(self.place / "problem.gnf"), number, str(bound)]
        with self.run.phase("checking", lambda: self.note("checking")):
            with open(asked, "wb") as out:
                status = programs.run(words, out, self.run.deadline)
            if status != 0:
                said = f"ask ended with {status} for the bound {bound}"
                raise UnexpectedStatus(said, self.place / "problem.gnf", asked)
            said = programs.verdict(self.run.program, asked, held.file, self.run.deadline)
        if said != f"accepted {word}":
            fault = f"check says '{said}', and not 'accepted {word}'{explained(said, held.file)}"
            raise RejectedAnswer(fault, asked, held.file)
        if sizes(asked) != (copied.variables + 1, len(copied.clauses) + 1):
            raise UnexpectedStatus("ask printed another problem than was expected", asked, held.file)
        if held.model is None:
            with self.run.phase("reading", lambda: self.note("reading")):
                found = accepted(self.objective.asked(held.cost), asked, held.file)
            assert isinstance(found, Refutation), "check says that it is one"
            held.refutation = found
        held.is_judged = True

    def last(self) -> Incumbent:
        """What there is at the end: the last model, or the one before it where there is no time to judge it."""
        try:
            return self.incumbent()
        except TimeSpent:
            if self.sure is None:
                raise
            self.model = self.sure
            return self.incumbent()

    def incumbent(self) -> Incumbent:
        """What there is by now."""
        assert self.model is not None and self.model.model is not None
        self.judge(self.model)
        problem, value = self.objective.problem, self.objective.value(self.cost)
        model = restricted(self.model.model, problem)
        kept = Model(self.objective.kept(), model.values, model.text)
        if self.refutation is not None:
            self.judge(self.refutation)
        seconds = model.seconds = kept.seconds = dict(self.run.seconds)
        if self.refutation is None or self.refutation.refutation is None or self.least is None:
            return Incumbent(value, model, kept, None, None, Statistics(seconds, self.learned, {}, 0))
        refutation = self.refutation.refutation
        refutation.seconds = seconds
        known = refutation.statistics
        statistics = Statistics(seconds, self.learned, known.lemmas, known.bytes)
        kind = Best if self.least == self.cost else Incumbent
        return kind(value, model, kept, self.objective.value(self.least), refutation, statistics)

    def hopeless(self, found: Held) -> Refutation:
        """The refutation of the weakest bound, where it says that there is no model with any.

        `NoBound`: it may only say that the value is beyond the greatest bound.
        """
        self.judge(found)
        assert found.refutation is not None
        if self.objective.greatest_cost() > self.objective.weakest:
            with open(self.place / "answer", "wb") as out, self.run.phase("solving", self.note):
                words = [self.run.program, "solve", str(self.place / "problem.gnf"), *self.run.limit()]
                status = programs.run(words, out, self.run.deadline)
            if status != REFUTATION:
                raise NoBound(f"no model has a value of {self.objective.name} up to 2^53, the greatest bound there is")
        return found.refutation


def sizes(path: Path) -> tuple[int, ...]:
    """The numbers of variables and of clauses that a printed problem's header says."""
    with open(path, "rb") as lines:
        return tuple(map(int, lines.readline(100).split()[2:]))


def restricted(model: Model, problem: Problem) -> Model:
    """A model of a problem that has some of its variables alone, the first ones."""
    values = Values(problem.variables)
    assert isinstance(model.values, Values)
    values.signs[:] = model.values.signs[: problem.variables + 1]
    numbers = " ".join(map(str, values.literals()))
    return Model(problem, values, f"s SATISFIABLE\nv {numbers} 0\n")
