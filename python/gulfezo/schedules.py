"""Tasks in time: when each starts and ends, which comes before which, and how long all of them take.

Time is whole: hours, say. Of each task variables say that it starts at an hour or later (the order encoding: J.
Crawford and A. Baker, "Experimental Results on the Application of Satisfiability Algorithms to Scheduling Problems",
AAAI 1994). That one task comes before another is an edge between them in a graph that has no circle. So a schedule of n
tasks over h hours takes n·h variables, and 2 h clauses for each two tasks of which is asked which comes first: count
time in as few units as will do.
"""

from __future__ import annotations

import contextlib
import itertools
from collections.abc import Callable, Hashable, Iterable, Iterator, Mapping
from functools import cached_property
from typing import TYPE_CHECKING, NoReturn

from .limits import printable, whole
from .literals import Literal

if TYPE_CHECKING:
    from .model import Model
    from .problem import Problem
    from .sums import Sum


class Time:
    """A whole number of hours, which each model has: `at_least` and `at_most` bound it, `model[time]` is its value.

    `steps` are literals that say that it is at least `first`, `first` + 1, .. hours; it is at least one less than that.
    """

    def __init__(self, problem: Problem, first: int, steps: list[Literal]) -> None:
        self.problem = problem
        self.first = first
        self.steps = steps

    if not TYPE_CHECKING:  # of a type checker these stay unknown

        def __le__(self, other: object) -> NoReturn:
            raise TypeError("what bounds a time is a literal of its own: time.at_most(5), time.at_least(5)")

        __lt__ = __ge__ = __gt__ = __le__

    def __repr__(self) -> str:
        return f"<time from {self.first - 1} to {self.first - 1 + len(self.steps)}>"

    def at_least(self, hour: int) -> Literal:
        """Whether it is so many hours or more."""
        place = whole(hour, "an hour", least=None) - self.first
        if place < 0:
            return self.problem.always()
        return self.steps[place] if place < len(self.steps) else ~self.problem.always()

    def at_most(self, hour: int) -> Literal:
        """Whether it is so many hours or fewer."""
        return ~self.at_least(whole(hour, "an hour", least=None) + 1)

    def value_in(self, model: Model) -> int:
        """Its hours in a model."""
        return self.first - 1 + sum(model[step] for step in self.steps)


class Task:
    """A task of a schedule: its key, its hours, and when it `starts` and `ends`."""

    def __init__(self, schedule: Schedule, key: Hashable, hours: int, node: int, steps: list[Literal]) -> None:
        self.schedule = schedule
        self.key = key
        self.hours = hours
        self.node = node
        self.starts = Time(schedule.problem, 1, steps)
        self.ends = Time(schedule.problem, 1 + hours, steps)

    def before(self, other: Hashable) -> Literal:
        """Whether this task ends by the time at which the other one, or that of the key, starts."""
        return self.schedule.before(self, other)

    def __repr__(self) -> str:
        return f"<task {self.key!r} of {self.hours}>"


class Schedule:
    """Tasks by their keys: `schedule[key]`. `Problem.add_schedule` makes one.

    >>> from gulfezo import Problem
    >>> problem = Problem()
    >>> shop = problem.add_schedule({"cut": 3, "drill": 2, "paint": 4})
    >>> shop.in_order("cut", "drill")
    >>> shop.one_at_a_time("drill", "paint")
    >>> problem.require(shop["paint"].ends.at_most(5))

    `problem.minimise(shop.makespan)` asks for the shortest one, and `shop.starts(model)` says when each task starts.
    """

    def __init__(self, problem: Problem, tasks: Mapping[Hashable, int], horizon: int | None, name: str) -> None:
        if not isinstance(tasks, Mapping):
            said = "a schedule takes a table of each task's hours, as {'cut': 3, 'drill': 2}"
            raise TypeError(f"{said}, which {tasks!r} isn't")
        hours = {key: whole(time, f"the time of {key!r}", least=1) for key, time in tasks.items()}
        longest = max(hours.values(), default=0)
        self.problem = problem
        self.horizon = sum(hours.values()) if horizon is None else whole(horizon, "a horizon", least=longest)
        self.name = name
        self.tasks: dict[Hashable, Task] = {}
        self._orders: dict[tuple[int, int], Literal] = {}
        with problem.unchanged_on_error():
            self.graph = problem.add_graph(name or "tasks")
            for key, time in hours.items():
                self.tasks[key] = self._task(key, time)
            if self.tasks:
                problem.require(self.graph.acyclic())

    def _task(self, key: Hashable, hours: int) -> Task:
        """A further task."""
        problem, shown = self.problem, printable(str(key))
        steps: list[Literal] = []
        for hour in range(1, self.horizon - hours + 1):
            steps.append(problem.add_variable(f"{shown} starts at {hour} or later"))
            if hour > 1:
                problem.add_clause(~steps[-1], steps[-2])
        return Task(self, key, hours, self.graph.add_node(shown, key=key), steps)

    def __getitem__(self, key: Hashable) -> Task:
        return self.tasks[key]

    def _own(self, key: Hashable) -> Task:
        """The task of that key, or the task itself where one is given. `ValueError`: the schedule has none."""
        found = key if isinstance(key, Task) else self.tasks.get(key) if isinstance(key, Hashable) else None
        if found is None or found.schedule is not self:
            raise ValueError(f"this schedule has no task {key!r}; several are given one by one: in_order('a', 'b')")
        return found

    @contextlib.contextmanager
    def _unchanged_on_error(self) -> Iterator[None]:
        """Within it, an error takes away what was added to the problem, and what is kept here of it."""
        orders, known = dict(self._orders), set(vars(self))
        try:
            with self.problem.unchanged_on_error():
                yield
        except BaseException:
            self._orders = orders
            for name in set(vars(self)) - known:
                delattr(self, name)
            raise

    def __iter__(self) -> Iterator[Task]:
        return iter(self.tasks.values())

    def __len__(self) -> int:
        return len(self.tasks)

    def __repr__(self) -> str:
        return f"<schedule of {len(self)} tasks by {self.horizon}>"

    def before(self, first: Hashable, second: Hashable) -> Literal:
        """See `Task.before`."""
        one, other = self._own(first), self._own(second)
        pair = one.node, other.node
        if pair not in self._orders:
            with self.problem.unchanged_on_error():
                edge = self.graph.add_edge(*pair, variable=self._order(one, other))
            self._orders[pair] = edge
        return self._orders[pair]

    def _order(self, first: Task, second: Task) -> Literal:
        """A variable that is true exactly where the second task starts at the end of the first one or later."""
        problem = self.problem
        order = problem.add_variable(f"{printable(str(first.key))} before {printable(str(second.key))}")
        # Where it is true and the first ends at an hour or later, so does the second start; and the other way round.
        for hour in range(first.hours, self.horizon + 1):
            self._clause((order, False), (first.ends.at_least, hour, False), (second.starts.at_least, hour, True))
            self._clause((order, True), (second.starts.at_least, hour, False), (first.ends.at_least, hour + 1, True))
        return order

    def _clause(self, order: tuple[Literal, bool], *bounds: tuple[Callable[[int], Literal], int, bool]) -> None:
        """A clause of these literals, each with its sign; what is always so or never isn't written."""
        always = self.problem.always()
        literals = [order[0] if order[1] else ~order[0]]
        for bound, hour, is_positive in bounds:
            literal = bound(hour)
            literal = literal if is_positive else ~literal
            if literal == always:
                return
            if literal != ~always:
                literals.append(literal)
        self.problem.add_clause(literals)

    def in_order(self, *keys: Hashable) -> None:
        """Each of these tasks, but the first one, starts when the one before it has ended, or later."""
        tasks = [self._own(key) for key in keys]
        with self._unchanged_on_error():
            self.problem.require(*(first.before(second) for first, second in zip(tasks, tasks[1:])))

    def one_at_a_time(self, *keys: Hashable) -> None:
        """No two of these tasks, which want the same machine, run at one time."""
        tasks = [self._own(key) for key in keys]
        with self._unchanged_on_error():
            for first, second in itertools.combinations(tasks, 2):
                self.problem.add_clause(second.before(first), first.before(second))

    @cached_property
    def ends(self) -> Time:
        """When all tasks have ended: `problem.require(schedule.ends.at_most(11))` is a deadline for all of them."""
        with self._unchanged_on_error():
            steps = [self._late(hour) for hour in range(1, self.horizon + 1)]
        return Time(self.problem, 1, steps)

    def _late(self, hour: int) -> Literal:
        """A variable that is true exactly where a task ends then or later."""
        found = self.problem.add_variable(f"something ends at {hour} or later")
        late = [task.ends.at_least(hour) for task in self]
        self.problem.add_clause(~found, *late)
        for literal in late:
            self.problem.add_clause(found, ~literal)
        return found

    @cached_property
    def makespan(self) -> Sum:
        """The hours until all tasks have ended, as a sum that `problem.minimise` takes."""
        with self._unchanged_on_error():
            return self.problem.add_sum([(step, 1) for step in self.ends.steps], f"{self.name or 'tasks'}: makespan")

    def starts(self, model: Model) -> dict[Hashable, int]:
        """The hour at which each task starts in a model."""
        return {key: model[task.starts] for key, task in self.tasks.items()}

    def sequence(self, model: Model, keys: Iterable[Hashable] | None = None) -> list[Hashable]:
        """The keys, or these of them, by the hours at which their tasks start in a model."""
        chosen = self.tasks if keys is None else keys
        return sorted(chosen, key=lambda key: model[self[key].starts])
