"""What is made as small or as great as it can be: the bound of a predicate, or the value of a sum."""

from __future__ import annotations

from typing import TYPE_CHECKING

from . import search
from .limits import MOST_BOUND
from .literals import Kind, Predicate
from .sums import Sum

if TYPE_CHECKING:
    from .model import Model
    from .problem import Problem

WITH_BOUNDS = (Kind.DISTANCE, Kind.WEIGHTED_DISTANCE, Kind.MAXIMUM_FLOW, Kind.MST_WEIGHT)
Aim = Predicate | Sum
NO_AIM = "is no sum of this problem (add_sum([(a, 3), (b, 5)]) makes one), and no distance, flow or tree with a bound"


def require_aim(problem: Problem, aim: Aim, greatest: bool) -> None:
    """`ValueError`: it is no aim of this problem."""
    if isinstance(aim, Sum):
        if aim.problem is not problem:
            raise ValueError(f"{aim} is no sum of this problem: add_sum makes one")
        return
    if not isinstance(aim, Predicate) or aim.kind not in WITH_BOUNDS:
        raise ValueError(f"{aim!r} {NO_AIM}")
    problem.require_own(aim)
    if greatest != (aim.kind is Kind.MAXIMUM_FLOW):
        raise ValueError("of a flow the greatest bound is asked for, and of a distance or a tree the least")


class Objective:
    """An aim as the least of a *cost*, over a copy of the problem: the greatest of a flow is the least of its negation.

    The program is asked about `predicate` of the copy, which may have a predicate and a ladder more than the problem.
    """

    def __init__(self, problem: Problem, aim: Aim, greatest: bool) -> None:
        require_aim(problem, aim, greatest)
        self.problem = problem
        self.aim = aim
        self.mark = problem.mark()
        self.copied = problem.copy()
        self._kept: Problem | None = None
        self.total: Sum | None = None
        self.greatest = greatest
        if isinstance(aim, Sum):
            own = aim.moved(self.copied)
            self.total = self.copied.add_sum([(~x, n) for x, n in own.terms], own.name) if greatest else own
            self.predicate = self.total.at_most(0)
        else:
            self.predicate = self.copied.predicates[aim.predicate_number - 1]
        self.is_flow = self.predicate.kind is Kind.MAXIMUM_FLOW
        # The cost that asks for least, and the least one that can be refuted.
        self.weakest = 0 if self.is_flow else MOST_BOUND
        self.strongest = -(MOST_BOUND + 1) if self.is_flow else -1

    def kept(self) -> Problem:
        """A copy of the problem as it was when the aim was asked for."""
        if self._kept is None:
            self._kept = self.copied.copy()
            self._kept.go_back(self.mark)
        return self._kept

    @property
    def name(self) -> str:
        """The aim in words."""
        return f"'{self.aim.name or 'sum'}'" if isinstance(self.aim, Sum) else f"'{self.aim}'"

    def bound(self, cost: int) -> int:
        """The bound that `ask` is given for a cost."""
        return -cost if self.is_flow else cost

    def value(self, cost: int) -> int:
        """What the user is told for a cost."""
        if self.total is not None and self.greatest:
            return self.total.greatest - cost
        return self.bound(cost)

    def cost_in(self, model: Model) -> int:
        """The cost of a model of the copy, which may be better than what was asked for."""
        if self.total is not None:
            return sum(amount for x, amount in self.total.terms if model.values[x.variable] == (x.number > 0))
        predicate, graph = self.predicate, model.problem.graphs[self.predicate.graph]
        present, ends = model.arcs(graph), self.predicate.ends or (0, 0)
        if self.is_flow:
            return -min(search.greatest_flow(present, *ends), MOST_BOUND + 1)
        is_tree, weighted = predicate.kind is Kind.MST_WEIGHT, predicate.kind is not Kind.DISTANCE
        found = search.lightest_tree(len(graph), present) if is_tree else search.shortest_walk(present, *ends, weighted)
        assert found is not None, "the model has a predicate with a bound, which holds"
        return sum(edge.weight if weighted else 1 for edge in found)

    def greatest_cost(self) -> int:
        """A cost that no model is above."""
        if self.is_flow:
            return 0
        if self.total is not None:
            return self.total.greatest
        edges = self.copied.graphs[self.predicate.graph].edges
        return len(edges) if self.predicate.kind is Kind.DISTANCE else sum(edge.weight for edge in edges)

    def form(self, cost: int) -> tuple[str, int]:
        """The word and the bound of the predicate that asks for a cost."""
        word, bound = self.predicate.word.rsplit("_", 1)[0], self.bound(cost)
        if self.is_flow:
            return (f"{word}_gt", MOST_BOUND) if bound > MOST_BOUND else (f"{word}_geq", bound)
        return (f"{word}_lt", 0) if bound < 0 else (f"{word}_leq", bound)

    def asked(self, cost: int) -> Problem:
        """The problem that `ask` prints for a cost, with its names and places: it requires one more predicate."""
        made, (word, bound) = self.copied.copy(), self.form(cost)
        made.require(made.graphs[self.predicate.graph].add_predicate(word, self.predicate.ends, bound))
        return made

    def lines(self, cost: int) -> list[str]:
        """The lines behind the file of the copy that make it what is asked for a cost."""
        (word, bound), variable = self.form(cost), self.copied.variables + 1
        fields = (word, self.predicate.graph, *(self.predicate.ends or ()), variable, bound)
        return [" ".join(map(str, fields)), f"{variable} 0"]
