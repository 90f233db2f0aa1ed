"""Sums of amounts, as walks: what a set of true literals costs together."""

from __future__ import annotations

from collections.abc import Iterable
from typing import TYPE_CHECKING, Any, NoReturn

from .limits import MOST_BOUND, MOST_WEIGHT, whole
from .literals import Literal, Predicate, literal_of

if TYPE_CHECKING:
    from .graph import Graph
    from .model import Model
    from .problem import Problem

NAME = "sums"  # of the graph of all sums


class Sum:
    """A sum of amounts, each added where its literal is true, as the length of the shortest walk along a ladder.

    From step to step of the ladder leads an edge of the amount's length, which is always there, and beside it one of
    length 0, which is there where the literal is false. So the shortest walk is as long as the sum. The ladders of all
    sums of a problem are apart from each other in one graph.

    `model[total]` is the value of a sum in a model. `problem.minimise` and `problem.maximise` ask for the best one.
    """

    def __init__(self, problem: Problem, terms: list[tuple[Literal, int]], name: str, graph: Graph, first: int) -> None:
        self.problem = problem
        self.terms = terms
        self.name = name
        self.graph = graph
        self.first = first

    def moved(self, problem: Problem) -> Sum:
        """The same sum of a copy of its problem."""
        terms = [(literal_of(literal.number, problem), amount) for literal, amount in self.terms]
        return Sum(problem, terms, self.name, problem.graphs[self.graph.identity], self.first)

    @property
    def last(self) -> int:
        """The last node of its ladder."""
        return self.first + len(self.terms)

    @property
    def greatest(self) -> int:
        """The sum of all amounts."""
        return sum(amount for _, amount in self.terms)

    def at_most(self, bound: int) -> Predicate:
        """Whether the sum is at most `bound`, from 0 to 2^53."""
        return self.graph.weighted_distance_leq(self.first, self.last, bound)

    def at_least(self, bound: int) -> Literal:
        """Whether the sum is at least `bound`, from 0 to 2^53."""
        bound = whole(bound, "a bound", MOST_BOUND)
        return ~self.at_most(bound - 1) if bound else self.problem.always()

    def value_in(self, model: Model) -> int:
        """Its value in a model."""
        return sum(amount for literal, amount in self.terms if model[literal])

    if not TYPE_CHECKING:  # of a type checker these stay unknown

        def __le__(self, other: object) -> NoReturn:
            raise TypeError("what bounds a sum is a literal of its own: total.at_most(5), total.at_least(5)")

        __lt__ = __ge__ = __gt__ = __le__

    def __repr__(self) -> str:
        return f"<sum{f' {self.name!r}' if self.name else ''} of {len(self.terms)} amounts>"


def pairs_of(terms: Any) -> list[tuple[Any, Any]]:
    """The terms of a sum. `TypeError`: they aren't a list of pairs."""
    found = list(terms) if isinstance(terms, Iterable) else [terms]
    for term in found:
        if not isinstance(term, (tuple, list)) or len(term) != 2:
            raise TypeError(f"a sum takes a list of pairs, as [(a, 3), (b, 5)], and {term!r} is no pair")
    return found


class Sums:
    """The sums of a problem, and what they share: their graph, a literal that is always true, and negations."""

    def __init__(self, problem: Problem) -> None:
        self.problem = problem
        self.count = 0
        self.graph: int | None = None
        self.true: int | None = None
        self.negations: dict[int, int] = {}  # of a variable, one that is true where it is false

    def copy(self, problem: Problem) -> Sums:
        """The same of a copy of the problem."""
        made = Sums(problem)
        made.count, made.graph, made.true = self.count, self.graph, self.true
        made.negations = dict(self.negations)
        return made

    def go_back(self) -> None:
        """Forgets what the problem doesn't have any more."""
        most = self.problem.variables
        self.graph = self.graph if self.graph in self.problem.graphs else None
        self.true = self.true if self.true is not None and self.true <= most else None
        self.negations = {x: other for x, other in self.negations.items() if other <= most}

    def always(self) -> Literal:
        """A literal that is always true."""
        if self.true is None:
            made = self.problem.add_variable("always")
            self.problem.require(made)
            self.true = made.number
        return literal_of(self.true, self.problem)

    def negation(self, literal: Literal) -> Literal:
        """A variable that is true exactly where the literal is false; of a negation it is its variable."""
        if literal.number < 0:
            return literal_of(-literal.number, self.problem)
        if literal.number not in self.negations:
            made = self.problem.add_variable()
            self.problem.add_clause(made, literal)
            self.problem.add_clause(~made, ~literal)
            self.negations[literal.number] = made.number
        return literal_of(self.negations[literal.number], self.problem)

    def add(self, terms: Iterable[tuple[Literal, int]], name: str) -> Sum:
        """A further sum."""
        problem = self.problem
        chosen = [(problem.require_own(x), whole(amount, "an amount", MOST_WEIGHT)) for x, amount in pairs_of(terms)]
        with problem.unchanged_on_error():
            if self.graph is None:
                made = problem.add_graph(NAME)
                made.hide()
                self.graph = made.identity
            graph, first = problem.graphs[self.graph], len(problem.graphs[self.graph])
            label = f"{name}@" if name else ""
            graph.add_nodes([f"{label}{step},{self.count}" for step in range(len(chosen) + 1)])
            always = self.always()
            for step, (literal, amount) in enumerate(chosen, first):
                graph.add_edge(step, step + 1, amount, always)
                graph.add_edge(step, step + 1, 0, self.negation(literal))
        self.count += 1
        return Sum(problem, chosen, name, graph, first)
