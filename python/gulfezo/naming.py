"""What things of a problem are called in words."""

from __future__ import annotations

from array import array
from collections.abc import Iterator
from typing import TYPE_CHECKING, cast

from .literals import Edge, Link, Literal, Predicate

if TYPE_CHECKING:
    from .problem import Problem


def places_of(column: array[int], value: int) -> Iterator[int]:
    """The places of a value in a column."""
    place = -1
    try:
        while True:
            place = column.index(value, place + 1)
            yield place
    except ValueError:
        return


def so_many(number: int, thing: str) -> str:
    """So many things, in words."""
    return f"{number:,} {thing}" if number == 1 else f"{number:,} {thing}s"


class Naming:
    """The part of `Problem` that puts its things into words."""

    @property
    def _problem(self) -> Problem:
        return cast("Problem", self)

    def described(self, literal: Literal) -> str:
        """The literal in words: the name of its variable, or its predicate or edge; `not ..` where it is a negation."""
        variable = self._problem.require_own(literal).variable
        said = next(self.names_of(variable), f"variable {variable}")
        return said if literal.number > 0 else f"not {said}"

    def names_of(self, variable: int) -> Iterator[str]:
        """What the variable is called, the best name first."""
        problem = self._problem
        if variable in problem.names:
            yield problem.names[variable]
        yield from (self.predicate_name(x) for x in problem.predicates if x.variable == variable)
        for place in places_of(problem.edges.variables, variable):
            link = problem.edges.link(place + 1)
            yield self.edge_name(problem.edges[place]) if link is None else self.link_name(link)

    def graph_name(self, thing: Edge | Link | Predicate) -> str:
        """The name of its graph, or the graph's number."""
        return self._problem.graphs[thing.graph].name or str(thing.graph)

    def node_name(self, graph: int, node: int) -> str:
        """The node's name, or its number."""
        return self._problem.graphs[graph].names[node] or str(node)

    def predicate_name(self, predicate: Predicate) -> str:
        """The predicate in words, with the names of its nodes."""
        names = [self.node_name(predicate.graph, node) for node in predicate.ends or ()]
        ends = f" from {names[0]} to {names[1]}" if names else ""
        bound = "" if predicate.bound is None else f", {predicate.bound}"
        return f"{predicate.word}{ends}{bound} of graph {self.graph_name(predicate)}"

    def edge_name(self, edge: Edge) -> str:
        """The edge in words."""
        ends = " to ".join(self.node_name(edge.graph, node) for node in (edge.start, edge.end))
        return f"edge from {ends} of graph {self.graph_name(edge)}"

    def link_name(self, link: Link) -> str:
        """The link in words."""
        ends = " and ".join(self.node_name(link.graph, node) for node in link.ends)
        return f"link of {ends} of graph {self.graph_name(link)}"
