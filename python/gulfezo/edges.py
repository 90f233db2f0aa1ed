"""The edges of a problem, kept by columns: some bytes for each of them, and an `Edge` where one is asked for."""

from __future__ import annotations

from array import array
from bisect import bisect_right
from collections.abc import Iterator, Sequence
from typing import TYPE_CHECKING, overload

from .literals import Edge, Link

if TYPE_CHECKING:
    from .problem import Problem

# What an edge is of a link.
ALONE, THERE, BACK = 0, 1, 2


class Edges(Sequence[Edge]):
    """All edges of a problem, in the order of their numbers. The two directions of a link follow each other."""

    def __init__(self, owner: Problem) -> None:
        self.owner: Problem = owner
        self.graphs, self.starts, self.ends = array("I"), array("I"), array("I")
        self.variables, self.weights, self.sides = array("I"), array("Q"), bytearray()

    def __len__(self) -> int:
        return len(self.graphs)

    def edge(self, number: int) -> Edge:
        """The edge of that number, from 1."""
        at = number - 1
        start, end, weight = self.starts[at], self.ends[at], self.weights[at]
        return Edge(self.variables[at], number, self.graphs[at], start, end, weight, owner=self.owner)

    def link(self, number: int) -> Link | None:
        """The link of which the edge of that number is one direction, or None."""
        side = self.sides[number - 1]
        first = number - 1 if side == BACK else number
        return None if side == ALONE else Link(self.edge(first), self.edge(first + 1))

    def thing(self, number: int) -> Edge | Link:
        """The edge of that number, or the link of which it is one direction."""
        link = self.link(number)
        return self.edge(number) if link is None else link

    @overload
    def __getitem__(self, at: int) -> Edge: ...
    @overload
    def __getitem__(self, at: slice) -> list[Edge]: ...

    def __getitem__(self, at: int | slice) -> Edge | list[Edge]:
        found = range(1, len(self) + 1)[at]
        return self.edge(found) if isinstance(found, int) else list(map(self.edge, found))

    def __iter__(self) -> Iterator[Edge]:
        return map(self.edge, range(1, len(self) + 1))

    def __eq__(self, other: object) -> bool:
        return isinstance(other, Sequence) and list(self) == list(other)

    def __repr__(self) -> str:
        return repr(list(self))

    def append(self, graph: int, start: int, end: int, variable: int, weight: int, side: int = ALONE) -> Edge:
        """A further edge."""
        self.graphs.append(graph)
        self.starts.append(start)
        self.ends.append(end)
        self.variables.append(variable)
        self.weights.append(weight)
        self.sides.append(side)
        return Edge(variable, len(self.graphs), graph, start, end, weight, owner=self.owner)

    def extend(
        self, graphs: list[int], starts: list[int], ends: list[int], variables: list[int], weights: list[int]
    ) -> None:
        """Further edges by their columns, each of a graph that the problem has."""
        before = len(self)
        for column, values in zip(self.columns(), (graphs, starts, ends, variables, weights)):
            column.extend(values)
        self.sides.extend(bytes(len(graphs)))
        for identity in set(graphs):
            found = [number for number, graph in enumerate(graphs, before + 1) if graph == identity]
            self.owner.graphs[identity].edges.numbers.extend(found)

    def find_links(self) -> None:
        """Takes two edges for a link where they follow each other, are there and back, and have all else in common."""
        rows = zip(*self.columns())
        last, place = next(rows, None), 0
        for place, row in enumerate(rows, 1):
            if last is not None and row == (last[0], last[2], last[1], last[3], last[4]) and row[1] != row[2]:
                self.sides[place - 1], self.sides[place] = THERE, BACK
                last = None
            else:
                last = row

    def columns(self) -> tuple[array[int], ...]:
        """The columns of numbers, in the order of `append`."""
        return self.graphs, self.starts, self.ends, self.variables, self.weights

    def cut(self, count: int) -> None:
        """Leaves the first edges, so many of them."""
        for column in self.columns():
            del column[count:]
        del self.sides[count:]

    def copy(self, owner: Problem) -> Edges:
        """The same edges of another problem."""
        made = Edges(owner)
        for new, old in zip(made.columns(), self.columns()):
            new.extend(old)
        made.sides += self.sides
        return made

    def rows(self) -> Iterator[str]:
        """The lines of a problem's file."""
        for graph, start, end, variable, weight in zip(*self.columns()):
            yield f"edge {graph} {start} {end} {variable} {weight}\n"


class GraphEdges(Sequence[Edge]):
    """The edges of one graph, by their numbers in the problem."""

    def __init__(self, edges: Edges, numbers: array[int] | None = None) -> None:
        self.all = edges
        self.numbers = array("I") if numbers is None else numbers

    def __len__(self) -> int:
        return len(self.numbers)

    @overload
    def __getitem__(self, at: int) -> Edge: ...
    @overload
    def __getitem__(self, at: slice) -> list[Edge]: ...

    def __getitem__(self, at: int | slice) -> Edge | list[Edge]:
        if isinstance(at, slice):
            return list(map(self.all.edge, self.numbers[at]))
        return self.all.edge(self.numbers[at])

    def __iter__(self) -> Iterator[Edge]:
        return map(self.all.edge, self.numbers)

    def __eq__(self, other: object) -> bool:
        return isinstance(other, Sequence) and list(self) == list(other)

    def __repr__(self) -> str:
        return repr(list(self))

    def cut(self, most: int) -> None:
        """Leaves the edges whose numbers are at most so great."""
        del self.numbers[bisect_right(self.numbers, most) :]
