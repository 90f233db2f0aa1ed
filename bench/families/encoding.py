"""A problem in the making: variables from 1, graphs with nodes from 0, and the text that docs/FORMATS.md gives them."""


from __future__ import annotations

from collections.abc import Sequence


class Encoding:
    """What has been declared so far."""

    def __init__(self) -> None:
        self.variables, self.graphs = 0, 0
        self.rows: list[str] = []
        self.clauses: list[Sequence[int]] = []

    def variable(self) -> int:
        """A new variable."""
        self.variables += 1
        return self.variables

    def graph(self, nodes: int) -> int:
        """A graph of so many nodes; its identity."""
        self.rows.append(f"digraph int {nodes} 0 {self.graphs}")
        self.graphs += 1
        return self.graphs - 1

    def edge(self, graph: int, u: int, v: int, weight: int = 1) -> int:
        """An edge from u to v; the variable that it is present by."""
        x = self.variable()
        self.rows.append(f"edge {graph} {u} {v} {x} {weight}")
        return x

    def link(self, graph: int, u: int, v: int, weight: int = 1) -> int:
        """Two edges, from u to v and back, by one variable."""
        x = self.edge(graph, u, v, weight)
        self.rows.append(f"edge {graph} {v} {u} {x} {weight}")
        return x

    def predicate(self, word: str, graph: int, *fields: int) -> int:
        """A predicate; the variable that is true where it holds. The fields are its nodes and its bound."""
        x = self.variable()
        nodes = 0 if word.startswith("mst") else 2
        self.rows.append(" ".join(map(str, (word, graph, *fields[:nodes], x, *fields[nodes:]))))
        return x

    def clause(self, *literals: int) -> None:
        """At least one of the literals is true."""
        self.clauses.append(literals)

    def at_most(self, most: int, literals: Sequence[int]) -> None:
        """At most so many of the literals are true: a sequential counter (Sinz, CP 2005)."""
        before: list[int] = []
        for place, x in enumerate(literals):
            counts = [self.variable() for _ in range(min(most, place + 1))]  # count k: at least k + 1 up to this place
            self.clause(-x, counts[0])
            for k, old in enumerate(before):
                if k < len(counts):
                    self.clause(-old, counts[k])
                if k + 1 < len(counts):
                    self.clause(-x, -old, counts[k + 1])
            if len(before) == most:
                self.clause(-x, -before[-1])
            before = counts

    def text(self) -> str:
        """The whole input. Without a graph it is DIMACS CNF."""
        head = f"p {'gnf' if self.graphs else 'cnf'} {self.variables} {len(self.clauses)}"
        clauses = (" ".join(map(str, c)) + " 0" for c in self.clauses)
        return "".join(f"{row}\n" for row in (head, *self.rows, *clauses))
