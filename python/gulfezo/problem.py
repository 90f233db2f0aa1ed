"""A problem: variables, clauses, graphs, and how it is written."""

from __future__ import annotations

import contextlib
import os
from array import array
from collections.abc import Iterable, Iterator, Mapping, Sequence
from typing import Any, Hashable, NamedTuple

from . import cardinality
from .asking import Asking
from .clauses import Clauses
from .edges import Edges
from .graph import Graph
from .limits import MOST_GRAPHS, MOST_NODES, MOST_VARIABLES, one_line, whole
from .literals import Literal, Predicate, listed, literal_of, required, several, unpacked
from .naming import Naming, so_many
from .schedules import Schedule
from .sums import Sum, Sums


class Mark(NamedTuple):
    """How much a problem had of each thing."""

    variables: int
    clauses: int
    nodes: int
    edges: int
    predicates: int
    graphs: int


def count(bound: Any, call: str) -> int:
    """A bound on a number of literals: any whole number, negative ones too."""
    require_bound_first(bound, call, "[a, b, c]")
    return whole(bound, "a bound on a number of literals", least=None)


def require_bound_first(bound: Any, call: str, literals: str) -> None:
    """`TypeError`: literals stand in the place of the bound."""
    if isinstance(bound, Literal) or isinstance(bound, Iterable) and not isinstance(bound, str):
        raise TypeError(f"{call} takes its bound first and then the literals: {call}(2, {literals})")


class Problem(Asking, Naming):
    """Clauses over variables, and graphs whose edges and predicates are variables.

    >>> problem = Problem()
    >>> graph = problem.add_graph()
    >>> a, b, c = graph.add_nodes(3)
    >>> edges = [graph.add_edge(a, b), graph.add_edge(b, c), graph.add_edge(a, c)]
    >>> problem.require(graph.reach(a, c), ~edges[2])
    >>> print(problem.text(), end="")
    p gnf 4 2
    digraph int 3 3 0
    edge 0 0 1 1 1
    edge 0 1 2 2 1
    edge 0 0 2 3 1
    reach 0 0 2 4
    4 0
    -3 0

    A call that is refused changes nothing.
    """

    def __init__(self) -> None:
        self.variables = 0
        self.clauses = Clauses()
        self.graphs: dict[int, Graph] = {}
        self.edges = Edges(self)
        self.predicates: list[Predicate] = []
        self.names: dict[int, str] = {}
        self.node_graphs = array("I")  # of each node the number of its graph, in the order in which they were added
        self.sums = Sums(self)

    def __repr__(self) -> str:
        parts = {"variable": self.variables, "clause": len(self.clauses), "graph": len(self.graphs)}
        parts |= {"edge": len(self.edges), "predicate": len(self.predicates)}
        return f"<problem: {', '.join(so_many(amount, what) for what, amount in parts.items())}>"

    @property
    def nodes(self) -> int:
        """The number of nodes of all graphs."""
        return len(self.node_graphs)

    # ---- copies, and calls that change nothing where they fail

    def copy(self) -> Problem:
        """The same problem once more; literals of one aren't those of the other."""
        made = Problem()
        made.variables = self.variables
        made.clauses = self.clauses.copy()
        made.edges = self.edges.copy(made)
        made.graphs = {identity: graph.copy(made) for identity, graph in self.graphs.items()}
        for old in self.predicates:
            fields = (old.number, old.predicate_number, old.graph, old.word, old.ends, old.bound)
            made.predicates.append(Predicate(*fields, owner=made))
        made.names = dict(self.names)
        made.node_graphs.extend(self.node_graphs)
        made.sums = self.sums.copy(made)
        return made

    def __deepcopy__(self, memo: dict[int, Any]) -> Problem:
        made = memo[id(self)] = self.copy()
        memo |= {id(graph): made.graphs[identity] for identity, graph in self.graphs.items()}
        return made

    def mark(self) -> Mark:
        """How much it has of each thing."""
        sizes = len(self.clauses), self.nodes, len(self.edges), len(self.predicates), len(self.graphs)
        return Mark(self.variables, *sizes)

    def go_back(self, mark: Mark) -> None:
        """Takes away what was added since then."""
        self.variables = mark.variables
        self.names = {number: name for number, name in self.names.items() if number <= mark.variables}
        self.clauses.cut(mark.clauses)
        del self.predicates[mark.predicates :]
        gone = self.node_graphs[mark.nodes :]
        del self.node_graphs[mark.nodes :]
        for identity in list(self.graphs)[mark.graphs :]:
            del self.graphs[identity]
        for identity, graph in self.graphs.items():
            graph.cut(len(graph) - gone.count(identity), mark.edges)
        self.edges.cut(mark.edges)
        self.sums.go_back()

    @contextlib.contextmanager
    def unchanged_on_error(self) -> Iterator[None]:
        """Within it, an error takes away what was added before it came."""
        mark = self.mark()
        try:
            yield
        except BaseException:
            self.go_back(mark)
            raise

    # ---- variables and clauses

    def add_variable(self, name: str = "") -> Literal:
        """A new variable, as a literal. Its name, one line of text, is written into the file as a comment."""
        if self.variables == MOST_VARIABLES:
            raise ValueError(f"a problem has at most {MOST_VARIABLES} variables")
        if name:
            self.names[self.variables + 1] = one_line(name)
        self.variables += 1
        return literal_of(self.variables, self)

    def add_variables(self, count: int) -> list[Literal]:
        """So many new variables."""
        left = MOST_VARIABLES - self.variables
        return [self.add_variable() for _ in range(whole(count, "a number of further variables", left))]

    def literal(self, number: int) -> Literal:
        """The literal with that number in the files: a variable, or the negation of one. `ValueError`: none has it."""
        if not 0 < abs(number) <= self.variables:
            raise ValueError(f"no literal has the number {number}: this problem has {self.variables} variables")
        return literal_of(number, self)

    def variable_of(self, literal: Literal | None) -> int:
        """The variable of a literal that is to name an edge or a predicate, or a new one where none is given.

        `ValueError`: the literal is a negation, or of another problem.
        """
        if literal is None:
            return self.add_variable().number
        if self.require_own(literal).number < 0:
            raise ValueError(f"the variable of an edge or a predicate is no negation, which {literal} is")
        return literal.number

    def require_own(self, literal: Literal) -> Literal:
        """The literal. `ValueError`: it is of another problem; `TypeError`: it is no literal."""
        if required(literal).owner is self and literal.variable <= self.variables:
            return literal
        if literal.owner is not None or literal.variable > self.variables:
            raise ValueError(f"{literal} isn't of this problem")
        return literal

    def add_clause(self, *literals: Literal | Iterable[Literal]) -> None:
        """At least one of the literals, given one by one or as one list, is true. Without any there is no model."""
        self.clauses.append(self.numbers_of(unpacked(literals)))

    def numbers_of(self, literals: Sequence[Any]) -> list[int]:
        """The numbers of literals of this problem. `ValueError`, `TypeError`: see `require_own`."""
        most = self.variables
        found = [x.number for x in literals if isinstance(x, Literal) and x.owner is self and -most <= x.number <= most]
        # That is the usual case, in a fraction of the time; what is refused, or was made by hand, is looked at anew.
        return found if len(found) == len(literals) else [self.require_own(x).number for x in literals]

    def require(self, *literals: Literal) -> None:
        """Each of the literals is true."""
        for number in self.numbers_of(literals):
            self.clauses.append((number,))

    # ---- how many of some literals are true

    def at_most(self, bound: int, literals: Iterable[Literal]) -> None:
        """At most `bound` of the literals are true; one that is listed twice counts twice.

        It is written by pairs, by a totalizer or as a sum: see `gulfezo.cardinality`.
        """
        bound = count(bound, "at_most")
        chosen = list(map(self.require_own, several(literals, "at_most")))
        with self.unchanged_on_error():
            cardinality.require_at_most(self, bound, chosen)

    def at_least(self, bound: int, literals: Iterable[Literal]) -> None:
        """At least `bound` of the literals are true."""
        bound = count(bound, "at_least")
        chosen = list(map(self.require_own, several(literals, "at_least")))
        if bound == 1:
            self.add_clause(chosen)
        else:
            self.at_most(len(chosen) - bound, [~x for x in chosen])

    def exactly(self, bound: int, literals: Iterable[Literal]) -> None:
        """`bound` of the literals are true, no more and no fewer."""
        bound = count(bound, "exactly")
        chosen = several(literals, "exactly")
        with self.unchanged_on_error():
            self.at_least(bound, chosen)
            self.at_most(bound, chosen)

    def at_most_one(self, *literals: Literal | Iterable[Literal]) -> None:
        """At most one of the literals, given one by one or as one list, is true."""
        self.at_most(1, listed(literals))

    def exactly_one(self, *literals: Literal | Iterable[Literal]) -> None:
        """One of the literals, given one by one or as one list, is true, and no second one."""
        self.exactly(1, listed(literals))

    def at_most_weight(self, bound: int, terms: Iterable[tuple[Literal, int]]) -> None:
        """The weights of the literals that are true are at most `bound` together (a pseudo-Boolean constraint)."""
        require_bound_first(bound, "at_most_weight", "[(a, 3), (b, 5)]")
        with self.unchanged_on_error():
            self.require(self.add_sum(terms).at_most(bound))

    def at_least_weight(self, bound: int, terms: Iterable[tuple[Literal, int]]) -> None:
        """The weights of the literals that are true are at least `bound` together."""
        require_bound_first(bound, "at_least_weight", "[(a, 3), (b, 5)]")
        with self.unchanged_on_error():
            self.require(self.add_sum(terms).at_least(bound))

    def add_sum(self, terms: Iterable[tuple[Literal, int]], name: str = "") -> Sum:
        """The sum of the amounts whose literals are true; `Sum.at_most` and `Sum.at_least` bound it."""
        return self.sums.add(terms, one_line(name))

    def always(self) -> Literal:
        """A literal that is always true; every call gives the same one."""
        return self.sums.always()

    def add_schedule(self, tasks: Mapping[Hashable, int], horizon: int | None = None, name: str = "") -> Schedule:
        """Tasks by their keys, each with the hours (or minutes, ..) that it takes, from 1: see `Schedule`.

        All of them end by the horizon, which is the sum of all hours where it is left out.
        """
        return Schedule(self, tasks, horizon, name)

    # ---- graphs

    def add_graph(self, name: str = "", nodes: int = 0) -> Graph:
        """A new graph with so many nodes, numbered from 0. It is written only once it has a node."""
        nodes = whole(nodes, "a number of nodes", MOST_NODES - self.nodes)
        if isinstance(name, int):
            raise ValueError(f"a graph's name comes first, which {name!r} isn't: write add_graph(nodes={name!r})")
        graph = self.declare_graph(max(self.graphs, default=-1) + 1, name)
        graph.grow(nodes)
        return graph

    def declare_graph(self, identity: int, name: str = "") -> Graph:
        """A new graph without nodes, by the number by which the files name it. `ValueError`: there is such a one."""
        if len(self.graphs) == MOST_GRAPHS:
            raise ValueError(f"a problem has at most {MOST_GRAPHS} graphs")
        if whole(identity, "a graph's number", 2**32 - 1) in self.graphs:
            raise ValueError(f"there is a graph {identity} already")
        self.graphs[identity] = Graph(self, identity, name)
        return self.graphs[identity]

    @classmethod
    def from_networkx(cls, graph: Any, weight: str = "weight", default: int | None = None) -> Problem:
        """A problem with one graph, `graphs[0]`, which is that of networkx: see `add_networkx`."""
        problem = cls()
        problem.add_networkx(graph, weight, default)
        return problem

    def add_networkx(self, graph: Any, weight: str = "weight", default: int | None = None) -> Graph:
        """A new graph that has the nodes and edges of a networkx graph, and its name.

        `Graph.node` finds a node by its key in networkx, whatever it is, and `Graph.between` the edges from a node to
        another, in networkx's order. An edge of an undirected graph is a link. A node lies where its attribute `pos`
        says. `weight` is the attribute that has an edge's weight or capacity. Where no edge has a `weight`, each weighs
        1; where some edges lack the attribute they weigh `default`. `ValueError`: there is none, or a weight isn't a
        whole number.
        """
        from .foreign import networkx_graph

        with self.unchanged_on_error():
            return networkx_graph(self, graph, weight, default)

    # ---- files

    def head_rows(self) -> Iterator[str]:
        """The lines of the problem's file behind its header and before its clauses."""
        yield from (f"c variable {number} {name}\n" for number, name in self.names.items())
        for graph in self.graphs.values():
            if len(graph):
                yield f"digraph int {len(graph)} {len(graph.edges)} {graph.identity}\n"
            if graph.name:
                yield f"c graph {graph.identity} {graph.name}\n"
            if graph.hidden:
                yield f"c hide {graph.identity}\n"
            yield from (f"c node {graph.identity} {node} {name}\n" for node, name in enumerate(graph.names) if name)
            yield from (f"c hide {graph.identity} {node}\n" for node in sorted(graph.hidden_nodes))
        yield from self.edges.rows()
        yield from (f"{predicate.word} {predicate.fields}\n" for predicate in self.predicates)

    def rows(self) -> Iterator[str]:
        """The lines of the problem's file, several at once where they are clauses."""
        yield f"p gnf {self.variables} {len(self.clauses)}\n"
        yield from self.head_rows()
        yield from self.clauses.rows()

    def text(self) -> str:
        """The problem as a file of the program's format; names are comments in it, which pictures read."""
        return "".join(self.rows())

    def write(self, path: str | os.PathLike[str]) -> None:
        """Writes the file."""
        with open(path, "w", encoding="utf-8", errors="replace", newline="\n") as file:
            file.writelines(self.rows())
