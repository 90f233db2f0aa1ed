"""Models: which edges are present, and the walk, flow, tree or order that shows that a predicate holds."""

from __future__ import annotations

from collections.abc import Iterable, Iterator, Mapping
from typing import TYPE_CHECKING, Any, Literal as Constant, NoReturn, Protocol, overload

from . import search
from .errors import PackageMissing
from .graph import Graph, Node
from .literals import Edge, Kind, Link, Literal, Predicate, WORDS
from .naming import so_many
from .problem import Problem
from .statistics import Statistics

if TYPE_CHECKING:
    from .answer import Answer

WALKS = (Kind.REACH, Kind.DISTANCE, Kind.WEIGHTED_DISTANCE)
UNKNOWN, FALSE, TRUE = 0, 1, 2


class Valued(Protocol):
    """What has a number for its value in a model: a sum, or a time of a schedule."""

    def value_in(self, model: Model) -> int:
        """Its value in the model."""


class Values(Mapping[int, bool]):
    """The values of variables, a byte for each."""

    def __init__(self, variables: int) -> None:
        self.signs = bytearray(variables + 1)

    def set(self, literals: Iterable[int]) -> None:
        """These literals are true. `IndexError`: one is of no variable."""
        signs = self.signs
        for number in literals:
            if number > 0:
                signs[number] = TRUE
            elif number < 0:
                signs[-number] = FALSE

    def literals(self) -> list[int]:
        """The literals that are true, by their numbers."""
        return [number if sign == TRUE else -number for number, sign in enumerate(self.signs) if sign]

    def __getitem__(self, variable: int) -> bool:
        sign = self.signs[variable] if 0 < variable < len(self.signs) else UNKNOWN
        if sign == UNKNOWN:
            raise KeyError(variable)
        return sign == TRUE

    def __iter__(self) -> Iterator[int]:
        return (variable for variable, sign in enumerate(self.signs) if sign)

    def __len__(self) -> int:
        return len(self.signs) - self.signs.count(UNKNOWN)

    def __repr__(self) -> str:
        return repr(dict(self))


class Flow(dict[Edge, int]):
    """The amounts of a flow by the edges that carry any, each in its direction.

    `flow[edge]` is 0 for an edge that carries nothing. `flow[link]` is what a link carries from the first of its ends
    to the second, less what it carries back.
    """

    def __getitem__(self, thing: Edge | Link) -> int:
        if isinstance(thing, Link):
            return self.get(thing.there, 0) - self.get(thing.back, 0)
        return self.get(thing, 0)


class Model:
    """An assignment that makes every clause true and agrees with every graph.

    `seconds` are those of each phase of the solve that found it, and empty where it was only read.
    """

    def __init__(self, problem: Problem, values: Mapping[int, bool], text: str) -> None:
        self.problem = problem
        self.values = values
        self.text = text
        self.seconds: dict[str, float] = {}

    def __bool__(self) -> Constant[True]:
        return True

    def __repr__(self) -> str:
        count = sum(self.values.values())
        return f"<model of {so_many(len(self.values), 'variable')}, {count} of them true>"

    def _repr_svg_(self) -> str | None:
        """The graphs with what holds in them, which Jupyter shows."""
        from .draw import shown_in_notebook

        return shown_in_notebook(self.problem, self)

    if not TYPE_CHECKING:  # of a type checker these names stay unknown

        def __getattr__(self, name: str) -> NoReturn:
            said = "`steps`, `lemmas` and `lrat` are a refutation's, which is false in an `if`"
            raise AttributeError(f"a model has no {name!r}; {said}")

    @property
    def statistics(self) -> Statistics:
        """What it took, read off it."""
        return Statistics(dict(self.seconds), None, {}, len(self.text.encode()))

    @overload
    def __getitem__(self, thing: Literal) -> bool: ...
    @overload
    def __getitem__(self, thing: Valued) -> int: ...

    def __getitem__(self, thing: Literal | Valued) -> bool | int:
        """Whether the literal is true: of an edge, whether it is present, of a predicate, whether it holds.

        Of a sum or a time of a schedule, its value.
        """
        if not isinstance(thing, Literal) and hasattr(thing, "value_in"):
            return thing.value_in(self)
        if not isinstance(thing, Literal) or thing.owner not in (None, self.problem):
            raise ValueError(f"{thing!r} is no literal of the problem that was solved")
        if thing.variable not in self.values:
            raise ValueError(f"{thing} isn't of the problem that was solved; solve again after adding to it")
        return self.values[thing.variable] == (thing.number > 0)

    def edges(self, graph: Graph) -> list[Edge | Link]:
        """What is present, edges and links, each once, in the order in which they were added."""
        return things(self.present(graph))

    def present(self, graph: Graph) -> list[Edge]:
        """The directed edges that are present, both directions of a link among them, in the order of their numbers."""
        return list(map(self.problem.edges.edge, self._numbers(graph)))

    def arcs(self, graph: Graph) -> list[search.Arc]:
        """What `present` gives, by what a search needs of it."""
        numbers, edges = self._numbers(graph), self.problem.edges
        places = [number - 1 for number in numbers]
        columns = (map(column.__getitem__, places) for column in (edges.starts, edges.ends, edges.weights))
        return list(map(search.Arc._make, zip(numbers, *columns)))

    def path(self, predicate: Predicate) -> list[Edge | Link]:
        """A shortest walk of what is present between the predicate's ends, by weight for weighted distances.

        Where it follows a link, either way, the link stands there; `nodes` has the walk's nodes in their order. The
        walk from a node to itself is empty. `ValueError`: the predicate isn't of that kind, or it doesn't hold.
        """
        return [edge.thing for edge in self.walk(predicate)]

    def walk(self, predicate: Predicate) -> list[Edge]:
        """The walk of `path` as directed edges, of which each begins where the one before it ends."""
        start, end = self._ends(predicate, WALKS, "a walk")
        weighted = predicate.kind is Kind.WEIGHTED_DISTANCE
        walk = search.shortest_walk(self._arcs_of(predicate), start, end, weighted)
        assert walk is not None, "the predicate holds, so there is a walk"
        return self._edges(walk)

    def nodes(self, predicate: Predicate) -> list[Node]:
        """The nodes of the walk of `path`, from the predicate's first end to its second."""
        graph = self.problem.graphs[predicate.graph]
        ends = [edge.end for edge in self.walk(predicate)]
        assert predicate.ends is not None
        return [Node(node, graph) for node in (predicate.ends[0], *ends)]

    def flow(self, predicate: Predicate) -> Flow:
        """The amounts of a flow that meets the predicate's bound, in units of capacity, of the edges that carry any.

        No link carries something both ways. `ValueError`: the predicate isn't of that kind, or it doesn't hold.
        """
        source, sink = self._ends(predicate, (Kind.MAXIMUM_FLOW,), "a flow")
        found = search.flow_of_at_least(self._arcs_of(predicate), source, sink, predicate.limit or 0)
        return Flow(search.one_way(dict(zip(self._edges(found), found.values()))))

    def tree(self, predicate: Predicate) -> list[Edge | Link]:
        """The edges and links of a lightest spanning tree.

        `ValueError`: the predicate isn't of that kind, or it doesn't hold.
        """
        self._require(predicate, (Kind.MST_WEIGHT,), "a tree")
        graph = self.problem.graphs[predicate.graph]
        tree = search.lightest_tree(len(graph), self.arcs(graph))
        assert tree is not None, "the predicate holds, so there is a tree"
        return things(self._edges(tree))

    def order(self, predicate: Predicate) -> list[int]:
        """All nodes of the graph in an order in which each present edge leads from an earlier node to a later one.

        Of nodes that could come next the one with the least number does. `ValueError`: the predicate isn't `acyclic`,
        or it doesn't hold.
        """
        self._require(predicate, (Kind.ACYCLIC,), "an order")
        graph = self.problem.graphs[predicate.graph]
        order = search.topological_order(len(graph), self.arcs(graph))
        assert order is not None, "the predicate holds, so there is an order"
        return order

    def migrate(self, version: int, program: str | None = None) -> Model:
        """The model in version 1 or 2 of the format of answers (docs/FORMATS.md), by the program's `migrate`.

        The program judges the answer against the problem as it is now, and turns only what it accepts.
        `RejectedAnswer`: it doesn't, as where the problem has grown since. `UnexpectedStatus`: it printed something
        else. Both name the files, which stay. `ProgramMissing`: there is no program.
        """
        from .answer import migrate

        found: Answer = migrate(self, version, program)
        assert isinstance(found, Model), "a model's migrated text is a model"
        return found

    def networkx(self, graph: Graph) -> Any:
        """The present edges as a `networkx.MultiDiGraph`, whose edges are keyed by their numbers and have a weight.

        `PackageMissing`: networkx isn't installed; `edges` gives the same as a list.
        """
        try:
            import networkx
        except ImportError as missing:
            raise PackageMissing("networkx isn't installed: pip install networkx, or use Model.edges") from missing
        found = networkx.MultiDiGraph()
        for node, name in enumerate(graph.names):
            found.add_node(node, name=name)
        for edge in self.present(graph):
            found.add_edge(edge.start, edge.end, key=edge.edge_number, weight=edge.weight)
        return found

    def _numbers(self, graph: Graph) -> list[int]:
        """The numbers of the edges that are present."""
        if graph.problem is not self.problem:
            raise ValueError(f"graph {graph.identity} isn't of the problem that was solved")
        variables, value = self.problem.edges.variables, self.values.__getitem__
        try:
            return [number for number in graph.edges.numbers if value(variables[number - 1])]
        except KeyError as missing:
            fault = f"graph {graph.identity} has an edge that isn't of the problem that was solved"
            raise ValueError(f"{fault}; solve again after adding to it") from missing

    def _arcs_of(self, predicate: Predicate) -> list[search.Arc]:
        return self.arcs(self.problem.graphs[predicate.graph])

    def _edges(self, arcs: Iterable[search.Arc]) -> list[Edge]:
        return [self.problem.edges.edge(arc.edge_number) for arc in arcs]

    def _ends(self, predicate: Predicate, kinds: tuple[Kind, ...], what: str) -> tuple[int, int]:
        self._require(predicate, kinds, what)
        assert predicate.ends is not None
        return predicate.ends

    def _require(self, predicate: Predicate, kinds: tuple[Kind, ...], what: str) -> None:
        if not isinstance(predicate, Predicate) or predicate.kind not in kinds:
            words = ", ".join(word for word, (kind, _) in WORDS.items() if kind in kinds)
            raise ValueError(f"{predicate!r} is no predicate that {what} shows: these are {words}")
        if not self[predicate]:
            raise ValueError(f"'{predicate}' fails in this model, so there isn't {what}; ask model[predicate] first")


def things(edges: Iterable[Edge]) -> list[Edge | Link]:
    """These edges, a link in place of either of its directions, and each link once."""
    return list(dict.fromkeys(edge.thing for edge in edges))
