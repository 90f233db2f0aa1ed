"""A graph of a problem: its nodes, edges, and the predicates over it."""

from __future__ import annotations

from bisect import bisect_left
from collections import defaultdict
from collections.abc import Hashable, Iterable
from typing import TYPE_CHECKING, Any

from .edges import ALONE, BACK, THERE, GraphEdges
from .limits import MOST_BOUND, MOST_EDGES, MOST_NODES, MOST_PREDICATES, MOST_WEIGHT, one_line, whole
from .literals import Edge, Kind, Link, Literal, Predicate, WITHOUT_BOUND, WITHOUT_ENDS, WORDS
from .naming import so_many

if TYPE_CHECKING:
    from .problem import Problem

# A node's name: a text, or coordinates.
Name = str | tuple[Any, ...]


def written(name: Name) -> str:
    """A node's name as the file has it. `ValueError`: it isn't one line of text or coordinates."""
    if not isinstance(name, (str, tuple)):
        raise ValueError(f"a node's name is a text or coordinates, which {name!r} isn't; `key=` takes anything")
    hash(name)  # `Graph.node` finds the node by it, which a list among coordinates would forbid
    return one_line(name if isinstance(name, str) else ",".join(map(str, name)))


class Node(int):
    """A node by its number, from 0, which knows the graph that it is of."""

    graph: Graph

    def __new__(cls, number: int, graph: Graph) -> Node:
        made = super().__new__(cls, number)
        made.graph = graph
        return made

    def __getnewargs__(self) -> tuple[int, Graph]:  # type: ignore[override]
        return int(self), self.graph


class Graph:
    """A directed graph whose edges are there or not, as their variables say. `Problem.add_graph` makes one.

    `edges` lists all its directed edges, present or not, in the order in which they were added, and `links` those that
    are undirected, of which each is two edges. `names` has a node's name or "". Nodes count from 0. A node may have a
    name, which pictures show: any text without line breaks, or coordinates. A pair (x, y) says where the node lies (x
    to the right, y down); `"hub@3,1"` is the name hub at (3, 1). It may have a key of the user's own too, by which
    `node` finds it. `hidden` graphs, and the nodes of `hidden_nodes`, aren't drawn unless they are asked for.
    """

    def __init__(self, problem: Problem, identity: int, name: str = "") -> None:
        self.problem = problem
        self.identity = identity
        self.name = one_line(name)
        self.names: list[str] = []
        self.edges: GraphEdges = GraphEdges(problem.edges)
        self.hidden = False
        self.hidden_nodes: set[int] = set()
        self._by_key: defaultdict[Hashable, list[Node]] = defaultdict(list)

    def __len__(self) -> int:
        """The number of its nodes."""
        return len(self.names)

    def __bool__(self) -> bool:
        return True

    def __repr__(self) -> str:
        name = f" {self.name!r}" if self.name else ""
        return f"<graph {self.identity}{name}: {so_many(len(self), 'node')}, {so_many(len(self.edges), 'edge')}>"

    def _repr_svg_(self) -> str | None:
        """The bare graph as a picture, which Jupyter shows."""
        from .draw import shown_in_notebook

        return shown_in_notebook(self.problem, None, self.identity)

    def copy(self, problem: Problem) -> Graph:
        """The same graph of another problem, with the same keys, which are the user's own."""
        made = Graph(problem, self.identity, self.name)
        made.names = list(self.names)
        made.edges.numbers.extend(self.edges.numbers)
        made.hidden, made.hidden_nodes = self.hidden, set(self.hidden_nodes)
        for key, found in self._by_key.items():
            made._by_key[key] = [Node(node, made) for node in found]
        return made

    def cut(self, nodes: int, most_edge: int) -> None:
        """Leaves its first nodes, so many, and the edges up to that number."""
        self.edges.cut(most_edge)
        if nodes == len(self.names):
            return
        del self.names[nodes:]
        self.hidden_nodes = {node for node in self.hidden_nodes if node < nodes}
        for key, found in list(self._by_key.items()):
            self._by_key[key] = [node for node in found if node < nodes]

    def add_node(self, name: Name = "", key: Hashable = None) -> Node:
        """A further node: its number, from 0.

        `key` is anything hashable by which `node` finds it again; where it is left out, the name is. `ValueError`:
        another node of the graph has the key, or the name isn't one line of text or coordinates.
        """
        text = written(name)
        if key is not None and self._by_key.get(key):
            raise ValueError(f"graph {self.identity} has a node {key!r} already")
        if self.problem.nodes == MOST_NODES:
            raise ValueError(f"a problem has at most {MOST_NODES} nodes")
        self.names.append(text)
        self.problem.node_graphs.append(self.identity)
        node = Node(len(self.names) - 1, self)
        if key is None and name != "":
            key = name
        if key is not None:
            self._by_key[key].append(node)
        return node

    def grow(self, count: int) -> range:
        """Further nodes without names, so many: their numbers."""
        before = len(self.names)
        count = whole(count, "a number of further nodes", MOST_NODES - self.problem.nodes)
        self.names.extend([""] * count)
        self.problem.node_graphs.extend([self.identity] * count)
        return range(before, before + count)

    def add_nodes(self, names: int | Iterable[Name]) -> list[Node]:
        """Further nodes, so many or one for each name: their numbers."""
        if isinstance(names, str):
            raise ValueError(f"add_nodes takes a number or a list of names; add_node takes the one name {names!r}")
        if not isinstance(names, Iterable):
            return [Node(number, self) for number in self.grow(names)]
        chosen = list(names)
        whole(len(chosen), "a number of further nodes", MOST_NODES - self.problem.nodes)
        with self.problem.unchanged_on_error():
            return [self.add_node(name) for name in chosen]

    def name_node(self, node: int, name: str) -> None:
        """Gives a node of a file the name that stands there, by which `node` finds it from then on."""
        known = self._by_key.get(self.names[node], [])
        if node in known:
            known.remove(Node(node, self))
        self.names[node] = name
        self._by_key[name].append(Node(node, self))

    def node(self, key: Hashable) -> Node:
        """The node with that key, or with that name where it was given no key. `ValueError`: none, or several have."""
        found = self._by_key.get(key, [])
        if len(found) != 1:
            raise ValueError(f"graph {self.identity} has {'several nodes' if found else 'no node'} {key!r}")
        return found[0]

    def hide(self, *nodes: int) -> None:
        """Leaves these nodes and their edges out of pictures, or, where none is named, the whole graph."""
        own = [self._own(node) for node in nodes]
        self.hidden_nodes.update(own)
        self.hidden = self.hidden or not own

    def add_edge(self, start: int, end: int, weight: int = 1, variable: Literal | None = None) -> Edge:
        """A directed edge, present exactly where its variable is true.

        `weight` is from 0 to 2^64 - 1. `variable` is a new one where it is left out; several edges may share one.
        """
        start, end = self._own(start), self._own(end)
        weight = whole(weight, "an edge's weight", MOST_WEIGHT)
        return self._append(start, end, weight, variable, ALONE)

    def _append(self, start: int, end: int, weight: int, variable: Literal | None, side: int) -> Edge:
        """A further edge between nodes that are the graph's own."""
        owner = self.problem
        if len(owner.edges) == MOST_EDGES:
            raise ValueError(f"a problem has at most {MOST_EDGES} edges")
        edge = owner.edges.append(self.identity, start, end, owner.variable_of(variable), weight, side)
        self.edges.numbers.append(edge.edge_number)
        return edge

    def add_link(self, one: int, other: int, weight: int = 1, variable: Literal | None = None) -> Link:
        """An undirected edge: two edges, there and back, of one variable."""
        one, other = self._own(one), self._own(other)
        weight = whole(weight, "a link's weight", MOST_WEIGHT)
        with self.problem.unchanged_on_error():
            there = self._append(one, other, weight, variable, THERE)
            back = self._append(other, one, weight, self.problem.literal(there.number), BACK)
        return Link(there, back)

    @property
    def links(self) -> list[Link]:
        """Its undirected edges, in the order in which they were added."""
        all_edges = self.problem.edges
        numbers = (number for number in self.edges.numbers if all_edges.sides[number - 1] == THERE)
        return [Link(all_edges.edge(number), all_edges.edge(number + 1)) for number in numbers]

    def between(self, start: int, end: int) -> list[Edge | Link]:
        """What leads from a node to another, edges and links, in the order in which they were added.

        Each call looks at all edges of the graph.
        """
        start, end, all_edges = self._own(start), self._own(end), self.problem.edges
        starts, ends, sides = all_edges.starts, all_edges.ends, all_edges.sides
        numbers = [n for n in self.edges.numbers if starts[n - 1] == start and ends[n - 1] == end]
        chosen = [n for n in numbers if start != end or sides[n - 1] != BACK]
        return [all_edges.thing(number) for number in chosen]

    def has_edge(self, number: int) -> bool:
        """Whether the edge of that number is of this graph."""
        place = bisect_left(self.edges.numbers, number)
        return place < len(self.edges) and self.edges.numbers[place] == number

    def reach(self, start: int, end: int, variable: Literal | None = None) -> Predicate:
        """Whether a walk leads from start to end. From a node to itself one always does."""
        return self.add_predicate("reach", (start, end), None, variable)

    def distance_leq(self, start: int, end: int, bound: int, variable: Literal | None = None) -> Predicate:
        """Whether a walk of at most `bound` edges leads from start to end."""
        return self.add_predicate("distance_leq", (start, end), bound, variable)

    def distance_lt(self, start: int, end: int, bound: int, variable: Literal | None = None) -> Predicate:
        """Whether a walk of fewer than `bound` edges leads from start to end."""
        return self.add_predicate("distance_lt", (start, end), bound, variable)

    def weighted_distance_leq(self, start: int, end: int, bound: int, variable: Literal | None = None) -> Predicate:
        """Whether a walk whose edges weigh at most `bound` together leads from start to end."""
        return self.add_predicate("weighted_distance_leq", (start, end), bound, variable)

    def weighted_distance_lt(self, start: int, end: int, bound: int, variable: Literal | None = None) -> Predicate:
        """Whether a walk whose edges weigh less than `bound` together leads from start to end."""
        return self.add_predicate("weighted_distance_lt", (start, end), bound, variable)

    def maximum_flow_geq(self, source: int, sink: int, bound: int, variable: Literal | None = None) -> Predicate:
        """Whether a flow of at least `bound` leads from source to sink, which differ; weights are capacities."""
        return self.add_predicate("maximum_flow_geq", (source, sink), bound, variable)

    def maximum_flow_gt(self, source: int, sink: int, bound: int, variable: Literal | None = None) -> Predicate:
        """Whether a flow of more than `bound` leads from source to sink, which differ; weights are capacities."""
        return self.add_predicate("maximum_flow_gt", (source, sink), bound, variable)

    def mst_weight_leq(self, bound: int, variable: Literal | None = None) -> Predicate:
        """Whether a spanning tree, directions ignored, joins all nodes with a weight of at most `bound`."""
        return self.add_predicate("mst_weight_leq", None, bound, variable)

    def mst_weight_lt(self, bound: int, variable: Literal | None = None) -> Predicate:
        """Whether a spanning tree, directions ignored, joins all nodes with a weight below `bound`."""
        return self.add_predicate("mst_weight_lt", None, bound, variable)

    def acyclic(self, variable: Literal | None = None) -> Predicate:
        """Whether the edges that are there hold no directed cycle; an edge from a node to itself is one."""
        return self.add_predicate("acyclic", None, None, variable)

    def add_predicate(
        self, word: str, ends: tuple[int, int] | None, bound: int | None, variable: Literal | None = None
    ) -> Predicate:
        """A predicate by its word in the files. Its variable is true exactly where it holds.

        `ends` and `bound`, from 0 to 2^53, are None exactly where the word has none. `variable` is a new one where it
        is left out.
        """
        if not len(self):
            raise ValueError(f"graph {self.identity} has no nodes, and a predicate speaks of some: add_node makes one")
        kind = WORDS[word][0] if word in WORDS else None
        if kind is None or (ends is None) != (kind in WITHOUT_ENDS) or kind in WITHOUT_BOUND and bound is not None:
            raise ValueError(f"there is no predicate {word!r} with the ends {ends} and the bound {bound}")
        if ends is not None:
            ends = self._own(ends[0]), self._own(ends[1])
        if kind not in WITHOUT_BOUND:
            bound = whole(bound, "a bound", MOST_BOUND)
        if kind is Kind.MAXIMUM_FLOW and ends is not None and ends[0] == ends[1]:
            raise ValueError(f"a flow leads from one node to another, and not from {ends[0]} to itself")
        number = len(self.problem.predicates) + 1
        if number > MOST_PREDICATES:
            raise ValueError(f"a problem has at most {MOST_PREDICATES} predicates")
        owner = self.problem
        predicate = Predicate(owner.variable_of(variable), number, self.identity, word, ends, bound, owner=owner)
        self.problem.predicates.append(predicate)
        return predicate

    def _own(self, node: int) -> int:
        """The node's number. `ValueError`: it isn't of this graph."""
        if isinstance(node, Node):
            if node.graph is not self:
                raise ValueError(f"node {node} is of another graph, and not of graph {self.identity}")
            number = int(node)
        elif isinstance(node, (str, tuple)):
            raise ValueError(f"{node!r} is no node: graph.node({node!r}) finds the one of that name or key")
        else:
            number = whole(node, "a node's number")
        if number >= len(self):
            raise ValueError(
                f"graph {self.identity} has no node {number}: it has {len(self)}, counted from 0; add_node makes more"
            )
        return number
