"""Families of networks as large as engineers have them: grids of n by n nodes whose neighbours are joined by edges."""

from __future__ import annotations

import itertools
import random

from families.boards import neighbours
from families.encoding import Encoding

# By word: how many predicates are asked for. The bounds are below.
KINDS = {"reach": 10, "distance_leq": 10, "weighted_distance_leq": 10, "maximum_flow_geq": 10, "mst_weight_leq": 1}


def streets(n: int, drawn: random.Random, back: float = 1.0) -> tuple[Encoding, int, dict[tuple[int, int], int]]:
    """The grid with edges of weights from 1 to 9, this share of them both ways, and their variables."""
    made = Encoding()
    graph = made.graph(n * n)
    edges = {}
    for u, v in neighbours(n):
        edges[u, v] = made.edge(graph, u, v, drawn.randint(1, 9))
        if drawn.random() < back:
            edges[v, u] = made.edge(graph, v, u, drawn.randint(1, 9))
    return made, graph, edges


def closures(made: Encoding, edges: list[int], drawn: random.Random) -> None:
    """Clauses of three edges, three for four edges, most of whose literals keep an edge away."""
    for _ in range(3 * len(edges) // 4):
        made.clause(*(drawn.choice([-1, -1, 1]) * x for x in drawn.sample(edges, 3)))


def wanted(made: Encoding, graph: int, word: str, n: int, ends: tuple[int, int], drawn: random.Random) -> int:
    """A predicate that a grid with most of its edges meets."""
    u, v = ends
    apart = abs(u // n - v // n) + abs(u % n - v % n)
    bounds = {
        "distance_leq": [apart + drawn.randint(4, 40)],
        "weighted_distance_leq": [5 * apart + 40],
        "maximum_flow_geq": [3],
        "mst_weight_leq": [5 * n * n],
    }
    fields = [] if word.startswith("mst") else [u, v]
    return made.predicate(word, graph, *fields, *bounds.get(word, []))


def networks(size: tuple[int, str], seed: int) -> Encoding:
    """Predicates of one kind that have to hold, far apart in a large grid: there is a model, soon found."""
    n, word = size
    drawn = random.Random(seed)
    made, graph, edges = streets(n, drawn)
    for _ in range(KINDS[word]):
        u, v = drawn.sample(range(n * n), 2)
        made.clause(wanted(made, graph, word, n, (u, v), drawn))
    closures(made, list(edges.values()), drawn)
    return made


def shut(size: tuple[int, str], seed: int) -> Encoding:
    """The same, but no edge to one node can stay, so that the last predicate fails near it: there is no model."""
    n, word = size
    drawn = random.Random(seed)
    made, graph, edges = streets(n, drawn)
    for _ in range(KINDS[word] - 1):
        u, v = drawn.sample(range(n * n), 2)
        made.clause(wanted(made, graph, word, n, (u, v), drawn))
    target = n * n // 2 + n // 2
    near = sorted(x for (u, v), x in edges.items() if v == target or (word.startswith("mst") and u == target))
    made.clause(wanted(made, graph, word, n, (0, target), drawn))
    # two clauses say of each that it is away
    for x in near:
        y = made.variable()
        made.clause(-x, y)
        made.clause(-x, -y)
    return made


def cells(n: int, seed: int) -> Encoding:
    """A maze of n by n cells each of which is reached from the first one; no square of four cells is open all round."""
    drawn = random.Random(seed)
    made = Encoding()
    graph = made.graph(n * n)
    passage = {(u, v): made.link(graph, u, v) for u, v in neighbours(n)}
    for v in range(1, n * n):
        made.clause(made.predicate("reach", graph, 0, v))
    for r, q in itertools.product(range(n - 1), repeat=2):
        u = r * n + q
        around = (passage[u, u + 1], passage[u + n, u + n + 1], passage[u, u + n], passage[u + 1, u + n + 1])
        made.clause(*(-x for x in around))
    for x in passage.values():
        if drawn.random() < 0.05:
            made.clause(-x)
    return made


def one_way(n: int, seed: int) -> Encoding:
    """A grid of which a fifth of the edges leads back too, and the edges that stay have no cycle."""
    drawn = random.Random(seed)
    made, graph, edges = streets(n, drawn, 0.2)
    made.clause(made.predicate("acyclic", graph))
    closures(made, list(edges.values()), drawn)
    return made
