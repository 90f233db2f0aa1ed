"""Families on grids of n by n nodes whose neighbours are joined by edges both ways, with random clauses over these."""

from __future__ import annotations

import random

from families.boards import neighbours
from families.encoding import Encoding

WALKS_AND_FLOWS = ["reach", "distance_leq", "weighted_distance_leq", "maximum_flow_geq"]


def grid(n: int, drawn: random.Random) -> tuple[Encoding, int, list[int]]:
    """The grid with its clauses, the graph and its edges' variables."""
    made = Encoding()
    graph = made.graph(n * n)
    edges: list[int] = []
    for u, v in neighbours(n):
        for s, t in ((u, v), (v, u)):
            edges.append(made.edge(graph, s, t, drawn.randint(1, 9)))
    for _ in range(4 * n * n - 3):
        x, y, z = (drawn.choice(edges) for _ in range(3))
        made.clause(x, drawn.choice([-1, 1]) * y, drawn.choice([-1, 1]) * z)
    return made, graph, edges


def predicates(size: tuple[int, int], seed: int, words: list[str] = WALKS_AND_FLOWS) -> Encoding:
    """Predicates on walks and flows in turn: most have to hold, and the others have to fail."""
    n, count = size
    drawn = random.Random(seed)
    made, graph, _ = grid(n, drawn)
    for k in range(count):
        word = words[k % len(words)]
        u, v = drawn.sample(range(n * n), 2)
        apart = abs(u // n - v // n) + abs(u % n - v % n)
        holds = k % 7 < 5
        bounds: dict[str, list[int]] = {
            "reach": [],
            "distance_leq": [apart + 4 if holds else apart],
            "weighted_distance_leq": [5 * apart + 9 if holds else 3 * apart],
            "maximum_flow_geq": [drawn.randint(2, 5) if holds else drawn.randint(12, 20)],
        }
        holds = holds or word == "reach"
        made.clause(made.predicate(word, graph, u, v, *bounds[word]) * (1 if holds else -1))
    return made


def reaching(size: tuple[int, int], seed: int) -> Encoding:
    """The same grid with predicates of reachability alone."""
    return predicates(size, seed, ["reach"])


def near(size: tuple[int, int], seed: int) -> Encoding:
    """The same grid with predicates on walks within a limit alone."""
    return predicates(size, seed, ["distance_leq", "weighted_distance_leq"])


def flows(size: tuple[int, int], seed: int) -> Encoding:
    """The same grid with predicates on flows alone."""
    return predicates(size, seed, ["maximum_flow_geq"])


def tree_bounds(size: tuple[int, int], seed: int) -> Encoding:
    """Predicates on spanning trees of the same grid with rising bounds, of which the upper ones have to hold."""
    n, count = size
    drawn = random.Random(seed)
    made, graph, edges = grid(n, drawn)
    for k in range(count):
        x = made.predicate("mst_weight_leq", graph, (n * n - 1) * (12 + k) // 5)
        made.clause(x if k >= count // 2 else drawn.choice([-x, drawn.choice(edges)]))
    return made


def wall(n: int, seed: int) -> Encoding:
    """The last node has to be reached, and no edge leads over one column's border."""
    drawn = random.Random(seed)
    made, graph, edges = grid(n, drawn)
    made.clauses.clear()
    q = drawn.randrange(n - 1)
    crossing = {(u, u + 1) for u in range(q, n * n, n)}
    for pair, x in zip(neighbours(n), edges[::2]):
        if pair in crossing:
            made.clause(-x)
    made.clause(made.predicate("reach", graph, 0, n * n - 1))
    return made
