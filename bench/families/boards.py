"""Families on boards of n by n cells, numbered row by row."""

from __future__ import annotations

import itertools
import random
from collections.abc import Iterator

from families.encoding import Encoding


def neighbours(n: int) -> Iterator[tuple[int, int]]:
    """The pairs of cells that lie side by side."""
    for r, q in itertools.product(range(n), repeat=2):
        if q + 1 < n:
            yield r * n + q, r * n + q + 1
        if r + 1 < n:
            yield r * n + q, (r + 1) * n + q


def routing(size: tuple[int, int], seed: int) -> Encoding:
    """Nets that join two pins each, a graph a net; a cell is used by one net at most, one cell in eight is blocked."""
    n, nets = size
    return routed(n, nets, n * n // 8, seed)


def boards(size: tuple[int, int], seed: int) -> Encoding:
    """Nets as in `routing`, on boards like those of examples/routing: one cell in ten is blocked."""
    n, nets = size
    return routed(n, nets, n * n // 10, seed)


def routed(n: int, nets: int, without: int, seed: int) -> Encoding:
    """Nets on a board on which so many cells are blocked."""
    drawn = random.Random(seed)
    blocked = set(drawn.sample(range(n * n), without))
    pins = drawn.sample([u for u in range(n * n) if u not in blocked], 2 * nets)
    made = Encoding()
    users: list[list[int]] = [[] for _ in range(n * n)]
    for start, end in zip(pins[::2], pins[1::2]):
        graph, uses = made.graph(n * n), [made.variable() for _ in range(n * n)]
        for u, x in enumerate(uses):
            users[u].append(x)
        for u, v in neighbours(n):
            if not {u, v} & blocked:
                x = made.link(graph, u, v)
                made.clause(-x, uses[u])
                made.clause(-x, uses[v])
        made.clause(made.predicate("reach", graph, start, end))
    for u in range(n * n):
        for x, y in itertools.combinations(users[u], 2):
            made.clause(-x, -y)
    return made


def maze(n: int, seed: int) -> Encoding:
    """Passages between cells, so that only long ways lead to the exit, and each square of cells has a wall."""
    drawn = random.Random(seed)
    made = Encoding()
    graph = made.graph(n * n)
    passage = {(u, v): made.link(graph, u, v) for u, v in neighbours(n)}
    for r, q in itertools.product(range(n - 1), repeat=2):
        u = r * n + q
        made.clause(-passage[u, u + 1], -passage[u, u + n], -passage[u + 1, u + n + 1], -passage[u + n, u + n + 1])
    for u in range(n * n):
        made.clause(*(x for pair, x in passage.items() if u in pair))
    for corner in (n - 1, n * n - n):
        made.clause(made.predicate("reach", graph, 0, corner))
    shorter = 2 * n + drawn.randrange(n * n // 4)
    made.clause(made.predicate("distance_leq", graph, 0, n * n - 1, shorter + 2 * n))
    made.clause(-made.predicate("distance_leq", graph, 0, n * n - 1, shorter))
    for x in drawn.sample(list(passage.values()), n * n // 4):
        made.clause(x if drawn.random() < 0.5 else -x)
    return made
