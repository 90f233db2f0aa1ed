"""Families on what comes before what: no circle may be left (Karp 1972; Roy and Sussmann 1964)."""

from __future__ import annotations

import itertools
import random

from families.encoding import Encoding


def feedback(size: tuple[int, int], seed: int) -> Encoding:
    """A feedback arc set: without so few of the arcs of a drawn graph, three a node, no cycle is left."""
    count, fewer = size
    drawn = random.Random(seed)
    made = Encoding()
    graph = made.graph(count)
    arcs = drawn.sample([(u, v) for u in range(count) for v in range(count) if u != v], 3 * count)
    kept = [made.edge(graph, u, v) for u, v in arcs]
    made.clause(made.predicate("acyclic", graph))
    made.at_most(len(against(count, arcs)) - fewer - seed % 3, [-x for x in kept])
    return made


def against(count: int, arcs: list[tuple[int, int]]) -> list[tuple[int, int]]:
    """The arcs against an order of the nodes that puts sources first and sinks last (Eades, Lin and Smyth 1993)."""
    left = set(range(count))
    first: list[int] = []
    last: list[int] = []
    while left:
        inside = [(u, v) for u, v in arcs if u in left and v in left]
        more = {u: sum(a == u for a, _ in inside) - sum(b == u for _, b in inside) for u in left}
        sinks = left - {u for u, _ in inside}
        node = min(sinks) if sinks else max(sorted(left), key=lambda u: (not any(b == u for _, b in inside), more[u]))
        (last if sinks else first).append(node)
        left.remove(node)
    rank = {u: place for place, u in enumerate(first + last[::-1])}
    return [(u, v) for u, v in arcs if rank[u] > rank[v]]


def schedules(size: tuple[int, int], seed: int) -> Encoding:
    """Jobs that visit each machine in a drawn order, with an order of the jobs on each; some choices exclude others."""
    jobs, machines = size
    drawn = random.Random(seed)
    made = Encoding()
    graph = made.graph(jobs * machines)
    for job in range(jobs):
        way = drawn.sample(range(machines), machines)
        for one, other in zip(way, way[1:]):
            made.clause(made.edge(graph, job * machines + one, job * machines + other))
    before: dict[tuple[int, int], int] = {}
    for machine in range(machines):
        for job, later in itertools.combinations(range(jobs), 2):
            u, v = job * machines + machine, later * machines + machine
            before[u, v], before[v, u] = made.edge(graph, u, v), made.edge(graph, v, u)
            made.clause(before[u, v], before[v, u])
    choices = sorted(before.values())
    for _ in range(len(choices) * (10 + seed % 3) // 20):
        made.clause(*(-x for x in drawn.sample(choices, 3)))
    made.clause(made.predicate("acyclic", graph))
    return made
