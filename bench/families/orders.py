"""Orders in which one element stands between two others (Opatrny 1979), with reachability in place of transitivity."""

from __future__ import annotations

import random
from collections.abc import Iterable, Iterator

from families.encoding import Encoding


def betweenness(count: int, seed: int) -> Encoding:
    """Each drawn triple has its middle between its ends. Odd seeds draw triples of a hidden order: so there is one."""
    drawn = random.Random(seed)
    hidden = list(range(count))
    drawn.shuffle(hidden)
    if seed % 2:
        return ordered(count, (sorted(triple, key=hidden.index) for triple in triples(count, 2 * count, drawn)))
    return ordered(count, triples(count, 3 * count, drawn))


def any_betweenness(size: tuple[int, int], seed: int) -> Encoding:
    """So many elements and drawn triples, of no hidden order."""
    count, many = size
    return ordered(count, triples(count, many, random.Random(seed)))


def ordered(count: int, of: Iterable[list[int]]) -> Encoding:
    """Orders in which each of these triples has its middle between its ends."""
    made = Encoding()
    graph = made.graph(count)
    before: dict[tuple[int, int], int] = {}

    def pair(u: int, v: int) -> int:
        """The variable by which u comes before v."""
        if (u, v) not in before:
            for s, t in ((u, v), (v, u)):
                before[s, t] = made.edge(graph, s, t)
            made.clause(before[u, v], before[v, u])
            there, back = (made.predicate("reach", graph, s, t) for s, t in ((u, v), (v, u)))
            made.clause(-there, -back)  # no cycle
        return before[u, v]

    for u, v, w in of:
        made.clause(pair(u, v), pair(w, v))
        made.clause(pair(v, u), pair(v, w))
        made.clause(-pair(u, v), pair(v, w))
        made.clause(-pair(w, v), pair(v, u))
    return made


def triples(count: int, many: int, drawn: random.Random) -> Iterator[list[int]]:
    """So many draws of three elements each."""
    return (drawn.sample(range(count), 3) for _ in range(many))
