"""Families on sites that lie at random points of a square; a link's weight is the distance of its sites."""

from __future__ import annotations

import itertools
import math
import random

from families.encoding import Encoding

Pair = tuple[int, int]


class Sites:
    """So many points."""

    def __init__(self, count: int, drawn: random.Random) -> None:
        self.drawn = drawn
        self.points = [(drawn.randrange(1000), drawn.randrange(1000)) for _ in range(count)]

    def distance(self, u: int, v: int) -> int:
        (a, b), (c, d) = self.points[u], self.points[v]
        return round(math.sqrt((a - c) ** 2 + (b - d) ** 2))

    def near_pairs(self, count: int) -> list[Pair]:
        """The pairs of each site and those nearest to it, each pair once."""
        pairs = set()
        for u in range(len(self.points)):
            others = sorted((self.distance(u, v), v) for v in range(len(self.points)) if v != u)
            pairs |= {(min(u, v), max(u, v)) for _, v in others[:count]}
        return sorted(pairs)

    def turns_left(self, u: int, v: int, w: int) -> bool:
        """Whether the way over these three turns left."""
        (a, b), (c, d), (e, f) = (self.points[k] for k in (u, v, w))
        return (c - a) * (f - b) - (d - b) * (e - a) > 0

    def cross(self, one: Pair, other: Pair) -> bool:
        """Whether the straight lines of two links cross between their ends."""
        if set(one) & set(other):
            return False
        (u, v), (s, t) = one, other
        apart = self.turns_left(u, v, s) != self.turns_left(u, v, t)
        return apart and self.turns_left(s, t, u) != self.turns_left(s, t, v)

    def least_tree(self, pairs: list[Pair]) -> int:
        """The weight of a lightest tree of these links (Kruskal)."""
        name, weight = list(range(len(self.points))), 0
        for u, v in sorted(pairs, key=lambda pair: self.distance(*pair)):
            if name[u] != name[v]:
                weight += self.distance(u, v)
                old, new = name[u], name[v]
                name = [new if k == old else k for k in name]
        return weight


def wires(made: Encoding, sites: Sites, pairs: list[Pair]) -> tuple[int, dict[Pair, int]]:
    """A graph with a link for each pair, as heavy as it is long, and the links' variables; none that cross stand."""
    graph = made.graph(len(sites.points))
    links = {(u, v): made.link(graph, u, v, sites.distance(u, v)) for u, v in pairs}
    for (one, x), (other, y) in itertools.combinations(links.items(), 2):
        if sites.cross(one, other):
            made.clause(-x, -y)
    return graph, links


def network(count: int, seed: int) -> Encoding:
    """A budget of links, so that each of some sites gets a flow from the first one."""
    return network_within((count, count * (8 + seed % 4) // 16), seed)


def network_within(size: tuple[int, int], seed: int) -> Encoding:
    """So many sites, and at most so many links."""
    count, budget = size
    drawn = random.Random(seed)
    sites = Sites(count, drawn)
    made = Encoding()
    graph = made.graph(count)
    links = [made.link(graph, u, v, drawn.randint(1, 9)) for u, v in sites.near_pairs(4)]
    for customer in drawn.sample(range(1, count), max(2, count // 8)):
        made.clause(made.predicate("maximum_flow_geq", graph, 0, customer, drawn.randint(3, 8)))
    made.at_most(budget, links)
    return made


def layout(count: int, seed: int) -> Encoding:
    """Wires that don't cross, so that some pairs of blocks are near along them, and others are not."""
    drawn = random.Random(seed)
    sites = Sites(count, drawn)
    made = Encoding()
    graph, _ = wires(made, sites, sites.near_pairs(5))
    for k, (u, v) in enumerate(drawn.sample(list(itertools.combinations(range(count), 2)), 2 * count // 3)):
        near = made.predicate("weighted_distance_leq", graph, u, v, sites.distance(u, v) * drawn.randint(12, 20) // 10)
        made.clause(near if k % 3 < 2 else -near)
    return made


def trees(count: int, seed: int) -> Encoding:
    """Links that don't cross, at most three at a site, that join all sites by a tree within a weight."""
    drawn = random.Random(seed)
    sites = Sites(count, drawn)
    made = Encoding()
    pairs = sites.near_pairs(5)
    graph, links = wires(made, sites, pairs)
    for u in range(count):
        made.at_most(3, [x for pair, x in links.items() if u in pair])
    for x in drawn.sample(list(links.values()), len(links) // 4):
        made.clause(-x)
    made.clause(made.predicate("mst_weight_leq", graph, sites.least_tree(pairs) * (10 + seed % 4) // 10))
    made.clause(-made.predicate("mst_weight_leq", graph, sites.least_tree(pairs) * 21 // 20))
    return made
