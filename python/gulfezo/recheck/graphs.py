"""Walks, flows, trees and cycles: whether a predicate holds, and whether a witness passes.

Everything here is written straight from what the words mean.
"""

from __future__ import annotations

import heapq
from collections import defaultdict
from collections.abc import Collection, Iterable
from typing import NamedTuple

WORDS = {
    "reach": ["path", "cut"],
    "steps": ["path", "label"],
    "weight": ["path", "label"],
    "flow": ["flow", "flowcut"],
    "tree": ["tree", "split", "least"],
    "acyclic": ["cycle", "order"],
}


class Edge(NamedTuple):
    """The fields of an edge's line, in their order."""

    graph: int
    start: int
    end: int
    variable: int
    weight: int


# By their numbers over the whole input.
Edges = dict[int, Edge]


class Meaning(NamedTuple):
    """A predicate's kind, its two ends (none for a tree and for cycles), and its bound, 'at most' or 'at least'.

    Where there is none the bound is 0: each walk costs that much where walks have no limit.
    """

    kind: str
    ends: list[int]
    bound: int


class Flow(NamedTuple):
    """The value of a flow, what each edge carries, and the nodes to which more can be carried."""

    value: int
    amounts: list[int]
    reached: list[int]


def cost(kind: str, edge: Edge) -> int:
    """What an edge adds to a walk's cost."""
    return {"reach": 0, "steps": 1, "weight": edge.weight}[kind]


def distances(nodes: int, edges: Iterable[Edge], kind: str, start: int) -> list[int | None]:
    """The least cost of a walk from the start to each node, or None where none leads there (Dijkstra)."""
    leaving: defaultdict[int, list[Edge]] = defaultdict(list)
    for e in edges:
        leaving[e.start].append(e)
    least: list[int | None] = [None] * nodes
    waiting = [(0, start)]
    while waiting:
        found, u = heapq.heappop(waiting)
        if least[u] is None:
            least[u] = found
            for e in leaving[u]:
                heapq.heappush(waiting, (found + cost(kind, e), e.end))
    return least


def maximum_flow(edges: Collection[Edge], ends: list[int], most: int | None = None) -> Flow:
    """A greatest flow, by ways with the fewest edges (Edmonds and Karp). With `most` no more than that is carried."""
    room = [[e.start, e.end, e.weight] for e in edges] + [[e.end, e.start, 0] for e in edges]
    places: defaultdict[int, list[int]] = defaultdict(list)
    for k, (start, _, _) in enumerate(room):
        places[start].append(k)
    (source, sink), value = ends, 0
    while True:
        came = {source: -1}  # by which place of `room` each node is reached
        queue = [source]
        for u in queue:
            for k in places[u]:
                _, end, left = room[k]
                if left and end not in came:
                    came[end] = k
                    queue.append(end)
        if sink not in came or value == most:
            return Flow(value, [room[k + len(edges)][2] for k in range(len(edges))], list(came))
        way, u = [], sink
        while u != source:
            way.append(came[u])
            u = room[came[u]][0]
        least = min(room[k][2] for k in way)
        if most is not None:
            least = min(least, most - value)
        for k in way:
            room[k][2] -= least
            room[(k + len(edges)) % len(room)][2] += least
        value += least


class Components:
    """Which nodes are joined so far, directions ignored."""

    def __init__(self, nodes: int) -> None:
        self.under = list(range(nodes))

    def name(self, u: int) -> int:
        """A node that stands for all that are joined with this one."""
        while self.under[u] != u:
            self.under[u] = self.under[self.under[u]]
            u = self.under[u]
        return u

    def join(self, e: Edge) -> bool:
        """Joins the ends of an edge; whether they weren't joined."""
        start, end = self.name(e.start), self.name(e.end)
        self.under[start] = end
        return start != end


def joined(nodes: int, edges: Iterable[Edge]) -> list[int]:
    """For each node a name of its component, directions ignored."""
    found = Components(nodes)
    for e in edges:
        found.join(e)
    return [found.name(u) for u in range(nodes)]


def lightest_forest(nodes: int, edges: Edges) -> list[int]:
    """The numbers of the edges of a lightest spanning forest (Kruskal)."""
    found = Components(nodes)
    return [n for n, e in sorted(edges.items(), key=lambda item: item[1].weight) if found.join(e)]


def has_cycle(nodes: int, edges: Collection[Edge]) -> bool:
    """Whether some edges lead in a circle: taking away nodes that no edge enters leaves some (Kahn)."""
    entering = [0] * nodes
    leaving: defaultdict[int, list[int]] = defaultdict(list)
    for e in edges:
        entering[e.end] += 1
        leaving[e.start].append(e.end)
    gone = [u for u in range(nodes) if not entering[u]]
    for u in gone:
        for v in leaving[u]:
            entering[v] -= 1
            if not entering[v]:
                gone.append(v)
    return len(gone) < nodes


def holds(nodes: int, edges: Collection[Edge], meaning: Meaning) -> bool:
    """Whether the predicate holds with exactly these edges."""
    kind, ends, bound = meaning
    if kind == "flow":
        return maximum_flow(edges, ends).value >= bound
    if kind == "tree":
        numbered = dict(enumerate(edges))
        tree = lightest_forest(nodes, numbered)
        return len(tree) == nodes - 1 and sum(numbered[n].weight for n in tree) <= bound
    if kind == "acyclic":
        return not has_cycle(nodes, edges)
    found = distances(nodes, edges, kind, ends[0])[ends[1]]
    return found is not None and found <= bound


def pairs(listed: list[int]) -> list[tuple[int, int]]:
    """The numbers of a list two by two, as under `label` and `flow`."""
    return list(zip(listed[::2], listed[1::2]))


def is_walk(edges: Edges, present: set[int], meaning: Meaning, listed: list[int]) -> bool:
    """Whether the edges are present and lead, one after the other, from the first end to the last within the bound."""
    kind, ends, bound = meaning
    u = ends[0]
    for n in listed:
        if n not in present or edges[n].start != u:
            return False
        u = edges[n].end
    return u == ends[1] and sum(cost(kind, edges[n]) for n in listed) <= bound


def leaves(edge: Edge, nodes: Collection[int]) -> bool:
    """Whether the edge leads out of these nodes."""
    return edge.start in nodes and edge.end not in nodes


def is_labelling(edges: Edges, present: set[int], meaning: Meaning, listed: list[tuple[int, int]]) -> bool:
    """Whether the first end has 0, the last more than the bound, and no present edge leads to more than it adds."""
    kind, ends, bound = meaning
    label = dict(listed)
    if len(label) < len(listed):
        return False

    def of(u: int) -> int:
        return label.get(u, bound + 1)

    calm = all(of(edges[n].end) <= of(edges[n].start) + cost(kind, edges[n]) for n in present)
    return of(ends[0]) == 0 and of(ends[1]) > bound and calm


def is_flow(nodes: int, edges: Edges, present: set[int], meaning: Meaning, listed: list[tuple[int, int]]) -> bool:
    """Whether present edges carry no more than their weights, and as much as the bound from the source to the sink."""
    _, ends, bound = meaning
    amount = dict(listed)
    if len(amount) < len(listed):
        return False
    if any(a > edges[n].weight or (a and n not in present) for n, a in listed):
        return False
    excess = [0] * nodes  # outflow less inflow
    for n, a in listed:
        excess[edges[n].start] += a
        excess[edges[n].end] -= a
    return excess[ends[0]] >= bound and not any(x for u, x in enumerate(excess) if u not in ends)


def is_cycle(edges: Edges, present: set[int], listed: list[int]) -> bool:
    """Whether the edges are present and lead, one after the other, from a node to itself."""
    onward = zip(listed, listed[1:] + listed[:1])
    return bool(listed) and set(listed) <= present and all(edges[n].end == edges[m].start for n, m in onward)


def is_order(nodes: int, edges: Edges, present: set[int], listed: list[int]) -> bool:
    """Whether each node is listed once, and each present edge begins before it ends."""
    place = {u: k for k, u in enumerate(listed)}
    return sorted(listed) == list(range(nodes)) and all(place[edges[n].start] < place[edges[n].end] for n in present)


def is_spanning_tree(nodes: int, edges: Edges, listed: list[int]) -> bool:
    """Whether the edges, one fewer than there are nodes and none twice, join all nodes."""
    different = len(set(listed)) == len(listed) == nodes - 1
    return different and len(set(joined(nodes, [edges[n] for n in listed]))) == 1


def is_bridged(nodes: int, edges: Edges, tree: list[int], edge: Edge) -> bool:
    """Whether the tree joins the edge's ends by edges no heavier than it."""
    name = joined(nodes, [edges[n] for n in tree if edges[n].weight <= edge.weight])
    return name[edge.start] == name[edge.end]


def are_bridged(nodes: int, edges: Edges, tree: list[int], numbers: Iterable[int]) -> bool:
    """Whether the tree joins the ends of each of these edges by edges no heavier than it."""
    found, waiting = Components(nodes), sorted(tree, key=lambda n: -edges[n].weight)
    for e in sorted((edges[n] for n in numbers), key=lambda e: e.weight):
        while waiting and edges[waiting[-1]].weight <= e.weight:
            found.join(edges[waiting.pop()])
        if found.name(e.start) != found.name(e.end):
            return False
    return True


def passes(word: str, nodes: int, edges: Edges, present: set[int], meaning: Meaning, listed: list[int]) -> bool:
    """Whether the witness passes over the present edges, which are named by their numbers."""
    _, ends, bound = meaning
    if word == "path":
        return is_walk(edges, present, meaning, listed)
    if word == "label":
        return is_labelling(edges, present, meaning, pairs(listed))
    if word == "cycle":
        return is_cycle(edges, present, listed)
    if word == "order":
        return is_order(nodes, edges, present, listed)
    if word == "flow":
        return is_flow(nodes, edges, present, meaning, pairs(listed))
    if word == "tree":
        weight = sum(edges[n].weight for n in listed)
        return set(listed) <= present and is_spanning_tree(nodes, edges, listed) and weight <= bound
    if word == "least":
        weight = sum(edges[n].weight for n in listed)
        return is_spanning_tree(nodes, edges, listed) and weight > bound and are_bridged(nodes, edges, listed, present)
    inside = set(listed)
    out = [edges[n] for n in present if leaves(edges[n], inside)]
    if word == "cut":
        return ends[0] in inside and ends[1] not in inside and not out
    if word == "flowcut":
        return ends[0] in inside and ends[1] not in inside and sum(e.weight for e in out) < bound
    rest = set(range(nodes)) - inside
    return bool(inside and rest) and not out and not any(leaves(edges[n], rest) for n in present)
