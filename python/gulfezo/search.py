"""Walks, flows, trees and orders over lists of present edges, for reading models and for pictures."""

from __future__ import annotations

import heapq
from collections import defaultdict, deque
from collections.abc import Iterable, Sequence
from typing import Generic, NamedTuple, TypeVar

from .literals import Edge


class Arc(NamedTuple):
    """What a search needs of an edge. It is made in a tenth of the time, for large graphs of which many are searched."""

    edge_number: int
    start: int
    end: int
    weight: int


Leads = TypeVar("Leads", Edge, Arc)


def shortest_walk(edges: Iterable[Leads], start: int, end: int, weighted: bool) -> list[Leads] | None:
    """A walk of least weight, or of fewest edges, from start to end; None where none leads there (Dijkstra)."""
    leaving: defaultdict[int, list[Leads]] = defaultdict(list)
    for edge in edges:
        leaving[edge.start].append(edge)
    came: dict[int, Leads | None] = {}
    waiting: list[tuple[int, int, int, Leads | None]] = [(0, 0, start, None)]
    while waiting and end not in came:
        length, _, node, by = heapq.heappop(waiting)
        if node in came:
            continue
        came[node] = by
        for edge in leaving[node]:
            if edge.end not in came:
                further = length + (edge.weight if weighted else 1)
                heapq.heappush(waiting, (further, edge.edge_number, edge.end, edge))
    if end not in came:
        return None
    walk, node = [], end
    while (last := came[node]) is not None:
        walk.append(last)
        node = last.start
    return walk[::-1]


def reached(edges: Iterable[Leads], start: int) -> set[int]:
    """The nodes to which a walk leads from start."""
    leaving: defaultdict[int, list[int]] = defaultdict(list)
    for edge in edges:
        leaving[edge.start].append(edge.end)
    found, waiting = {start}, [start]
    while waiting:
        for node in leaving[waiting.pop()]:
            if node not in found:
                found.add(node)
                waiting.append(node)
    return found


class Network(Generic[Leads]):
    """Edges, and how much each carries from a source to a sink (E. A. Dinic, "Algorithm for solution of a problem of
    maximum flow in networks with power estimation", 1970).

    The place of an edge among `edges` is twice that of its way there, and once more that of its way back.
    """

    def __init__(self, edges: Sequence[Leads], source: int, sink: int) -> None:
        self.edges: Sequence[Leads] = edges
        self.source, self.sink = source, sink
        self.room: list[int] = []  # how much more can go along each way
        self.ends: list[int] = []
        self.leaving: defaultdict[int, list[int]] = defaultdict(list)
        for edge in edges:
            self.leaving[edge.start].append(len(self.room))
            self.leaving[edge.end].append(len(self.room) + 1)
            self.room += [edge.weight, 0]
            self.ends += [edge.end, edge.start]

    def levels(self) -> dict[int, int]:
        """The nodes to which more can go from the source, each with the number of edges on the way there."""
        level, waiting = {self.source: 0}, deque([self.source])
        while waiting:
            node = waiting.popleft()
            for way in self.leaving[node]:
                end = self.ends[way]
                if self.room[way] and end not in level:
                    level[end] = level[node] + 1
                    waiting.append(end)
        return level

    def push(self, level: dict[int, int], tried: defaultdict[int, int], wanted: int) -> int:
        """Sends up to so much along one way with the fewest edges; how much went. `tried` counts ways gone in vain."""
        way: list[int] = []
        node = self.source
        while node != self.sink:
            onward = self.leaving[node]
            while tried[node] < len(onward):
                step = onward[tried[node]]
                if self.room[step] and level.get(self.ends[step]) == level[node] + 1:
                    break
                tried[node] += 1
            if tried[node] < len(onward):
                way.append(step)
                node = self.ends[step]
            elif way:
                node = self.ends[way.pop() ^ 1]
                tried[node] += 1
            else:
                return 0
        amount = min([wanted, *(self.room[step] for step in way)])
        for step in way:
            self.room[step] -= amount
            self.room[step ^ 1] += amount
        return amount

    def carry(self, wanted: int) -> int:
        """Sends as much as can go, up to so much; how much went."""
        left = wanted
        while left and self.sink in (level := self.levels()):
            tried: defaultdict[int, int] = defaultdict(int)
            while left and (went := self.push(level, tried, left)):
                left -= went
        return wanted - left

    def amounts(self) -> dict[Leads, int]:
        """The amounts above 0."""
        back = self.room[1::2]
        return {edge: amount for edge, amount in zip(self.edges, back) if amount}


def flow_of_at_least(edges: Sequence[Leads], source: int, sink: int, bound: int) -> dict[Leads, int]:
    """The amounts above 0 of a flow of that value, or of the greatest one below it."""
    network = Network(edges, source, sink)
    network.carry(bound)
    return network.amounts()


def greatest_flow(edges: Sequence[Leads], source: int, sink: int) -> int:
    """The value of a greatest flow."""
    return Network(edges, source, sink).carry(sum(edge.weight for edge in edges))


def narrowest_cut(edges: Sequence[Leads], source: int, sink: int) -> set[int]:
    """The nodes on the source's side of a cut that is as narrow as the greatest flow is wide."""
    network = Network(edges, source, sink)
    network.carry(sum(edge.weight for edge in edges))
    return set(network.levels())


def one_way(amounts: dict[Edge, int]) -> dict[Edge, int]:
    """The same flow, but that a link doesn't carry something both ways."""
    found = dict(amounts)
    for edge in amounts:
        link = edge.link
        if link is not None and link.there in found and link.back in found:
            less = min(found[link.there], found[link.back])
            for direction in (link.there, link.back):
                found[direction] -= less
    return {edge: amount for edge, amount in found.items() if amount}


def components(nodes: int, edges: Iterable[Leads]) -> list[int]:
    """For each node, the least one that the edges join it with, directions ignored."""
    least = list(range(nodes))

    def find(node: int) -> int:
        while least[node] != node:
            least[node] = least[least[node]]
            node = least[node]
        return node

    for edge in edges:
        one, other = find(edge.start), find(edge.end)
        least[max(one, other)] = min(one, other)
    return [find(node) for node in range(nodes)]


def lightest_tree(nodes: int, edges: Iterable[Leads]) -> list[Leads] | None:
    """A spanning tree of least weight, directions ignored; None where the edges don't join all nodes (Prim)."""
    at: defaultdict[int, list[Leads]] = defaultdict(list)
    for edge in edges:
        at[edge.start].append(edge)
        at[edge.end].append(edge)
    tree: list[Leads] = []
    joined, waiting = {0}, [(edge.weight, edge.edge_number, edge) for edge in at[0]]
    heapq.heapify(waiting)
    while waiting:
        _, _, edge = heapq.heappop(waiting)
        new = {edge.start, edge.end} - joined
        if not new:
            continue
        tree.append(edge)
        joined |= new
        for further in at[new.pop()]:
            heapq.heappush(waiting, (further.weight, further.edge_number, further))
    return tree if len(joined) == nodes else None


def topological_order(nodes: int, edges: Iterable[Leads]) -> list[int] | None:
    """The nodes, each edge leading from an earlier to a later one; None where there is a cycle (Kahn).

    Of nodes that could come next the one with the least number does.
    """
    leaving: list[list[int]] = [[] for _ in range(nodes)]
    entering = [0] * nodes
    for edge in edges:
        leaving[edge.start].append(edge.end)
        entering[edge.end] += 1
    order: list[int] = []
    ready = [node for node in range(nodes) if not entering[node]]
    while ready:
        node = heapq.heappop(ready)
        order.append(node)
        for end in leaving[node]:
            entering[end] -= 1
            if not entering[end]:
                heapq.heappush(ready, end)
    return order if len(order) == nodes else None


def shortest_cycle(edges: Sequence[Leads]) -> list[Leads] | None:
    """A cycle of fewest edges; None where there is none."""
    best: list[Leads] | None = None
    for edge in edges:
        back: list[Leads] | None = []
        if edge.start != edge.end:
            back = shortest_walk(edges, edge.end, edge.start, False)
        if back is not None and (best is None or len(back) + 1 < len(best)):
            best = [edge]
            best.extend(back)
    return best
