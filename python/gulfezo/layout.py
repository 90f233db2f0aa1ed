"""Where nodes lie in a picture: as their names say, else as Graphviz or networkx lays them out, else in a ring.

Places are in steps of a grid, x to the right and y down; neighbours are about one step apart.
"""

from __future__ import annotations

import itertools
import math
import re
import shutil
import subprocess
from collections import Counter
from collections.abc import Iterable, Sequence

from . import search
from .graph import Graph
from .literals import Edge, Kind

Place = tuple[float, float]

MOST_LAID_OUT = 1_000  # nodes of a graph that a tool lays out in seconds

NAMED_PLACE = re.compile(r"(?:(?P<label>.*)@)?(?P<x>-?[0-9]+(?:\.[0-9]+)?),(?P<y>-?[0-9]+(?:\.[0-9]+)?)")


def named_place(name: str) -> tuple[str, Place] | None:
    """The label and the place that a name gives: `hub@3,1` or `3,1`; None where it gives no place."""
    found = NAMED_PLACE.fullmatch(name)
    if found is None:
        return None
    return found["label"] or "", (float(found["x"]), float(found["y"]))


def label(graph: Graph, node: int) -> str:
    """What a picture writes into a node: its name, or its number where the name is but a place."""
    name = graph.names[node]
    named = named_place(name)
    return (named[0] if named else name) or str(node)


def places(graph: Graph, present: Sequence[Edge] = ()) -> list[Place]:
    """The place of each node: as its name says; else in layers, where a predicate asks for an order of what is present.

    Else as a tool lays the graph out, or in a ring; so are graphs that take a tool too long. Hidden nodes without a
    place are in a row below the others.
    """
    named = [named_place(name) for name in graph.names]
    if all(given is not None or node in graph.hidden_nodes for node, given in enumerate(named)):
        known = [given[1] for given in named if given is not None] or [(0.0, 0.0)]
        left, below = min(x for x, _ in known), max(y for _, y in known) + 1
        aside = itertools.count(left)
        return [(next(aside), below) if given is None else given[1] for given in named]
    is_ordered = any(p.graph == graph.identity and p.kind is Kind.ACYCLIC for p in graph.problem.predicates)
    found = in_layers(len(graph), present) if is_ordered else None
    if found is None and len(graph) <= MOST_LAID_OUT:
        found = by_graphviz(graph) or by_networkx(graph)
    return found or in_a_ring(len(graph))


def in_layers(count: int, edges: Sequence[Edge]) -> list[Place] | None:
    """From left to right, each node one step behind the last of those that lead to it; None where there is a cycle."""
    order = search.topological_order(count, edges)
    if order is None:
        return None
    layer = [0] * count
    leaving: list[list[int]] = [[] for _ in range(count)]
    for edge in edges:
        leaving[edge.start].append(edge.end)
    for node in order:
        for end in leaving[node]:
            layer[end] = max(layer[end], layer[node] + 1)
    rows: Counter[int] = Counter()
    found = []
    for node in range(count):
        # Every second layer lies half a step lower, so that lines over a layer don't run through its nodes.
        found.append((1.4 * layer[node], rows[layer[node]] + 0.35 * (layer[node] % 2)))
        rows[layer[node]] += 1
    return found


def one_a_pair(edges: Iterable[Edge]) -> set[tuple[int, int]]:
    """The pairs of different nodes that edges join, directions ignored."""
    return {(min(e.start, e.end), max(e.start, e.end)) for e in edges if e.start != e.end}


def by_graphviz(graph: Graph) -> list[Place] | None:
    """As Graphviz's `neato` lays the graph out; None where it isn't installed or fails."""
    if shutil.which("neato") is None:
        return None
    rows = [f"{node};" for node in range(len(graph))] + [f"{u} -- {v};" for u, v in sorted(one_a_pair(graph.edges))]
    text = "graph { start=1; overlap=false; node [shape=circle]; " + " ".join(rows) + " }"
    run = subprocess.run(["neato", "-Tplain"], input=text, capture_output=True, text=True, check=False)
    found = [row.split() for row in run.stdout.splitlines() if row.startswith("node ")]
    if run.returncode or len(found) != len(graph):
        return None
    at = {int(row[1]): (float(row[2]), -float(row[3])) for row in found}
    return spread([at[node] for node in range(len(graph))])


def by_networkx(graph: Graph) -> list[Place] | None:
    """As networkx lays the graph out; None where it, or what it needs for a graph of this size, isn't installed."""
    try:
        import networkx

        drawn = networkx.Graph(sorted(one_a_pair(graph.edges)))
        drawn.add_nodes_from(range(len(graph)))
        at = networkx.spring_layout(drawn, seed=1)
    except ImportError:
        return None
    return spread([(float(at[node][0]), float(at[node][1])) for node in range(len(graph))])


def in_a_ring(count: int) -> list[Place]:
    """On a circle, in the order of their numbers, the first one on top."""
    radius = max(1.0, count / (2 * math.pi))
    turns = [2 * math.pi * node / count for node in range(count)]
    return [(radius * math.sin(turn), -radius * math.cos(turn)) for turn in turns]


def spread(at: list[Place]) -> list[Place]:
    """The same places, drawn apart so that the nearest two leave room for a label between them."""
    nearest = min((math.dist(p, q) for i, p in enumerate(at) for q in at[:i]), default=1.0)
    scale = 1.3 / max(nearest, 0.01)
    return [(x * scale, y * scale) for x, y in at]
