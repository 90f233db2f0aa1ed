"""What shows that a predicate holds or fails with exactly some of its graph's edges: the list of a lemma's line."""

from __future__ import annotations

from collections.abc import Collection, Iterable

import graphs
import reference
from graphs import Edge, Edges, Meaning
from reference import Problem, Signs, Step

# The list of a lemma's line, and the numbers of the edges on which it rests.
Witness = tuple[list[int], list[int]]


def walk(edges: Edges, kind: str, ends: list[int]) -> list[int]:
    """A cheapest walk between the ends, as numbers of edges."""
    least: dict[int, tuple[int, list[int]]] = {ends[0]: (0, [])}
    for _ in range(len(edges) + 1):
        for n, e in edges.items():
            if e.start in least:
                cost, way = least[e.start]
                cost += graphs.cost(kind, e)
                if e.end not in least or cost < least[e.end][0]:
                    least[e.end] = (cost, way + [n])
    return least[ends[1]][1]


def cycle(nodes: int, edges: Edges) -> list[int]:
    """The numbers of the edges of a cycle; none where there is none."""
    for n, e in edges.items():
        if graphs.distances(nodes, edges.values(), "reach", e.end)[e.start] == 0:
            return [n] + walk(edges, "reach", [e.end, e.start])
    return []


def carried(numbers: Iterable[int], amounts: Iterable[int]) -> Witness:
    """What edges carry, in pairs; the flow rests on those that carry something."""
    pairs = list(zip(numbers, amounts))
    return flat(pairs), [n for n, a in pairs if a]


def flat(pairs: Iterable[tuple[int, int]]) -> list[int]:
    return [x for pair in pairs for x in pair]


# ---- witnesses of one word: over these edges, of which some are held


def order(nodes: int, edges: Edges, held: Collection[Edge]) -> Witness:
    """The nodes in an order in which held edges begin before they end; those on cycles, and behind them, come last."""
    listed: list[int] = []
    while True:
        ready = [u for u in range(nodes) if u not in listed and all(e.start in listed for e in held if e.end == u)]
        if not ready:
            break
        listed += ready
    listed += [u for u in range(nodes) if u not in listed]
    return listed, [n for n, e in edges.items() if listed.index(e.start) >= listed.index(e.end)]


def cut(nodes: int, edges: Edges, held: Collection[Edge], start: int) -> Witness:
    """The nodes to which held edges lead from the start."""
    found = graphs.distances(nodes, held, "reach", start)
    inside = [u for u in range(nodes) if found[u] is not None]
    return inside, leaving(edges, inside)


def leaving(edges: Edges, inside: list[int]) -> list[int]:
    """The numbers of the edges that lead out of these nodes."""
    return [n for n, e in edges.items() if graphs.leaves(e, inside)]


def label(nodes: int, edges: Edges, held: Collection[Edge], meaning: Meaning) -> Witness:
    """The distances by held edges as far as the bound."""
    kind, ends, bound = meaning
    found = graphs.distances(nodes, held, kind, ends[0])
    listed = {u: d for u, d in enumerate(found) if d is not None and d <= bound}

    def of(u: int) -> int:
        return listed.get(u, bound + 1)

    return flat(listed.items()), [n for n, e in edges.items() if of(e.end) > of(e.start) + graphs.cost(kind, e)]


def split(nodes: int, edges: Edges, held: Collection[Edge]) -> Witness:
    """The nodes that held edges join with the first one."""
    name = graphs.joined(nodes, held)
    inside = [u for u in range(nodes) if name[u] == name[0]]
    return inside, [n for n, e in edges.items() if (e.start in inside) != (e.end in inside)]


def least(nodes: int, edges: Edges, tree: list[int]) -> Witness:
    """The tree, which rests on the edges that would make it lighter."""
    return tree, [n for n, e in edges.items() if not graphs.is_bridged(nodes, edges, tree, e)]


# ---- lemmas


def positive(nodes: int, edges: Edges, present: set[int], meaning: Meaning) -> tuple[str, Witness]:
    """A word and a witness, where the predicate holds."""
    kind, ends, bound = meaning
    held = {n: edges[n] for n in present}
    if kind == "flow":
        flow = graphs.maximum_flow(held.values(), ends, max(bound, 0))
        amounts = {n: a for n, a in zip(held, flow.amounts) if a}
        return "flow", carried(amounts.keys(), amounts.values())
    if kind == "acyclic":
        return "order", order(nodes, edges, held.values())
    listed = graphs.lightest_forest(nodes, held) if kind == "tree" else walk(held, kind, ends)
    return "tree" if kind == "tree" else "path", (listed, listed)


def negative(nodes: int, edges: Edges, present: set[int], meaning: Meaning) -> tuple[str, Witness]:
    """A word and a witness, where the predicate fails."""
    kind, ends, _ = meaning
    held = {n: edges[n] for n in present}
    if kind == "flow":
        inside = graphs.maximum_flow(held.values(), ends).reached
        return "flowcut", (inside, [n for n in leaving(edges, inside) if n not in present])
    if kind == "tree":
        tree = graphs.lightest_forest(nodes, held)
        if len(tree) < nodes - 1:
            return "split", split(nodes, edges, held.values())
        return "least", least(nodes, edges, tree)
    if kind == "acyclic":
        found = cycle(nodes, held)
        return "cycle", (found, found)
    if kind == "reach":
        return "cut", cut(nodes, edges, held.values(), ends[0])
    return "label", label(nodes, edges, held.values(), meaning)


def lemma(problem: Problem, number: int, signs: Signs) -> Step:
    """A lemma that the assignment makes false, for a predicate on which it doesn't agree with the graph."""
    predicate = problem.predicates[number - 1]
    nodes, edges = problem.nodes_of(predicate), problem.edges_of(predicate)
    present = {n for n, e in edges.items() if signs[e.variable]}
    shown = negative if signs[predicate.variable] else positive
    word, (listed, needed) = shown(nodes, edges, present, predicate.meaning)
    return Step(word, number, sorted(owed(word, predicate.variable, edges, needed)), listed)


def owed(word: str, variable: int, edges: Edges, needed: Iterable[int]) -> set[int]:
    """The literals that a lemma owes, of the predicate's variable and those of the edges on which it rests."""
    side = -1 if word in reference.OVER_PRESENT else 1
    return {side * edges[n].variable for n in needed} | {variable if word in reference.POSITIVE else -variable}
