"""Small problems over all kinds of predicates, each drawn with a seed: the same seed gives the same problem."""

from __future__ import annotations

import random
from collections.abc import Sequence

import graphs
import reference

NODE_PREDICATES = ["reach", "distance_leq", "distance_lt", "weighted_distance_leq", "weighted_distance_lt"]
FLOW_PREDICATES = ["maximum_flow_geq", "maximum_flow_gt"]
TREE_PREDICATES = ["mst_weight_leq", "mst_weight_lt"]
CYCLE_PREDICATES = ["acyclic"]
# Weights around 32, 53 and 64 bits, and bounds beside them.
WIDE = [0, 1, 2**32 - 1, 2**32, 2**53 - 1, 2**53, 2**53 + 1, 2**63, 2**64 - 2, 2**64 - 1]
WIDE_BOUNDS = [0, 1, 2**32 - 1, 2**32, 2**53 - 1, 2**53]


def thinned(text: bytes, drawn: random.Random) -> bytes:
    """The input without some of its clauses."""
    share = drawn.choice([0.1, 0.2, 0.4, 0.7, 1])
    rows = text.decode().splitlines(keepends=True)
    return "".join(row for row in rows if row[0].isalpha() or drawn.random() < share).encode()


class Small:
    """One small problem.

    Some need more conflicts; some have many predicates from few sources, and edges that share variables.
    """

    def __init__(self, seed: int) -> None:
        self.random = random.Random(seed)
        self.is_hard = self.often(0.2)
        self.is_shared = not self.is_hard and self.often(0.4)
        self.is_wide = self.often(0.2)
        self.variables = self.random.randint(7, 9) if self.is_hard else self.random.randint(1, 8)

    def often(self, share: float) -> bool:
        return self.random.random() < share

    def variable(self) -> int:
        return self.random.randint(1, self.variables)

    def edge_variable(self) -> int:
        return self.random.randint(1, (self.variables + 1) // 2) if self.is_shared else self.variable()

    def clause(self) -> list[int]:
        if self.is_hard:
            return [self.random.choice([-1, 1]) * x for x in self.random.sample(range(1, self.variables + 1), 3)]
        width = self.random.choice([1, 2, 2, 3, 3, 3, 3, 4]) if self.often(0.995) else 0
        return [self.random.choice([-1, 1]) * self.variable() for _ in range(width)]

    def weight(self) -> int:
        if self.is_wide:
            return self.random.choice([weight for weight in WIDE if weight <= reference.MOST_WEIGHT])
        return self.random.randint(0, 4)

    def edge(self, graph: int, nodes: int) -> str:
        start, end = self.random.randrange(nodes), self.random.randrange(nodes)
        return reference.row("edge", graph, start, end, self.edge_variable(), self.weight())

    def predicate(self, graph: int, nodes: int, sources: Sequence[int]) -> str:
        words = NODE_PREDICATES[:1] if self.often(0.3) else NODE_PREDICATES + TREE_PREDICATES
        if nodes > 1 and self.often(0.3):
            words = FLOW_PREDICATES
        if "acyclic" in graphs.WORDS and self.often(0.2):
            words = CYCLE_PREDICATES
        word, bound = self.random.choice(words), self.random.choice(WIDE_BOUNDS if self.is_wide else [0, 1, 2, 3, 5, 8])
        if word in CYCLE_PREDICATES:
            return reference.row(word, graph, self.variable())
        if word in TREE_PREDICATES:
            return reference.row(word, graph, self.variable(), bound)
        start, end = self.random.choice(sources), self.random.randrange(nodes)
        if word in FLOW_PREDICATES and start == end:
            end = (start + 1) % nodes
        row = reference.row(word, graph, start, end, self.variable())
        return row if word == "reach" else f"{row} {bound}"

    def graph(self, identity: int) -> list[str]:
        nodes = self.random.randint(1, 4)
        edges, predicates = self.random.randint(0, 7), self.random.randint(0, 3)
        sources: Sequence[int] = range(nodes)
        if self.is_shared:
            edges, predicates = self.random.randint(3, 10), self.random.randint(3, 8)
            sources = [self.random.randrange(nodes) for _ in range(2)]
        rows = [self.edge(identity, nodes) for _ in range(edges)]
        rows += [self.predicate(identity, nodes, sources) for _ in range(predicates)]
        self.random.shuffle(rows)
        return [f"digraph int {nodes} 0 {identity}"] + rows

    def text(self) -> bytes:
        """The whole input."""
        rows = [f"p gnf {self.random.randint(0, 8)} 0"] if self.often(0.3) else []
        for identity in range(1 if self.is_shared else self.random.choice([0, 1, 1, 1, 2])):
            rows += self.graph(identity)
        count = 5 * self.variables
        if not self.is_hard:
            count = self.random.randint(0, self.random.choice([2, 4, 6]) * self.variables)
        rows += [reference.row(*self.clause(), 0) for _ in range(count)]
        return "".join(f"{row}\n" for row in rows).encode()
