"""Compares what predicates mean with networkx, a reading by other hands: networks.py [--rounds N] [--first SEED]

Each seed draws a graph of up to 30 nodes, some of whose edges are present, and predicates of all kinds, whose values
networkx computes (Debian's python3-networkx). The model with these values has to be accepted by `check`, and one in
which a predicate has the other value has to be rejected for that predicate. Bounds lie beside the true distance, flow
or weight as often as not. The status is 0 exactly where nothing differs.
"""

from __future__ import annotations

import argparse
import random
import sys
from typing import Any

import reference
from rounds import Rounds, play
from runs import Program, Wrong

try:
    import networkx
except ImportError:
    sys.exit("there is no networkx (Debian's package python3-networkx)")

FORMS: dict[str, list[str]] = {
    "reach": [],
    "distance_leq": ["distance_lt"],
    "weighted_distance_leq": ["weighted_distance_lt"],
    "maximum_flow_geq": ["maximum_flow_gt"],
    "mst_weight_leq": ["mst_weight_lt"],
    "acyclic": [],
}


class Network:
    """A graph with some of its edges, and what networkx says of it."""

    def __init__(self, seed: int) -> None:
        self.random = random.Random(seed)
        self.nodes = self.random.randint(2, 30)
        count = self.random.randint(0, 3 * self.nodes)
        # (few of them where a cycle is to be missing)
        upwards = self.random.random() < 0.3
        ends = [sorted(self.pair()) if upwards else self.pair() for _ in range(count)]
        self.edges = [(u, v, self.random.randint(0, 9), self.random.random() < 0.7) for u, v in ends]
        self.made: Any = networkx.MultiDiGraph()
        self.made.add_nodes_from(range(self.nodes))
        self.made.add_weighted_edges_from((u, v, weight) for u, v, weight, present in self.edges if present)

    def pair(self) -> list[int]:
        """Two nodes, which may be one."""
        return [self.random.randrange(self.nodes) for _ in range(2)]

    def flow(self, source: int, sink: int) -> int:
        """The value of a greatest flow: parallel edges carry what they carry together."""
        joined = networkx.DiGraph()
        joined.add_nodes_from(range(self.nodes))
        for u, v, weight, present in self.edges:
            if present:
                before = joined.get_edge_data(u, v, {"capacity": 0})["capacity"]
                joined.add_edge(u, v, capacity=before + weight)
        return int(networkx.maximum_flow_value(joined, source, sink))

    def tree(self) -> int | None:
        """The weight of a lightest spanning tree, directions ignored, or None where there is none."""
        # (`to_undirected` would join an edge and one that leads back)
        both = networkx.MultiGraph()
        both.add_nodes_from(range(self.nodes))
        both.add_weighted_edges_from((u, v, weight) for u, v, weight, present in self.edges if present)
        if not networkx.is_connected(both):
            return None
        edges = networkx.minimum_spanning_edges(both, data=True)
        return sum(int(edge[-1]["weight"]) for edge in edges)

    def value(self, word: str, u: int, v: int) -> int | None:
        """What a predicate bounds: the cost of a walk, the value of a flow, the weight of a tree."""
        if word.startswith("mst"):
            return self.tree()
        if word.startswith("maximum"):
            return self.flow(u, v)
        try:
            by = "weight" if word.startswith("weighted") else None
            return int(networkx.shortest_path_length(self.made, u, v, weight=by))
        except networkx.NetworkXNoPath:
            return None

    def predicate(self, word: str, variable: int) -> tuple[str, bool]:
        """The line of a drawn predicate, and whether it holds."""
        u, v = self.pair()
        if word == "acyclic":
            return reference.row(word, 0, variable), networkx.is_directed_acyclic_graph(self.made)
        if word == "reach":
            return reference.row(word, 0, u, v, variable), networkx.has_path(self.made, u, v)
        if word.startswith("maximum") and u == v:
            v = (u + 1) % self.nodes
        value = self.value(word, u, v)
        bound = max(0, (value or 0) + self.random.randint(-2, 2))
        nodes = [] if word.startswith("mst") else [u, v]
        row = reference.row(word, 0, *nodes, variable, bound)
        if value is None:
            return row, False
        tests = {"leq": value <= bound, "_lt": value < bound, "geq": value >= bound, "_gt": value > bound}
        return row, tests[word[-3:]]


class Networks(Rounds):
    """Graphs whose predicates networkx decides."""

    def __init__(self, program: Program, args: argparse.Namespace) -> None:
        super().__init__(program, args)
        # (with the kinds that are left out)
        lacking = {word for word in FORMS if word.encode() not in reference.PREDICATES}
        read = [[base, *more] for base, more in FORMS.items() if base not in lacking]
        self.words_drawn = [word for words in read for word in words]

    def verdict(self, rows: list[str], values: list[int], due: tuple[int, str]) -> None:
        """`check` says this of the model."""
        self.take("".join(f"{row}\n" for row in rows).encode())
        self.program.put("a", f"s SATISFIABLE\nv {' '.join(map(str, values))} 0\n".encode())
        found = self.run("check", "f", "a")
        if found != (due[0], due[1].encode()):
            raise Wrong(f"it says {found} of the model {values}, and by networkx {due} is due")

    def compare(self, seed: int) -> str:
        network = Network(seed)
        count = len(network.edges)
        rows = [f"digraph int {network.nodes} {count} 0"]
        rows += [reference.row("edge", 0, u, v, x, weight) for x, (u, v, weight, _) in enumerate(network.edges, 1)]
        values = [x if present else -x for x, (*_, present) in enumerate(network.edges, 1)]
        for place, word in enumerate(self.words_drawn * 2):
            row, holds = network.predicate(word, count + 1 + place)
            rows.append(row)
            values.append(count + 1 + place if holds else -count - 1 - place)
        self.verdict(rows, values, (0, "accepted model\n"))
        other = network.random.randrange(2 * len(self.words_drawn))
        values[count + other] *= -1
        self.verdict(rows, values, (1, f"rejected 2 AtomWrong {other + 1}\n"))
        return "graphs with a cycle" if not networkx.is_directed_acyclic_graph(network.made) else "graphs without one"


if __name__ == "__main__":
    play(__doc__, Networks, "graphs", 300)
