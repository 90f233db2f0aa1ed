"""A backbone: a tree of cables that joins all towns within a budget, which can't be met.

`cables.txt` has two towns, the cost of a cable between them, and `bridge` where it takes the bridge, which carries one.
"""

from __future__ import annotations

from pathlib import Path

from gulfezo import Edge, Problem

HERE = Path(__file__).parent

PLACES = {"Ayr": (0, 1), "Bute": (1, 0), "Cowal": (1, 2), "Dunoon": (2, 1), "Ely": (3, 2)}


def encode(budget: int) -> Problem:
    """The problem with that budget."""
    problem = Problem()
    graph = problem.add_graph("towns")
    node = {name: graph.add_node(f"{name}@{x},{y}") for name, (x, y) in PLACES.items()}
    over_bridge = []
    for line in (HERE / "cables.txt").read_text().splitlines():
        one, other, cost, *bridge = line.split()
        cable = graph.add_edge(node[one], node[other], int(cost))
        if bridge:
            over_bridge.append(cable)
    problem.at_most_one(over_bridge)
    problem.require(graph.mst_weight_leq(budget))
    return problem


def problems() -> dict[str, Problem]:
    """The problem of this example by name."""
    return {"budget": encode(10)}


def main() -> None:
    """Raises the budget until a tree is found, and prints it."""
    for budget in range(10, 20):
        problem = encode(budget)
        answer = problem.solve()
        if not answer:
            print(f"a budget of {budget} can't be met: the refutation has {len(answer.lemmas)} lemmas")
            continue
        names = [name.split("@")[0] for name in problem.graphs[0].names]
        tree = (edge for edge in answer.tree(problem.predicates[0]) if isinstance(edge, Edge))
        print(f"a budget of {budget}:", ", ".join(f"{names[e.start]}-{names[e.end]}" for e in tree))
        break


if __name__ == "__main__":
    main()
