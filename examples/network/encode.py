"""The cheapest set of links that joins all sites and goes on doing so where any one link is cut.

`sites.txt` has a name and a place on each line, `links.txt` two names and the cost of a link between them. No cut link
parts a site from the first one exactly where two ways without a common link lead there (Menger): a flow of 2, each link
having the capacity 1.
"""

from __future__ import annotations

from pathlib import Path

from gulfezo import Best, Link, Model, Problem, Sum, drawing

HERE = Path(__file__).parent


def read_rows(name: str) -> list[list[str]]:
    """The words of each line of a file."""
    return [line.split() for line in (HERE / name).read_text().splitlines()]


def encode() -> tuple[Problem, list[Link], Sum]:
    """The problem without a bound on the costs, the links, and the sum of their costs."""
    problem = Problem()
    graph = problem.add_graph("sites")
    node = {name: graph.add_node(f"{name}@{x},{y}") for name, x, y in read_rows("sites.txt")}
    rows = read_rows("links.txt")
    links = [graph.add_link(node[one], node[other]) for one, other, _ in rows]
    first, *others = node.values()
    problem.require(*(graph.maximum_flow_geq(first, other, 2) for other in others))
    costs = problem.add_sum([(link, int(cost)) for link, (_, _, cost) in zip(links, rows)], "costs")
    return problem, links, costs


def bounded(bound: int) -> Problem:
    """The problem with links that cost at most so much."""
    problem, _, costs = encode()
    problem.require(costs.at_most(bound))
    return problem


CHEAPEST = 30


def problems() -> dict[str, Problem]:
    """The problems of this example by name: the least cost, and one less."""
    return {"cheapest": bounded(CHEAPEST), "cheaper": bounded(CHEAPEST - 1)}


def picture(problem: Problem, model: Model) -> str:
    """The sites and links alone, with the two ways to the last but two site."""
    return drawing(problem, model, predicate=3)


def main() -> None:
    """Asks for the cheapest set of links: a model has it, and a refutation shows that nothing is cheaper."""
    problem, links, costs = encode()
    best = problem.minimise(costs)
    if not best:
        print("no set of links will do")
        return
    names = [name.split("@")[0] for name in problem.graphs[0].names]
    built = (link for link in links if best.model[link])
    print(f"cost {best.value}:", ", ".join("-".join(names[end] for end in link.ends) for link in built))
    if isinstance(best, Best):
        print(f"nothing is cheaper: the refutation has {len(best.refutation.lemmas)} lemmas")
    else:
        print(f"{best.gap or 'nobody knows how much'} less may be possible: the budget is spent")


if __name__ == "__main__":
    main()
