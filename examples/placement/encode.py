"""Places blocks on a floor with walls, so that some are near each other and others far apart along its free cells.

`floor.txt` is the floor, `.` a free cell and `#` a wall. `bounds.txt` has two blocks, `at_most` or `at_least`, and a
number of steps from cell to cell.
"""

from __future__ import annotations

from pathlib import Path

from gulfezo import Link, Model, Problem, drawing

HERE = Path(__file__).parent

Cell = tuple[int, int]


def read_rows(name: str) -> list[list[str]]:
    """The words of each line of a file."""
    return [line.split() for line in (HERE / name).read_text().splitlines()]


def encode() -> Problem:
    """The problem: for each block and cell there is an edge, which says that the block stands there."""
    problem = Problem()
    graph = problem.add_graph("floor")
    cells = [(x, y) for y, row in enumerate(read_rows("floor.txt")) for x, mark in enumerate(row) if mark == "."]
    node = dict(zip(cells, graph.add_nodes(cells)))
    free = problem.add_variable("always")
    problem.require(free)
    for x, y in cells:
        for beside in ((x + 1, y), (x, y + 1)):
            if beside in node:
                graph.add_link(node[x, y], node[beside], variable=free)
    bounds = read_rows("bounds.txt")
    names = sorted({name for row in bounds for name in row[:2]})
    block = {name: graph.add_node(name) for name in names}
    stands = {name: {cell: graph.add_link(block[name], node[cell]) for cell in cells} for name in names}
    for name in names:
        problem.exactly_one(stands[name].values())
    for cell in cells:
        problem.at_most_one(stands[name][cell] for name in names)
    for one, other, word, steps in bounds:
        # A walk from block to block has two edges more than steps: on to its first cell, and off its last.
        if word == "at_most":
            problem.require(graph.distance_leq(block[one], block[other], int(steps) + 2))
        else:
            problem.require(~graph.distance_leq(block[one], block[other], int(steps) + 1))
    return problem


def problems() -> dict[str, Problem]:
    """The problem of this example by name."""
    return {"floor": encode()}


def where(model: Model) -> dict[str, Cell]:
    """The cell of each block: the other end of the link that leads there from the block."""
    names = model.problem.graphs[0].names
    found = {}
    for link in model.edges(model.problem.graphs[0]):
        assert isinstance(link, Link)
        block, cell = (names[end] for end in link.ends)
        if "," not in block:
            x, y = map(int, cell.split(","))
            found[block] = (x, y)
    return found


def picture(problem: Problem, model: Model) -> str:
    """The floor with each block beside its cell, and the ways between those that are near each other."""
    graph = problem.graphs[0]
    for name, (x, y) in where(model).items():
        graph.names[graph.names.index(name)] = f"{name}@{x + 0.35},{y - 0.45}"
    return drawing(problem, model, absent=False)


def main() -> None:
    """Solves it, and prints where each block stands."""
    answer = encode().solve()
    if answer:
        for name, (x, y) in where(answer).items():
            print(f"{name}: column {x}, row {y}")
    else:
        print("there is no such place for each block")


if __name__ == "__main__":
    main()
