"""Routes nets on a board of cells: each net joins its two pins, and no cell is used by two nets.

A board is a text: a letter is a pin of the net of that name, `.` a free cell and `#` a blocked one.
"""

from __future__ import annotations

from pathlib import Path

from gulfezo import Literal, Model, Problem, drawing

HERE = Path(__file__).parent

Cell = tuple[int, int]


def read_board(path: Path) -> dict[Cell, str]:
    """What is in each cell that isn't blocked, by column and row."""
    rows = [row.split() for row in path.read_text().splitlines()]
    return {(x, y): mark for y, row in enumerate(rows) for x, mark in enumerate(row) if mark != "#"}


def encode(board: dict[Cell, str], required: bool = True) -> Problem:
    """One graph for each net, over the same cells; each net is routed, or, where it isn't required, may be."""
    problem = Problem()
    cells = list(board)
    used: dict[Cell, list[Literal]] = {cell: [] for cell in cells}
    for net in sorted(set(board.values()) - {"."}):
        graph = problem.add_graph(f"net {net}")
        node = {(x, y): graph.add_node(f"{board[x, y]}@{x},{y}".removeprefix(".@")) for x, y in cells}
        uses = {cell: problem.add_variable(f"net {net} uses {cell[0]},{cell[1]}") for cell in cells}
        for x, y in cells:
            for beside in ((x + 1, y), (x, y + 1)):
                if beside in board:
                    track = graph.add_link(node[x, y], node[beside])
                    problem.add_clause(~track, uses[x, y])
                    problem.add_clause(~track, uses[beside])
        start, end = (node[cell] for cell in cells if board[cell] == net)
        routed = graph.reach(start, end, problem.add_variable(f"net {net}"))
        if required:
            problem.require(routed)
        for cell in cells:
            used[cell].append(uses[cell])
    for literals in used.values():
        problem.at_most_one(literals)
    return problem


def problems() -> dict[str, Problem]:
    """The problems of this example by name."""
    return {name: encode(read_board(HERE / f"{name}.txt")) for name in ("board", "crossed")}


def picture(problem: Problem, model: Model) -> str:
    """Both nets on one board."""
    return drawing(problem, model)


def crowded() -> Problem:
    """A large board, of 30 by 30 cells, on which not all nets can be routed together; none is required."""
    return encode(read_board(HERE / "crowded.txt"), required=False)


def say_why(problem: Problem) -> None:
    """Prints which nets stand against each other, and how long the others' ways are without one of them."""
    core = problem.core(problem.predicates)
    if core:
        print("crowded: all nets can be routed")
        return
    print(f"crowded: {', '.join(core.names)} can't all be routed")
    for need, name in zip(core.needs, core.names):
        if need.model:
            routed = [net for net in problem.predicates if need.model[net]]
            ways = (f"{problem.described(net)} by {len(need.model.path(net))} tracks" for net in routed)
            print(f"crowded: without {name}: {', '.join(ways)}")


def main() -> None:
    """Solves both small boards, and prints each net's way; then says which nets are too many for the large one."""
    for name, problem in problems().items():
        answer = problem.solve()
        if not answer:
            print(f"{name}: the nets can't both be routed; the refutation has {len(answer.lemmas)} lemmas")
            continue
        for net in problem.predicates:
            graph = problem.graphs[net.graph]
            print(f"{name}: {graph.name}: {' '.join(graph.names[node] for node in answer.nodes(net))}")
    say_why(crowded())


if __name__ == "__main__":
    main()
