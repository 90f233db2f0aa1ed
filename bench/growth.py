"""How the time of `solve` grows with inputs that need next to no search: growth.py [--program PATH] [SHAPE..]

A row for each shape: the processor seconds at n, 2n and 4n, and the exponent between the last two, which is 1 where the
time is in proportion to the input. `check` judges each answer. No time is tested; the status is 1 where a run has no
answer, or one that `check` refuses.
"""

from __future__ import annotations

import argparse
import math
import random
import sys
import tempfile
from collections.abc import Callable
from dataclasses import dataclass

import flags
from families.boards import neighbours
from families.encoding import Encoding
from runs import ANSWERS, Solver, about, ratio


def star(n: int) -> Encoding:
    """n edges from one node, a predicate for each of their ends, and each variable's value as a clause."""
    made = Encoding()
    graph = made.graph(n + 1)
    edges = [made.edge(graph, 0, i + 1) for i in range(n)]
    for i, edge in enumerate(edges):
        for x in (edge, made.predicate("reach", graph, 0, i + 1)):
            made.clause(x if i % 3 else -x)
    return made


def line(n: int, word: str = "reach", *bounds: int) -> Encoding:
    """A line of n edges, which are given, and a predicate from its first node to each other one."""
    made = Encoding()
    graph = made.graph(n + 1)
    for i in range(n):
        made.clause(made.edge(graph, i, i + 1))
    for i in range(n):
        made.predicate(word, graph, 0, i + 1, *bounds)
    return made


def one_edge(n: int) -> Encoding:
    """n predicates over one edge, which is given."""
    made = Encoding()
    graph = made.graph(2)
    made.clause(made.edge(graph, 0, 1))
    for _ in range(n):
        made.predicate("reach", graph, 0, 1)
    return made


def idle(n: int) -> Encoding:
    """Eight pigeons in seven holes, beside n graphs that no clause speaks of."""
    made = Encoding()
    for _ in range(n):
        graph = made.graph(2)
        made.edge(graph, 0, 1)
        made.predicate("reach", graph, 0, 1)
    pigeons = [[made.variable() for _ in range(7)] for _ in range(8)]
    for pigeon in pigeons:
        made.clause(*pigeon)
    for hole in zip(*pigeons):
        for i, one in enumerate(hole):
            for other in hole[:i]:
                made.clause(-one, -other)
    return made


def sources(n: int) -> Encoding:
    """A board of 40 by 40 cells whose edges are given, and a predicate from each of n nodes."""
    drawn = random.Random(3)
    made = Encoding()
    graph = made.graph(1600)
    for u, v in neighbours(40):
        for ends in ((u, v), (v, u)):
            made.clause(made.edge(graph, *ends) * (1 if drawn.random() < 0.55 else -1))
    for i in range(n):
        made.predicate("reach", graph, i, drawn.randrange(1600))
    return made


def pairs(n: int) -> Encoding:
    """n pairs of equal edges in a row, and one flow of 2 through all of them, which is wanted."""
    made = Encoding()
    graph = made.graph(n + 1)
    for i in range(n):
        for _ in range(2):
            made.edge(graph, i, i + 1)
    made.clause(made.predicate("maximum_flow_geq", graph, 0, n, 2))
    return made


def back_edges(n: int) -> Encoding:
    """A line of n edges, which are given, and an edge back from each of its nodes, none of which may be there."""
    made = Encoding()
    graph = made.graph(n + 1)
    for i in range(n):
        made.clause(made.edge(graph, i, i + 1))
        made.edge(graph, i + 1, i * 7 % (i + 1))
    acyclic = made.variable()
    made.rows.append(f"acyclic {graph} {acyclic}")
    made.clause(acyclic)
    return made


@dataclass
class Shape:
    """Inputs of one shape, by a number that they grow with."""

    what: str
    first: int
    made: Callable[[int], Encoding]


SHAPES = {
    "star": Shape("many predicates from one node, all given", 1000, star),
    "line": Shape("predicates along one line", 1000, line),
    "edge": Shape("predicates over one edge", 4000, one_edge),
    "idle": Shape("a pigeonhole beside graphs that nothing touches", 250, idle),
    "sources": Shape("a first node for each predicate", 100, sources),
    "steps": Shape("bounds on steps along one line", 1000, lambda n: line(n, "distance_leq", n)),
    "flow": Shape("one flow through n pairs of edges", 5000, pairs),
    "acyclic": Shape("a line and an edge back from each node", 1000, back_edges),
}


def known(name: str) -> str:
    """The name of a shape."""
    if name not in SHAPES:
        raise argparse.ArgumentTypeError(f"no shape has the name {name}")
    return name


def arguments() -> argparse.Namespace:
    """What the command's words say."""
    parser = flags.parser(__doc__)
    add = parser.add_argument
    usual = ", ".join(SHAPES)
    add("shapes", nargs="*", type=known, default=list(SHAPES), metavar="SHAPE", help=f"by name ({usual})")
    return parser.parse_args()


def seconds(solver: Solver, made: Encoding) -> float | None:
    """The time of the run over the input, or None where it has no answer that `check` accepts."""
    solver.put(made.text())
    run = solver.solve()
    if not run.answered or solver.check()[1] != ANSWERS[run.status]:
        return None
    return run.seconds


def main() -> None:
    args = arguments()
    wrong = 0
    with tempfile.TemporaryDirectory() as folder:
        solver = Solver(args.program, folder, args.limit)
        for name in args.shapes:
            shape = SHAPES[name]
            times: list[float | None] = []
            for scale in (1, 2, 4):
                with about(f"{name}, n = {scale * shape.first}", flags.again(args, name)):
                    times.append(seconds(solver, shape.made(scale * shape.first)))
            found = [time for time in times if time is not None]
            wrong += len(times) - len(found)
            row = " ".join("none" if time is None else f"{time:.2f}" for time in times)
            exponent = f"{math.log2(ratio(found[2], found[1])):.2f}" if len(found) == len(times) else ""
            print(f"| {shape.what} | {row} | {exponent} |", flush=True)
    sys.exit(1 if wrong else 0)


if __name__ == "__main__":
    main()
