"""Makes large inputs and answers: make.py KIND FOLDER [N]

clauses     8,000,000 clauses of 16,000,000 literals, and a model of them
graph       1,000,000 edges, 100,000 predicates and 8,000,000 clauses
chain       a chain of implications over 1,000,000 variables, and a refutation of more than 100 MB, step by step
pigeons     N + 1 pigeons in N holes, and a resolution refutation, written out
lemmas      a grid of 100,000 edges, and progress of 100,000 lemmas on walks: paths and cuts in turn
model       1,000,000 edges, 1,000 predicates on walks from 10 sources, and a model
"""

from __future__ import annotations

import argparse
from collections.abc import Iterable, Iterator
from pathlib import Path


def write(file: Path, lines: Iterable[str]) -> None:
    """A file of these lines."""
    with open(file, "w") as out:
        out.writelines(f"{line}\n" for line in lines)


def listed(numbers: Iterable[int]) -> str:
    """Numbers, and the blanks between them."""
    return " ".join(map(str, numbers))


def pairs(count: int, variables: int) -> Iterator[str]:
    """So many clauses of two literals."""
    return (f"{i % variables + 1} -{(i * 7 + 3) % variables + 1} 0" for i in range(count))


def clauses(folder: Path) -> None:
    count, variables = 8_000_000, 1_000_000
    write(folder / "f", pairs(count, variables))
    write(folder / "a", ["s SATISFIABLE", f"v {listed(range(1, variables + 1))} 0"])


def graph(folder: Path) -> None:
    nodes, edges, predicates, count = 1_000_000, 1_000_000, 100_000, 8_000_000

    def lines() -> Iterator[str]:
        yield f"p gnf 1000000 {count}"
        yield f"digraph int {nodes} {edges} 0"
        for i in range(edges):
            yield f"edge 0 {i} {(i * 13 + 5) % nodes} {i + 1} {i % 1000}"
        for i in range(predicates):
            yield f"distance_leq 0 {i} {nodes - 1 - i} {i + 1} {i}"
        yield from pairs(count, 1_000_000)

    write(folder / "f", lines())


def chain(folder: Path) -> None:
    # 1, 1 -> 2, .., n-1 -> n, -n: a step derives the unit clause i + 1 from i and the implication, in each pass anew.
    n, passes = 1_000_000, 4

    def steps() -> Iterator[str]:
        yield "s UNSATISFIABLE"
        number = n + 1
        for _ in range(passes):
            last = 1
            for i in range(1, n):
                yield f"chain {i + 1} 0 {last} {i + 1}"
                number += 1
                last = number
        yield f"chain 0 {last} {n + 1}"

    write(folder / "f", ["1 0", *(f"-{i} {i + 1} 0" for i in range(1, n)), f"-{n} 0"])
    write(folder / "a", steps())


def pigeons(folder: Path, n: int) -> None:
    """Cook's refutation with the extension variables resolved away: for each k a matrix of clauses 'pigeon in hole'."""

    def var(p: int, h: int) -> int:
        return p * n + h + 1

    inputs = [[var(p, h) for h in range(n)] for p in range(n + 1)]
    steps: list[tuple[list[int], list[int]]] = []
    number = {}
    for h in range(n):
        for p in range(n + 1):
            for q in range(p):
                number[(q, p, h)] = len(inputs) + 1
                inputs.append([-var(q, h), -var(p, h)])

    # A clause is derived for each injective placing of the first pigeons, the deepest first: from 'these holes are
    # taken by pigeons 0 .. k-1' no placing of pigeon k is left.
    def derive(taken: tuple[int, ...]) -> int:
        k = len(taken)
        assumed = [-var(p, h) for p, h in enumerate(taken)]
        used = [k + 1]
        for h in range(n):
            if h in taken:
                used.append(number[(taken.index(h), k, h)])
            else:
                used.append(derive(taken + (h,)))
        steps.append((assumed, used))
        return len(inputs) + len(steps)

    derive(())
    write(folder / "f", (listed([*c, 0]) for c in inputs))
    write(folder / "a", ["s UNSATISFIABLE", *(f"chain {listed([*c, 0, *used])}" for c, used in steps)])


def grid_edges(side: int) -> Iterator[tuple[int, int]]:
    """The edges of a grid, right and down, then left and up, as pairs of nodes."""
    for r in range(side):
        for q in range(side):
            u = r * side + q
            if q + 1 < side:
                yield u, u + 1
                yield u + 1, u
            if r + 1 < side:
                yield u, u + side
                yield u + side, u


def corner(i: int, side: int) -> list[int]:
    """A block of nodes in the corner of the first one."""
    rows, columns = 2 + i % 5, 2 + i // 5 % 7
    return [r * side + q for r in range(rows) for q in range(columns)]


def bent_way(bend: int, side: int) -> list[int]:
    """The nodes from the first to the last one: right for a while, then down, then right again."""
    way = list(range(bend + 1)) + [r * side + bend for r in range(1, side)]
    return way + [(side - 1) * side + q for q in range(bend + 1, side)]


def lemmas(folder: Path) -> None:
    side, count = 159, 100_000
    number = {e: n for n, e in enumerate(grid_edges(side), 1)}
    x = len(number) + 1

    def problem() -> Iterator[str]:
        yield f"digraph int {side * side} {len(number)} 0"
        yield from (f"edge 0 {u} {v} {n}" for (u, v), n in number.items())
        yield f"reach 0 0 {side * side - 1} {x}"

    def steps() -> Iterator[str]:
        yield "s UNKNOWN"
        for i in range(count):
            if i % 2:
                nodes = corner(i, side)
                inside = set(nodes)  # what leaves the block has to be absent
                cut = [number[u, v] for u in nodes for v in (u + 1, u + side) if v not in inside]
                yield f"cut 1 {listed(cut)} -{x} 0 {listed(nodes)}"
            else:
                way = bent_way(i % side, side)
                used = [number[pair] for pair in zip(way, way[1:])]
                yield f"path 1 {listed(-n for n in used)} {x} 0 {listed(used)}"

    write(folder / "f", problem())
    write(folder / "a", steps())


def reached(onward: list[list[int]], source: int) -> set[int]:
    """The nodes to which walks lead from the source."""
    came, queue = {source}, [source]
    for u in queue:
        for v in onward[u]:
            if v not in came:
                came.add(v)
                queue.append(v)
    return came


def model(folder: Path) -> None:
    # 4 edges leave each node, and every seventh edge is absent, so that the sources reach most of the graph
    nodes, count, predicates = 250_000, 999_000, 1_000
    edges = [(i % nodes, (i * 7 + 1 + i // nodes) % nodes) for i in range(count)]
    onward: list[list[int]] = [[] for _ in range(nodes)]
    for n, (u, v) in enumerate(edges):
        if n % 7:
            onward[u].append(v)
    sources = [reached(onward, i * 1000) for i in range(10)]
    ends = [(i % 10, i * 241 % nodes) for i in range(predicates)]

    def problem() -> Iterator[str]:
        yield f"digraph int {nodes} {count} 0"
        yield from (f"edge 0 {u} {v} {n} {n % 9}" for n, (u, v) in enumerate(edges, 1))
        yield from (f"reach 0 {source * 1000} {target} {x}" for x, (source, target) in enumerate(ends, count + 1))

    values = [n + 1 if n % 7 else -n - 1 for n in range(count)]
    values += [x if target in sources[source] else -x for x, (source, target) in enumerate(ends, count + 1)]
    write(folder / "f", problem())
    write(folder / "a", ["s SATISFIABLE", f"v {listed(values)} 0"])


KINDS = {"clauses": clauses, "graph": graph, "chain": chain, "lemmas": lemmas, "model": model}


def main() -> None:
    parser = argparse.ArgumentParser(description=__doc__, formatter_class=argparse.RawDescriptionHelpFormatter)
    parser.add_argument("kind", metavar="KIND", choices=[*KINDS, "pigeons"], help="what is made")
    parser.add_argument("folder", metavar="FOLDER", type=Path, help="where: the input `f` and the answer `a`")
    parser.add_argument("holes", metavar="N", type=int, nargs="?", default=8, help="the holes of pigeons (%(default)s)")
    args = parser.parse_args()
    args.folder.mkdir(parents=True, exist_ok=True)
    if args.kind == "pigeons":
        pigeons(args.folder, args.holes)
    else:
        KINDS[args.kind](args.folder)


if __name__ == "__main__":
    main()
