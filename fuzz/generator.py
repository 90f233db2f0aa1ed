"""A second generator of inputs: the same texts as the program's `gen`, written from the description alone.

The words are those of PCG with 64 bits of state and words of 32 bits (O'Neill 2014), on stream 0.
"""

from __future__ import annotations

from collections.abc import Iterator

MASK = 2**64 - 1
Cell = tuple[int, int]


class Pcg32:
    """The generator of words."""

    def __init__(self, seed: int) -> None:
        self.increment = 1
        self.state = (seed + self.increment) & MASK
        self.step()

    def step(self) -> None:
        self.state = (self.state * 6364136223846793005 + self.increment) & MASK

    def word(self) -> int:
        old = self.state
        self.step()
        mixed = (((old >> 18) ^ old) >> 27) & 0xFFFFFFFF
        turn = old >> 59
        return (mixed >> turn | mixed << (32 - turn)) & 0xFFFFFFFF

    def draw(self, below: int) -> int:
        return self.word() % below


def neighbours(size: int, row: int, column: int) -> Iterator[Cell]:
    """The cells beside a cell of the grid: right, below, left, above."""
    for down, right in ((0, 1), (1, 0), (0, -1), (-1, 0)):
        if 0 <= row + down < size and 0 <= column + right < size:
            yield row + down, column + right


def edges_of(size: int) -> list[tuple[Cell, Cell]]:
    """The edges of a grid of so many cells on a side."""
    cells = [(row, column) for row in range(size) for column in range(size)]
    return [(cell, other) for cell in cells for other in neighbours(size, *cell)]


def generated(kind: str, size: int, seed: int) -> str:
    """The text of `gen KIND SIZE SEED`."""
    words = Pcg32(seed)
    edges = edges_of(size)
    count = len(edges)
    last = size * size - 1
    lines = [
        f"edge 0 {a * size + b} {c * size + d} {number} {1 + words.draw(9)}"
        for number, ((a, b), (c, d)) in enumerate(edges, 1)
    ]
    if kind == "grid":
        lines += [
            f"reach 0 0 {last} {count + 1}",
            f"reach 0 {size - 1} {size * size - size} {count + 2}",
            f"maximum_flow_geq 0 0 {last} {count + 3} 2",
        ]
        clauses = [[count + 1], [count + 2], [count + 3]]
        while len(clauses) < 4 * size * size:
            clause = [1 + words.draw(count)]
            for _ in range(2):
                variable = 1 + words.draw(count)
                clause.append(-variable if words.draw(2) == 1 else variable)
            clauses.append(clause)
        variables = count + 3
    else:
        column = words.draw(size - 1)
        lines.append(f"reach 0 0 {last} {count + 1}")
        clauses = [[count + 1]]
        for number, ((_, b), (_, d)) in enumerate(edges, 1):
            if (b, d) == (column, column + 1):
                clauses.append([-number])
        variables = count + 1
    head = [f"p gnf {variables} {len(clauses)}", f"digraph int {size * size} {count} 0"]
    lines += [" ".join(map(str, clause)) + " 0" for clause in clauses]
    return "".join(f"{line}\n" for line in head + lines)
