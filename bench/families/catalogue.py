"""The families by name: how an input is made of a size and a seed, and the sizes, each with its number of seeds."""

from __future__ import annotations

from collections.abc import Callable, Iterator
from dataclasses import dataclass
from functools import partial
from typing import Any, Generic, TypeVar

from families import boards, clauses, grids, large, orders, precedence, sites
from families.encoding import Encoding

Size = TypeVar("Size")


@dataclass
class Input:
    """An input of a family: its size and its seed in words, its seed, and what makes it."""

    label: str
    seed: int
    make: Callable[[], Encoding]


@dataclass
class Family(Generic[Size]):
    """Inputs that are made alike."""

    make: Callable[[Size, int], Encoding]
    sizes: list[tuple[Size, int]]  # each with its number of seeds
    large: list[tuple[Size, int]]  # those that take long
    clauses_alone: bool = False

    @property
    def what(self) -> str:
        """What the inputs are about, in one line."""
        return (self.make.__doc__ or "").splitlines()[0]

    def inputs(self, seeds: range, large: bool) -> Iterator[Input]:
        """The inputs of each size, of those of its seeds that are among these."""
        for size, most in self.large if large else self.sizes:
            for seed in (it for it in range(1, most + 1) if it in seeds):
                shown = "x".join(map(str, size)) if isinstance(size, tuple) else str(size)
                yield Input(f"{shown}, seed {seed}", seed, partial(self.make, size, seed))


FAMILIES: dict[str, Family[Any]] = {
    # boards: cells on a side, nets
    "routing": Family(boards.routing, [((10, 4), 10), ((12, 5), 10)], [((20, 10), 3), ((30, 8), 3)]),
    "boards": Family(boards.boards, [((12, 6), 5), ((20, 6), 5), ((30, 6), 5)], [((40, 6), 5)]),
    "maze": Family(boards.maze, [(20, 5), (30, 5)], [(60, 3)]),
    # sites
    "network": Family(sites.network, [(40, 10), (60, 10)], [(120, 3), (200, 3)]),
    "layout": Family(sites.layout, [(30, 10), (40, 10)], [(80, 3), (160, 3)]),
    "trees": Family(sites.trees, [(40, 5), (60, 5)], [(100, 3), (150, 3)]),
    # elements
    "orders": Family(orders.betweenness, [(30, 5), (40, 5)], [(80, 3)]),
    # nodes, how far below a greedy bound; jobs, machines
    "feedback": Family(precedence.feedback, [((24, 0), 5), ((30, 0), 5)], [((40, 0), 3)]),
    "schedules": Family(precedence.schedules, [((8, 6), 5), ((12, 6), 5)], [((14, 10), 3)]),
    # grids: nodes on a side, predicates
    "predicates": Family(grids.predicates, [((8, 20), 5), ((16, 20), 5)], [((24, 20), 3), ((50, 20), 3)]),
    "reaching": Family(grids.reaching, [((8, 20), 5), ((16, 20), 5)], [((24, 20), 3), ((50, 20), 3)]),
    "near": Family(grids.near, [((8, 20), 5), ((16, 20), 5)], [((24, 20), 3), ((50, 20), 3)]),
    "flows": Family(grids.flows, [((8, 20), 5), ((16, 20), 5)], [((24, 20), 3), ((50, 20), 3)]),
    "tree-bounds": Family(grids.tree_bounds, [((8, 12), 5), ((12, 12), 5)], [((16, 12), 3), ((24, 12), 3)]),
    "wall": Family(grids.wall, [(100, 3)], [(300, 1)]),
    # large networks: nodes on a side, the kind of the predicates; cells on a side; nodes on a side
    "large": Family(large.networks, [((60, k), 1) for k in large.KINDS], [((120, k), 1) for k in large.KINDS]),
    "large-shut": Family(large.shut, [((60, k), 1) for k in large.KINDS], [((120, k), 1) for k in large.KINDS]),
    "large-maze": Family(large.cells, [(20, 1), (30, 1)], [(60, 1)]),
    "large-orders": Family(large.one_way, [(60, 1)], [(120, 1), (240, 1)]),
    # variables; holes; nodes
    "random150": Family(clauses.uniform, [(150, 20)], [(300, 3)], True),
    "random200": Family(clauses.uniform, [(200, 20)], [(250, 3)], True),
    "pigeons": Family(clauses.pigeons, [(7, 1), (8, 1), (9, 1)], [(10, 1)], True),
    "colours": Family(clauses.colours, [(300, 10)], [(500, 3)], True),
    "parity": Family(clauses.parity, [(20, 3), (24, 3), (28, 3)], [(32, 3)], True),
}
