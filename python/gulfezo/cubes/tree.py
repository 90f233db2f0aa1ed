"""The tree of cubes: each inner one is split on a variable, and the leaves cover all assignments."""

from __future__ import annotations

import enum
from collections.abc import Iterator
from dataclasses import dataclass, field


class State(enum.Enum):
    """How far a cube is."""

    OPEN = "open"
    RUNNING = "running"
    SPLIT = "split"
    REFUTED = "refuted"
    MODEL = "model"


@dataclass
class Cube:
    """Literals, by their numbers in the files, that are assumed together.

    Cubes are numbered from 1 in the order in which they are made. `seconds` is the processor time of all runs on it,
    `branch` the variable on which it was split, `sha256` the checksum of its answer's file where it is refuted, and
    `rejected` how often an answer to it was rejected or a run on it failed.
    """

    number: int
    literals: tuple[int, ...]
    state: State = State.OPEN
    seconds: float = 0.0
    worker: str = ""
    branch: int = 0
    children: tuple[Cube, ...] = ()
    sha256: str = ""
    rejected: int = 0
    is_probed: bool = False

    @property
    def answer(self) -> str:
        """The name of its answer's file in the folder."""
        return f"answers/{self.number}"

    @property
    def negation(self) -> tuple[int, ...]:
        """The clause that says that not all of its literals are true."""
        return tuple(-literal for literal in self.literals)


@dataclass
class Tree:
    """All cubes of a run, by their numbers less one. The first has no literals."""

    cubes: list[Cube] = field(default_factory=lambda: [Cube(1, ())])

    def cube(self, number: int) -> Cube:
        """The cube with that number. `ValueError`: there is none."""
        if not 0 < number <= len(self.cubes):
            raise ValueError(f"there is no cube {number}")
        return self.cubes[number - 1]

    def split(self, cube: Cube, variable: int) -> None:
        """Two further cubes, in which the variable is true and false, in place of this one."""
        if cube.children or variable <= 0 or variable in {abs(literal) for literal in cube.literals}:
            raise ValueError(f"cube {cube.number} can't be split on variable {variable}")
        number = len(self.cubes)
        signs = enumerate((variable, -variable), 1)
        cube.children = tuple(Cube(number + place, (*cube.literals, literal)) for place, literal in signs)
        cube.state, cube.branch = State.SPLIT, variable
        self.cubes += cube.children

    def leaves(self) -> Iterator[Cube]:
        """The cubes that aren't split, in the order in which they were made."""
        return (cube for cube in self.cubes if not cube.children)


def cover(cubes: list[tuple[int, ...]]) -> str:
    """The clauses that say that no cube holds, as a problem's file: the cubes cover all where they have no model."""
    return "".join(" ".join(map(str, (*(-literal for literal in cube), 0))) + "\n" for cube in cubes)


def refutation_of_cover(tree: Tree) -> str:
    """A refutation of `cover` of the leaves, in their order: a step for each inner cube resolves its two children's
    clauses, the root's last.

    `check` judges it like every other answer.
    """
    clause = {cube.number: place for place, cube in enumerate(tree.leaves(), 1)}
    rows, last = ["s UNSATISFIABLE"], len(clause)
    for cube in reversed(tree.cubes):  # children are made after their parents
        if cube.children:
            named = [clause[child.number] for child in cube.children]
            rows.append(f"chain {' '.join(map(str, (*cube.negation, 0, *named)))}")
            last += 1
            clause[cube.number] = last
    if len(rows) == 1:
        rows.append("chain 0 1")
    return "\n".join(rows) + "\n"
