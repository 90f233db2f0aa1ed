"""Refutations and progress: lists of steps, each of which follows from those before it."""

from __future__ import annotations

from array import array
from collections import Counter
from collections.abc import Sequence
from dataclasses import dataclass
from functools import cached_property
from typing import TYPE_CHECKING, Literal as Constant, NoReturn, Self, overload

from .errors import FormatError
from .graph import Graph
from .lines import Lines
from .naming import so_many
from .problem import Problem
from .statistics import Statistics


@dataclass(frozen=True)
class Step:
    """A step of a refutation or of progress: a lemma about a graph, or a chain of resolutions.

    `number` is that of its clause: the problem's clauses come first, from 1. `line` counts from 1. `word` is `chain` or
    a lemma's word, and a lemma names its predicate by number. `listed` are the numbers behind the clause.
    """

    number: int
    line: int
    word: str
    predicate: int | None
    clause: tuple[int, ...]
    listed: tuple[int, ...]

    @property
    def shows_that_it_holds(self) -> bool:
        """Whether the lemma shows that its predicate holds; others show that it fails."""
        return self.word in ("path", "flow", "tree", "order")

    @property
    def rests_on_present(self) -> bool:
        """Whether the lemma rests on edges that are there; others rest on edges that are absent."""
        return self.word in ("path", "flow", "tree", "cycle")

    @property
    def pairs(self) -> list[tuple[int, int]]:
        """The list of a `label` (nodes and labels) or of a `flow` (numbers of edges and amounts)."""
        return list(zip(self.listed[::2], self.listed[1::2]))


class Steps(Sequence[Step]):
    """Steps of an answer by the places of their lines, each read where it is asked for.

    The line at place k is the step of number `before` + k: the problem's clauses come before those of the steps. With
    `backwards` a chain's numbers count backwards from its own step in the text; `listed` has those of clauses.
    `FormatError`: the line of the step that is asked for isn't understood.
    """

    def __init__(self, lines: Lines, places: Sequence[int], before: int, backwards: bool = False) -> None:
        self.lines = lines
        self.places = places
        self.before = before
        self.backwards = backwards

    def __len__(self) -> int:
        return len(self.places)

    def __repr__(self) -> str:
        return f"<{so_many(len(self), 'step')}>"

    @overload
    def __getitem__(self, at: int) -> Step: ...
    @overload
    def __getitem__(self, at: slice) -> list[Step]: ...

    def __getitem__(self, at: int | slice) -> Step | list[Step]:
        if isinstance(at, slice):
            return [self.read(place) for place in self.places[at]]
        return self.read(self.places[at])

    def read(self, place: int) -> Step:
        """The step of the line at that place."""
        word, numbers = self.lines.numbers(place)
        line = self.lines.number(place)
        if word != "chain" and not numbers:
            raise FormatError(line, "a lemma names its predicate")
        predicate = None if word == "chain" else numbers.pop(0)
        if 0 not in numbers:
            raise FormatError(line, "a step's clause ends with 0")
        end = numbers.index(0)
        own, listed = self.before + place, numbers[end + 1 :]
        if self.backwards and word == "chain":
            listed = [max(own - number, 0) for number in listed]
        return Step(own, line, word, predicate, tuple(numbers[:end]), tuple(listed))

    def lemmas(self) -> Steps:
        """Those that speak of graphs."""
        places = array("Q", (place for place in self.places if not self.lines.is_chain(place)))
        return Steps(self.lines, places, self.before, self.backwards)


class Derivation:
    """Steps, each of which follows from the problem, what was assumed with it, and the steps before it.

    `assumptions` are the numbers of the literals that were assumed: each is a further clause behind the problem's.
    `seconds` are those of each phase of the solve that found them, and empty where they were only read.
    """

    def __init__(self, problem: Problem, steps: Steps, assumptions: Sequence[int] = ()) -> None:
        self.problem = problem
        self.steps = steps
        self.assumptions = tuple(assumptions)
        self.seconds: dict[str, float] = {}
        self._clauses = len(problem.clauses)
        self._sizes = {graph.identity: (len(graph), len(graph.edges)) for graph in problem.graphs.values()}

    def __repr__(self) -> str:
        kind, steps = type(self).__name__.lower(), so_many(len(self.steps), "step")
        return f"<{kind} of {steps}, {len(self.lemmas)} of them lemmas>"

    def _repr_svg_(self) -> str | None:
        """The first lemma as a picture, which Jupyter shows."""
        from .draw import shown_in_notebook

        return shown_in_notebook(self.problem, self) if isinstance(self, (Refutation, Progress)) else None

    @property
    def text(self) -> str:
        """The answer as it was printed."""
        return self.steps.lines.text()

    @cached_property
    def lemmas(self) -> Steps:
        """The steps that speak of graphs; the others are resolution alone."""
        return self.steps.lemmas()

    @property
    def statistics(self) -> Statistics:
        """What it took and what it has, read off it."""
        lines = self.steps.lines
        words = Counter(lines.word(place) for place in self.lemmas.places)
        return Statistics(dict(self.seconds), len(self.steps) - len(self.lemmas), dict(words), len(lines.data))

    def require_clauses(self) -> None:
        """`ValueError`: the problem has more clauses or fewer than when the answer came, whose steps count on them."""
        found = len(self.problem.clauses)
        if found != self._clauses:
            raise ValueError(f"there were {self._clauses} clauses when this answer came, and are {found}: solve again")

    def require_graph(self, graph: Graph) -> None:
        """`ValueError`: the graph has more nodes or edges or fewer than when the answer came, which is about those."""
        if self._sizes.get(graph.identity) != (len(graph), len(graph.edges)):
            if graph.problem is not self.problem:
                raise ValueError(f"graph {graph.identity} isn't of the problem that this answer is about")
            raise ValueError(f"graph {graph.identity} isn't as it was when this answer came: solve again")

    def step(self, number: int) -> Step:
        """The step whose clause has that number, as chains name it. `ValueError`: none has."""
        first = self.steps.before + (2 if self.steps.backwards else 1)
        if not first <= number < first + len(self.steps):
            raise ValueError(f"no step has the number {number}: they go from {first} to {first + len(self.steps) - 1}")
        return self.steps[number - first]

    def migrate(self, version: int, program: str | None = None) -> Self:
        """The same steps in version 1 or 2 of the format of answers (docs/FORMATS.md), by the program's `migrate`.

        The program judges the answer against the problem as it is now, under what was assumed, and turns only what it
        accepts.
        `RejectedAnswer`: it doesn't, as where the problem has grown since. `UnexpectedStatus`: it printed something
        else. Both name the files, which stay. `ProgramMissing`: there is no program.
        """
        from .answer import migrate

        found = migrate(self, version, program)
        assert isinstance(found, type(self)), "a refutation's migrated text is a refutation, and progress is progress"
        return found


# What is said where a refutation is taken for a model.
NO_MODEL = (
    "there is no model. Ask `if answer:` first; what was asked for is then in a model, and a refutation has `steps`, "
    "`lemmas` and `text`"
)


class Refutation(Derivation):
    """A proof that the problem has no model, or none under the assumptions: its last step is the empty clause.

    Each assumption is a clause of its own, numbered behind the problem's.
    """

    def __bool__(self) -> Constant[False]:
        return False

    def lrat(self, with_hints: bool = True) -> tuple[str, str]:
        """An LRAT proof, or without hints a DRAT proof, and the clauses that it is about, as a DIMACS CNF file.

        These are the problem's, one for each assumption, and those of the lemmas, which `check` judges.
        """
        from .lrat import clauses_of, proof

        lines = proof(self.problem, self, with_hints)
        return "".join(f"{line}\n" for line in lines), clauses_of(self.problem, self)

    if not TYPE_CHECKING:  # of a type checker these names stay unknown

        def __getattr__(self, name: str) -> NoReturn:
            raise AttributeError(f"a refutation has no {name!r}: {NO_MODEL}")

        def __getitem__(self, thing: object) -> NoReturn:
            raise TypeError(f"a refutation has no value of {thing!r}: {NO_MODEL}")


class Progress(Derivation):
    """The steps of a search that stopped at its budget."""
