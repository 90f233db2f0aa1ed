"""What a page about a refutation holds: its steps and clauses, packed in blocks that a browser unpacks one by one.

So a refutation of 100,000 steps makes a page of some megabytes, of which the browser reads what is looked at.
"""

from __future__ import annotations

import base64
import itertools
import zlib
from collections.abc import Iterable, Iterator
from typing import Any

from .. import layout
from ..graph import Graph
from ..problem import Problem
from ..steps import Derivation, Step

BLOCK = 500  # rows of a block
# The letters of steps by their words, one for each step in a row of letters.
LETTERS = {
    "chain": "c",
    "path": "p",
    "cut": "u",
    "label": "l",
    "flow": "f",
    "flowcut": "w",
    "tree": "t",
    "split": "s",
    "least": "e",
    "cycle": "y",
    "order": "o",
}
# Graphs beyond these sizes aren't drawn: nobody would see anything in them.
MOST_NODES, MOST_EDGES = 400, 2_000


def packed(text: str) -> str:
    """A text as a browser's `DecompressionStream` reads it, in base64."""
    packer = zlib.compressobj(9, zlib.DEFLATED, -15)
    return base64.b64encode(packer.compress(text.encode()) + packer.flush()).decode()


def blocks(rows: Iterable[str]) -> list[str]:
    """The rows, so many of them in each block."""
    remaining = iter(rows)
    found = []
    while block := list(itertools.islice(remaining, BLOCK)):
        found.append(packed("\n".join(block)))
    return found


def row(step: Step) -> str:
    """A step as a line of an answer of version 1, whatever version it was read from."""
    head = [step.word] if step.predicate is None else [step.word, str(step.predicate)]
    return " ".join([*head, *map(str, step.clause), "0", *map(str, step.listed)])


def rows(problem: Problem, answer: Derivation) -> Iterator[str]:
    """The clauses of the problem, of what was assumed, and the steps, by their numbers from 1."""
    yield from (" ".join(map(str, clause)) for clause in problem.clauses)
    yield from map(str, answer.assumptions)
    yield from map(row, answer.steps)


def roots(problem: Problem, answer: Derivation) -> tuple[list[int], list[int]]:
    """The steps that the last chain names, and the lemmas on which it rests: by their numbers."""
    if not len(answer.steps):
        return [], []
    first = len(problem.clauses) + len(answer.assumptions) + 1
    last = answer.steps[len(answer.steps) - 1]
    needed = {last.number}
    lemmas = []
    for at in range(len(answer.steps) - 1, -1, -1):
        if first + at in needed:
            step = answer.steps[at]
            if step.word == "chain":
                needed.update(step.listed)
            else:
                lemmas.append(first + at)
    return [number for number in last.listed if number >= first], lemmas[::-1]


def words(problem: Problem) -> dict[int, str]:
    """What each variable that has a name is called; edges and predicates have one."""
    found: dict[int, str] = {}
    for edge in problem.edges:
        link = edge.link
        found.setdefault(edge.number, problem.edge_name(edge) if link is None else problem.link_name(link))
    for predicate in problem.predicates:
        found[predicate.variable] = problem.predicate_name(predicate)
    return found | problem.names


def drawn(graph: Graph) -> dict[str, Any] | None:
    """A graph as the page draws it: places, labels and edges; None where it is too large."""
    if not 0 < len(graph) <= MOST_NODES or len(graph.edges) > MOST_EDGES:
        return None
    places = layout.places(graph)
    sides = graph.problem.edges.sides  # whether it is a link's way there or back
    edges = [[e.edge_number, e.start, e.end, e.number, str(e.weight), sides[e.edge_number - 1]] for e in graph.edges]
    labels = [layout.label(graph, node) for node in range(len(graph))]
    return {"places": [[round(x, 3), round(y, 3)] for x, y in places], "labels": labels, "edges": edges}


def packed_refutation(problem: Problem, answer: Derivation) -> dict[str, Any]:
    """What the page's script is given."""
    lines = answer.steps.lines
    named, rested = roots(problem, answer)
    about = {problem.predicates[number - 1].graph for number in {s.predicate for s in answer.lemmas} if number}
    return {
        "clauses": len(problem.clauses),
        "assumed": len(answer.assumptions),
        "block": BLOCK,
        "blocks": blocks(rows(problem, answer)),
        "kinds": "".join(LETTERS.get(lines.word(place), "?") for place in answer.steps.places),
        "letters": {letter: word for word, letter in LETTERS.items()},
        "named": named,
        "rested": rested,
        "words": packed("\n".join(f"{number} {name}" for number, name in words(problem).items())),
        "predicates": [[p.graph, problem.predicate_name(p)] for p in problem.predicates],
        "graphs": {
            identity: {"name": graph.name or str(identity), "drawn": drawn(graph) if identity in about else None}
            for identity, graph in problem.graphs.items()
        },
    }
