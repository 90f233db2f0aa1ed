"""Reads files of other programs: DIMACS CNF, and the part of MonoSAT's GNF that this program has.

What isn't understood is refused by the line's number and word, and nothing is guessed.
"""

from __future__ import annotations

import os
from typing import Any

from .errors import FormatError
from .graph import Graph
from .limits import MOST_VARIABLES, one_line, printable, whole
from .literals import WORDS, literal_of
from .problem import Problem
from .reading import BLANKS, Reader, literal, natural, text_of_file

# Words of MonoSAT's that mean the same as here.
SHARED = {"p", "edge", *WORDS}


def read_dimacs(path: str | os.PathLike[str]) -> Problem:
    """The problem of a DIMACS CNF file: comments, a header `p cnf V C`, and clauses. A line `%` ends it, as in SATLIB.

    `FormatError`: another line, or another number of clauses or a greater variable than the header says.
    """
    reader, header = Reader(), None
    number = 0
    for number, tokens, line in lines_of(path):
        if tokens[0] == "%":
            break
        if tokens[0] == "p":
            if header is not None or len(tokens) != 4 or tokens[1] != "cnf":
                raise FormatError(number, "a DIMACS CNF file has one header, `p cnf` and two numbers")
            header = taken(reader, number, tokens, line, lambda: (natural(tokens[2]), natural(tokens[3])))
        elif tokens[0] != "c" and not tokens[0].lstrip("-").isdigit():
            raise FormatError(number, f"`{tokens[0]}` begins no line of a DIMACS CNF file")
        taken(reader, number, tokens, line)
    problem = reader.finished()
    found = problem.variables, len(problem.clauses)
    if header is not None and (found[0] > header[0] or found[1] != header[1]):
        said = f"{header[0]} variables and {header[1]} clauses"
        raise FormatError(number, f"the header says {said}, and the file has {found[0]} and {found[1]}")
    return problem


def read_monosat(path: str | os.PathLike[str]) -> Problem:
    """The problem of a file of MonoSAT's, where each of its lines means something here.

    Read are clauses, `digraph` with whole weights and perhaps a name, `node G N [NAME]`, which adds a node or names
    one, `edge`, `symbol X NAME`, `amo LIT.. 0` (at most one), and the predicates that this program has. A bare `solve`,
    which MonoSAT's own front writes where it solves, says nothing of the problem. `FormatError`: any other line, such
    as one on bit-vectors or geometry, or a `solve` under assumptions.
    """
    reader = Reader()
    most_one: list[list[int]] = []
    for number, tokens, line in lines_of(path):
        word = tokens[0]
        if word == "digraph":
            taken(reader, number, tokens, line, lambda: graph(reader, tokens))
        elif word == "node":
            taken(reader, number, tokens, line, lambda: node(reader, tokens))
        elif word == "symbol":
            taken(reader, number, tokens, line, lambda: symbol(reader, tokens))
        elif word == "amo":
            most_one.append(taken(reader, number, tokens, line, lambda: amo(reader, tokens)))
        elif word in SHARED or word == "c" or word.lstrip("-").isdigit():
            taken(reader, number, tokens, line)
        elif word == "solve":
            taken(reader, number, tokens, line, lambda: solve(reader, tokens))
        else:
            raise FormatError(number, f"`{word}` has no counterpart in this program's format")
    problem = reader.finished()
    for numbers in most_one:  # at the end, since they may take further variables
        problem.at_most_one([literal_of(number, problem) for number in numbers])
    return problem


def lines_of(path: str | os.PathLike[str]) -> list[tuple[int, list[str], str]]:
    """The lines that aren't blank: numbers, tokens and texts."""
    rows = enumerate(text_of_file(path).split("\n"), 1)
    split = ((number, BLANKS.split(line.strip(" \t\r")), line) for number, line in rows)
    return [(number, tokens, line) for number, tokens, line in split if tokens != [""]]


def taken(reader: Reader, number: int, tokens: list[str], line: str, read: Any = None) -> Any:
    """What `read` gives, or else what the reader makes of the line. `FormatError`: it isn't understood."""
    try:
        return reader.take(number, tokens, line) if read is None else read()
    except ValueError as fault:
        raise FormatError(number, f"`{tokens[0]}`: {fault}") from fault


def graph(reader: Reader, tokens: list[str]) -> None:
    """Reads `digraph [int] N M G [NAME]`."""
    reader.require_closed()
    fields = tokens[2:] if tokens[1:2] == ["int"] else tokens[1:]
    if len(fields) not in (3, 4) or not fields[0].isdigit():
        raise ValueError("only graphs with weights `int` are read: `digraph int N M G` and perhaps a name")
    nodes, _, identity = map(natural, fields[:3])
    reader.problem.declare_graph(identity, " ".join(fields[3:])).grow(nodes)


def node(reader: Reader, tokens: list[str]) -> None:
    """Reads `node G N [NAME]`."""
    reader.require_closed()
    if len(tokens) not in (3, 4):
        raise ValueError("it has another number of fields")
    found, number = reader.graph(natural(tokens[1])), natural(tokens[2])
    if number == len(found):
        found.add_node()
    if number > len(found):
        raise ValueError(f"node {number} comes before node {len(found)}")
    for name in tokens[3:]:
        found.name_node(number, one_line(name))


def symbol(reader: Reader, tokens: list[str]) -> None:
    """Reads `symbol X NAME`."""
    reader.require_closed()
    if len(tokens) != 3:
        raise ValueError("it has another number of fields")
    number = whole(natural(tokens[1]), "a variable", MOST_VARIABLES, 1)
    reader.use_variables(number)
    reader.problem.names[number] = one_line(tokens[2])


def amo(reader: Reader, tokens: list[str]) -> list[int]:
    """Reads `amo LIT.. [0]`: the numbers of literals of which at most one is true."""
    reader.require_closed()
    numbers = list(map(literal, tokens[1:]))
    if numbers[-1:] == [0]:
        numbers.pop()
    if not numbers or 0 in numbers:
        raise ValueError("at most one of which literals?")
    for number in numbers:
        reader.use_variables(abs(number))
    return numbers


def solve(reader: Reader, tokens: list[str]) -> None:
    """Reads `solve`."""
    reader.require_closed()
    if len(tokens) > 1:
        raise ValueError("it assumes literals; leave them out, and give them to `Problem.solve`")


def networkx_graph(problem: Problem, graph: Any, weight: str, default: int | None) -> Graph:
    """See `Problem.add_networkx`."""
    if not hasattr(graph, "nodes") or not hasattr(graph, "is_directed"):
        raise TypeError(f"{type(graph).__name__!r} is no graph of networkx; Graph.add_edge takes edges one by one")
    made = problem.add_graph(printable(str(getattr(graph, "name", "") or "")))
    data_of = dict(graph.nodes(data=True)) if callable(graph.nodes) else {}
    for key in graph.nodes:
        made.add_node(node_name(key, data_of.get(key, {})), key=key)
    edges = list(graph.edges(data=True))
    missing = [(start, end) for start, end, data in edges if weight not in data]
    if default is None and missing and len(missing) < len(edges):
        start, end = missing[0]
        said = f"the edge from {start!r} to {end!r} has no {weight!r}, and others have"
        raise ValueError(f"{said}: give `default`, which it then weighs")
    add = made.add_edge if graph.is_directed() else made.add_link
    for start, end, data in edges:
        add(made.node(start), made.node(end), data.get(weight, 1 if default is None else default))
    return made


def node_name(key: Any, data: dict[str, Any]) -> Any:
    """A node's name: its key where that is a text or coordinates, and behind it the place where it has one."""
    name = printable(key if isinstance(key, (str, tuple)) and key != "" else str(key))
    try:
        x, y = map(float, data["pos"])
    except (KeyError, TypeError, ValueError):
        return name
    label = ",".join(name) if isinstance(name, tuple) else name
    return f"{label}@{x:.6g},{-y:.6g}"  # networkx draws y upwards
