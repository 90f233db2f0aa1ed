"""Reads a file of the program's input format into a `Problem`: for pictures and for what other checkers need.

It is no check: the program itself names the first malformed line of a file and its fault (`gulfezo print FILE`).
"""

from __future__ import annotations

import os
import re
from array import array
from pathlib import Path

from .errors import FormatError
from .graph import Graph
from .limits import MOST_EDGES, MOST_VARIABLES, MOST_WEIGHT, whole
from .literals import WITHOUT_BOUND, WITHOUT_ENDS, WORDS, literal_of
from .problem import Problem
from .reasons import shown

# What parts tokens, and a number as the files have it; Python's own ideas of blanks and numbers are wider.
BLANKS, NATURAL = re.compile("[ \t\r]+"), re.compile("[0-9]+")
MOST_DIGITS = 20  # of the greatest number that the format has
NAMED_NUMBER = re.compile("[0-9]{1,10}")  # in a comment, which isn't refused whatever it says
# Many lines at once: of numbers, and of edges with a weight and without one.
NUMBERS = re.compile(rb"[-0-9][-0-9 \t\r\n]*\n")
EDGES = re.compile(rb"(?:edge(?: [0-9]{1,20}){5}\n)+|(?:edge(?: [0-9]{1,20}){4}\n)+")
PIECE = 1 << 20  # bytes that are read at once


def read_problem(path: str | os.PathLike[str]) -> Problem:
    """The problem of a file. `FormatError` names a line that isn't understood."""
    return parse(Path(path).read_bytes())


def text_of_file(path: str | os.PathLike[str]) -> str:
    """The text of a file, in which a carriage return is a blank. Where Python reads text it would end a line."""
    return Path(path).read_bytes().decode("utf-8", "replace")


def parse_problem(text: str) -> Problem:
    """The problem of a text."""
    return parse(text.encode("utf-8", "surrogatepass"))


def parse(data: bytes) -> Problem:
    """The problem of a text: runs of lines at once where they are as the front writes them, others one by one."""
    reader, place, number = Reader(), 0, 1
    while place < len(data):
        end = reader.take_numbers(data, place, number) or reader.take_edges(data, place)
        if end == 0:
            end = data.find(b"\n", place) + 1 or len(data)
            take_line(reader, number, data[place:end].removesuffix(b"\n").decode("utf-8", "replace"))
            number += 1
        else:
            number += data.count(b"\n", place, end)
        place = end
    return reader.finished()


def take_line(reader: Reader, number: int, line: str) -> None:
    """Reads one line. `FormatError`: it isn't understood."""
    tokens = [token for token in BLANKS.split(line) if token]
    if not tokens:
        return
    try:
        reader.take(number, tokens, line)
    except ValueError as fault:
        raise FormatError(number, f"{shown(line.strip())!r}: {fault}; `gulfezo print FILE` names the fault") from fault


def natural(token: str) -> int:
    """The number that the token writes in digits alone. `ValueError`: it doesn't, or the format has none so great."""
    if NATURAL.fullmatch(token) is None:
        raise ValueError(f"{shown(token)!r} is no natural number")
    if len(token) > MOST_DIGITS:  # Python reads no number of thousands of digits, and the first ones may be zeros
        token = token.lstrip("0") or "0"
        if len(token) > MOST_DIGITS:
            raise ValueError(f"{shown(token)!r} is above each limit")
    return int(token)


def literal(token: str) -> int:
    """The number of a literal, or 0."""
    return -natural(token[1:]) if token.startswith("-") else natural(token)


class Reader:
    """The problem so far, and the literals of the clause that is open."""

    def __init__(self) -> None:
        self.problem = Problem()
        self.open: list[int] = []
        self.last_literal = 0  # the line in which the last literal stands

    def take(self, number: int, tokens: list[str], line: str) -> None:
        """Reads a line that isn't blank, by its number. `ValueError`: it isn't understood."""
        if tokens[0] == "c":
            self.comment(tokens, line)
        elif tokens[0][0] in "-0123456789":
            self.numbers(number, list(map(literal, tokens)))
        else:
            self.require_closed()
            self.statement(tokens)

    def take_numbers(self, data: bytes, place: int, number: int) -> int:
        """Reads the lines of numbers that begin there, the first of them having that number, to the end of a clause.

        Where they end; 0 where there are none, or where one of them isn't understood, which is left to `take`.
        """
        found = None if self.open else NUMBERS.match(data, place, place + PIECE)
        if found is None:
            return 0
        try:
            flat = array("i", map(int, found[0].split()))
        except (ValueError, OverflowError):
            return 0
        if not flat or flat[-1] or max(flat) > MOST_VARIABLES or min(flat) < -MOST_VARIABLES:
            return 0
        self.problem.clauses.extend(flat)
        self.problem.variables = max(self.problem.variables, max(flat), -min(flat))
        return found.end()

    def take_edges(self, data: bytes, place: int) -> int:
        """Reads the lines of edges that begin there: where they end, or 0, as `take_numbers`."""
        found = None if self.open else EDGES.match(data, place, place + PIECE)
        if found is None:
            return 0
        tokens = found[0].split()
        wide = 6 if found[0].count(b" ", 0, found[0].index(b"\n")) == 5 else 5
        columns = [list(map(int, tokens[column::wide])) for column in range(1, wide)]
        weights = columns[4] if wide == 6 else [1] * len(columns[0])
        graphs, starts, ends, variables = columns[:4]
        problem = self.problem
        limits = {identity: len(graph) for identity, graph in problem.graphs.items()}
        if not (1 <= min(variables) and max(variables) <= MOST_VARIABLES and max(weights) <= MOST_WEIGHT):
            return 0
        if len(problem.edges) + len(graphs) > MOST_EDGES or not set(graphs) <= set(limits):
            return 0
        if any(start >= limits[graph] or end >= limits[graph] for graph, start, end in zip(graphs, starts, ends)):
            return 0
        problem.edges.extend(graphs, starts, ends, variables, weights)
        problem.variables = max(problem.variables, max(variables))
        return found.end()

    def statement(self, tokens: list[str]) -> None:
        """Reads a line that begins with a word."""
        word, count = tokens[0], len(tokens)
        if word == "p":
            require(count == 4 and tokens[1] in ("cnf", "gnf"), "a header is `p gnf V C` or `p cnf V C`")
            self.use_variables(natural(tokens[2]))
        elif word == "digraph":
            require(count == 4 or count == 5 and tokens[1] == "int", "a graph is `digraph int N M G`")
            nodes, _, identity = map(natural, tokens[-3:])
            self.problem.declare_graph(identity).grow(nodes)
        elif word == "edge":
            require(count in (5, 6), "an edge is `edge G U V X` and perhaps a weight")
            identity, start, end, variable, *weight = map(natural, tokens[1:])
            self.use_variables(variable)
            self.graph(identity).add_edge(start, end, weight[0] if weight else 1, literal_of(variable, self.problem))
        elif word in WORDS:
            self.predicate(word, list(map(natural, tokens[1:])))
        else:
            raise ValueError(f"no line begins with {shown(word)!r}")

    def finished(self) -> Problem:
        """The problem, once all lines are read. `FormatError`: the last clause isn't ended."""
        if self.open:
            raise FormatError(self.last_literal, "the last clause isn't ended by 0")
        self.problem.edges.find_links()
        return self.problem

    def require_closed(self) -> None:
        """`ValueError`: a clause is open, so no word may come."""
        require(not self.open, "the clause before this line isn't ended by 0")

    def graph(self, identity: int) -> Graph:
        """The graph with that number. `ValueError`: none has it."""
        if identity not in self.problem.graphs:
            raise ValueError(f"there is no graph {identity}")
        return self.problem.graphs[identity]

    def use_variables(self, number: int) -> None:
        """The variables up to this number are in use."""
        self.problem.variables = max(self.problem.variables, whole(number, "a variable", MOST_VARIABLES))

    def predicate(self, word: str, fields: list[int]) -> None:
        """Reads a predicate's line."""
        kind = WORDS[word][0]
        has_ends, has_bound = kind not in WITHOUT_ENDS, kind not in WITHOUT_BOUND
        require(len(fields) == 2 + 2 * has_ends + has_bound, "it has another number of fields")
        identity, *rest = fields
        bound = rest.pop() if has_bound else None
        *ends, variable = rest
        self.use_variables(variable)
        pair = (ends[0], ends[1]) if has_ends else None
        self.graph(identity).add_predicate(word, pair, bound, literal_of(variable, self.problem))

    def numbers(self, line: int, numbers: list[int]) -> None:
        """Reads literals, and the zeros that end clauses."""
        for number in numbers:
            if number:
                self.use_variables(abs(number))
                self.open.append(number)
                self.last_literal = line
            else:
                self.problem.clauses.append(self.open)
                self.open = []

    def comment(self, tokens: list[str], line: str) -> None:
        """Reads a name out of a comment: `c variable X NAME`, `c graph G NAME`, `c node G N NAME`.

        `c hide G` and `c hide G N` say what pictures leave out.
        """
        kind = " ".join(tokens[1:2])
        if kind == "hide" and len(tokens) in (3, 4) and all(map(NAMED_NUMBER.fullmatch, tokens[2:])):
            self.hide(*map(int, tokens[2:]))
            return
        place = {"variable": 3, "graph": 3, "node": 4}.get(kind, len(tokens))
        if place >= len(tokens) or not all(map(NAMED_NUMBER.fullmatch, tokens[2:place])):
            return
        name = BLANKS.split(line.strip(" \t\r"), place)[place]
        first, last = int(tokens[2]), int(tokens[place - 1])
        graph = self.problem.graphs.get(first)
        if kind == "variable":
            self.problem.names[first] = name
        elif graph is not None and kind == "graph":
            graph.name = name
        elif graph is not None and last < len(graph):
            graph.name_node(last, name)

    def hide(self, identity: int, *nodes: int) -> None:
        """Leaves a graph, or one of its nodes, out of pictures, where there is such a one."""
        graph = self.problem.graphs.get(identity)
        if graph is not None and all(node < len(graph) for node in nodes):
            graph.hide(*nodes)


def require(holds: bool, fault: str) -> None:
    """`ValueError`: it doesn't hold."""
    if not holds:
        raise ValueError(fault)
