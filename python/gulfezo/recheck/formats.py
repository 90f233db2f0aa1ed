"""Inputs, as docs/FORMATS.md says: read, or refused by their first malformed line, and printed."""

from __future__ import annotations

import functools
import re
from collections.abc import Callable, Iterator
from dataclasses import dataclass, field
from typing import NamedTuple

from .graphs import Edge, Edges, Meaning

NATURAL, SIGNED, BLANKS = re.compile(rb"[0-9]+"), re.compile(rb"-?[0-9]+"), re.compile(rb"[ \t\r]+")
MOST_VARIABLES = 10**6
MOST_GRAPHS = 1024
MOST_NODES = MOST_EDGES = 10**6
MOST_PREDICATES = 10**5
MOST_CLAUSES, MOST_LITERALS = 8 * 10**6, 16 * 10**6
MOST_32_BITS = 2**32 - 1
MOST_BOUND = 2**53
MOST_NUMBER = 2**64 - 1
MOST_WEIGHT = 2**64 - 1
MOST_AMOUNT = 2**60

# word: the greatest value of each field behind it
NODES = [MOST_32_BITS, MOST_32_BITS, MOST_32_BITS, MOST_VARIABLES]
BOUNDED = NODES + [MOST_BOUND]
PREDICATES = {
    b"reach": NODES,
    b"distance_leq": BOUNDED,
    b"distance_lt": BOUNDED,
    b"weighted_distance_leq": BOUNDED,
    b"weighted_distance_lt": BOUNDED,
    b"maximum_flow_geq": BOUNDED,
    b"maximum_flow_gt": BOUNDED,
    b"mst_weight_leq": [MOST_32_BITS, MOST_VARIABLES, MOST_BOUND],
    b"mst_weight_lt": [MOST_32_BITS, MOST_VARIABLES, MOST_BOUND],
    b"acyclic": [MOST_32_BITS, MOST_VARIABLES],
}
# A line's number and its tokens.
Line = tuple[int, list[bytes]]


class Fault(Exception):
    """The first malformed line and the name of its fault."""


class Predicate(NamedTuple):
    """The word of a predicate's line and the numbers behind it."""

    word: str
    fields: list[int]

    @property
    def graph(self) -> int:
        return self.fields[0]

    @property
    def variable(self) -> int:
        return self.fields[3] if len(self.fields) > 3 else self.fields[1]

    @property
    def meaning(self) -> Meaning:
        """The kind, the ends, and the bound in the form 'at most' or 'at least'."""
        if self.word in ("reach", "acyclic"):
            return Meaning(self.word, self.fields[1:3] if self.word == "reach" else [], 0)
        bound = self.fields[-1] + {"_lt": -1, "_gt": 1}.get(self.word[-3:], 0)
        starts = {"distance": "steps", "weighted": "weight", "maximum": "flow", "mst": "tree"}
        kind = next(kind for start, kind in starts.items() if self.word.startswith(start))
        return Meaning(kind, [] if kind == "tree" else self.fields[1:3], bound)


@dataclass
class Problem:
    """What an input says."""

    variables: int = 0
    graphs: dict[int, int] = field(default_factory=dict)  # identity: number of nodes, in order of declaration
    edges: list[Edge] = field(default_factory=list)
    predicates: list[Predicate] = field(default_factory=list)
    clauses: list[list[int]] = field(default_factory=list)
    # of a graph its edges, and how many there were in all when they were gathered
    kept: dict[int, tuple[int, Edges]] = field(default_factory=dict, repr=False, compare=False)

    def nodes_of(self, predicate: Predicate) -> int:
        """How many nodes the predicate's graph has."""
        return self.graphs[predicate.graph]

    def edges_of(self, predicate: Predicate) -> Edges:
        """The edges of the predicate's graph."""
        known = self.kept.get(predicate.graph)
        if known is None or known[0] < len(self.edges):
            found = {n: e for n, e in enumerate(self.edges, 1) if e.graph == predicate.graph}
            known = self.kept[predicate.graph] = len(self.edges), found
        return known[1]


def lines(text: bytes) -> Iterator[Line]:
    """The lines that are neither blank nor comments, as numbers and tokens."""
    place = number = 0
    while place <= len(text):
        end = text.find(b"\n", place)
        end = len(text) if end < 0 else end
        tokens = [t for t in BLANKS.split(text[place:end]) if t]
        place, number = end + 1, number + 1
        if tokens and tokens[0] != b"c":
            yield number, tokens


def value_of(digits: bytes) -> int:
    """The number that the digits write, by its first 22: one with so many is beyond each limit, however it goes on."""
    return int(digits.lstrip(b"0")[:22] or b"0")


def natural(token: bytes) -> int | None:
    """The number that the token writes without a sign."""
    return value_of(token) if NATURAL.fullmatch(token) else None


def signed(token: bytes) -> int | None:
    """The number that the token writes."""
    if not SIGNED.fullmatch(token):
        return None
    return -value_of(token[1:]) if token.startswith(b"-") else value_of(token)


class Reader:
    """Reads an input line by line."""

    def __init__(self, text: bytes) -> None:
        self.problem = Problem()
        self.has_header = False
        self.open: list[int] = []  # the literals of the open clause
        self.literals = 0  # how many there are in all clauses
        self.last_literal = 0
        for self.line, tokens in lines(text):
            if tokens[0][:1] in b"0123456789-":
                self.numbers(tokens)
            else:
                self.word(tokens)
        if self.open:
            raise Fault(self.last_literal, "UnfinishedClause")
        for clause in self.problem.clauses:
            self.raise_variables(*(abs(x) for x in clause))

    def refuse_if(self, wrong: object, name: str) -> None:
        if wrong:
            raise Fault(self.line, name)

    def raise_variables(self, *variables: int) -> None:
        self.problem.variables = max(self.problem.variables, *variables, 0)

    def number_of(self, token: bytes, most: int, parse: Callable[[bytes], int | None]) -> int:
        value = parse(token)
        if value is None:
            raise Fault(self.line, "NotNumber")
        self.refuse_if(abs(value) > most, "TooLarge")
        return value

    def fields(self, tokens: list[bytes], limits: list[int]) -> list[int]:
        return [self.number_of(t, most, natural) for t, most in zip(tokens, limits)]

    def numbers(self, tokens: list[bytes]) -> None:
        for token in tokens:
            value = self.number_of(token, MOST_VARIABLES, signed)
            if value:
                self.refuse_if(self.literals == MOST_LITERALS, "TooMany")
                self.literals += 1
                self.open.append(value)
                self.last_literal = self.line
            else:
                self.refuse_if(len(self.problem.clauses) == MOST_CLAUSES, "TooMany")
                self.problem.clauses.append(self.open)
                self.open = []

    def word(self, tokens: list[bytes]) -> None:
        self.refuse_if(self.open, "OpenClause")
        word, rest = tokens[0], tokens[1:]
        if word == b"p":
            self.header(rest)
        elif word == b"digraph":
            self.graph(rest)
        elif word == b"edge":
            self.edge(rest)
        else:
            self.refuse_if(word not in PREDICATES, "UnknownWord")
            self.predicate(word, rest)

    def header(self, rest: list[bytes]) -> None:
        self.refuse_if(rest and rest[0] not in (b"cnf", b"gnf"), "UnknownWord")
        self.refuse_if(len(rest) != 3, "FieldCount")
        variables, _ = self.fields(rest[1:], [MOST_VARIABLES, MOST_32_BITS])
        self.refuse_if(self.has_header, "SecondHeader")
        self.has_header = True
        self.raise_variables(variables)

    def graph(self, rest: list[bytes]) -> None:
        self.refuse_if(len(rest) not in (3, 4), "FieldCount")
        self.refuse_if(len(rest) == 4 and rest[0] != b"int", "WeightWord")
        nodes, _, identity = self.fields(rest[-3:], [MOST_VARIABLES, MOST_32_BITS, MOST_32_BITS])
        graphs = self.problem.graphs
        self.refuse_if(identity in graphs, "DuplicateGraph")
        self.refuse_if(nodes == 0, "NodeOutOfRange")
        self.refuse_if(len(graphs) == MOST_GRAPHS or sum(graphs.values()) + nodes > MOST_NODES, "TooMany")
        graphs[identity] = nodes

    def on_graph(self, graph: int, nodes: list[int], variable: int) -> None:
        self.refuse_if(graph not in self.problem.graphs, "UnknownGraph")
        self.refuse_if(any(u >= self.problem.graphs[graph] for u in nodes), "NodeOutOfRange")
        self.refuse_if(variable == 0, "BadVariable")

    def edge(self, rest: list[bytes]) -> None:
        self.refuse_if(len(rest) not in (4, 5), "FieldCount")
        fields = self.fields(rest, NODES + [MOST_WEIGHT]) + [1]
        graph, start, end, variable, weight = fields[:5]
        self.on_graph(graph, [start, end], variable)
        self.refuse_if(len(self.problem.edges) == MOST_EDGES, "TooMany")
        self.problem.edges.append(Edge(graph, start, end, variable, weight))
        self.raise_variables(variable)

    def predicate(self, word: bytes, rest: list[bytes]) -> None:
        limits = PREDICATES[word]
        self.refuse_if(len(rest) != len(limits), "FieldCount")
        fields = self.fields(rest, limits)
        nodes, variable = (fields[1:3], fields[3]) if len(fields) > 3 else ([], fields[1])
        self.on_graph(fields[0], nodes, variable)
        self.refuse_if(word.startswith(b"maximum_flow") and nodes[0] == nodes[1], "SameEnds")
        self.refuse_if(len(self.problem.predicates) == MOST_PREDICATES, "TooMany")
        self.problem.predicates.append(Predicate(word.decode(), fields))
        self.raise_variables(variable)


@functools.lru_cache(maxsize=2)  # many answers to one input are judged in turn
def read(text: bytes) -> Problem:
    """What the input says. `Fault`: it is refused."""
    return Reader(text).problem


def printed_predicate(predicate: Predicate) -> str:
    """The predicate's line, a strict bound as one that isn't where there is one."""
    word, (*front, bound) = predicate
    if word.endswith("_lt") and bound > 0:
        word, bound = word[:-2] + "leq", bound - 1
    if word.endswith("_gt") and bound < MOST_BOUND:
        word, bound = word[:-2] + "geq", bound + 1
    return row(word, *front, bound)


def row(*fields: object) -> str:
    """A line without its end."""
    return " ".join(map(str, fields))


def printed(problem: Problem) -> str:
    """What `print` writes."""
    rows = [f"p gnf {problem.variables} {len(problem.clauses)}"]
    for identity, nodes in problem.graphs.items():
        edges = sum(edge.graph == identity for edge in problem.edges)
        rows.append(f"digraph int {nodes} {edges} {identity}")
    rows += [row("edge", *edge) for edge in problem.edges]
    rows += [printed_predicate(predicate) for predicate in problem.predicates]
    rows += [row(*clause, 0) for clause in problem.clauses]
    return "".join(f"{line}\n" for line in rows)
