"""Compares the program with fuzz/reference.py on random texts: run.py [--rounds N] [--first SEED]

Each round makes one input and three answers, most of them nearly right, and compares status and text byte by byte.
The same seed gives the same texts. The status is 0 exactly where no run differs.
"""

from __future__ import annotations

import argparse
import itertools
import random
from typing import TypeVar

import graphs
import reference
import witnesses
from comparison import Comparison
from graphs import Edges, Meaning
from reference import Clause, Problem, Step
from rounds import Rounds, play
from runs import Program
from witnesses import Witness

NUMBERS = [10**6, 10**6 + 1, 2**31, 2**32 - 1, 2**32, 2**53, 2**53 + 1, 2**63, 2**64 - 1, 2**64, 10**40]
ODD_TOKENS = ["+1", "x", "1x", "--1", "-", "1.0", "\x00", "\xff", "-0", "007", "cnf", "int", "c", "v", "s", "p"]
ODD_WORDS = ["edge", "digraph", "chain", "path", "least", "SATISFIABLE", "UNKNOWN", "reach", "mst_weight_lt"]
ODD_WORDS += ["acyclic", "cycle", "order"]
BLANKS = [" "] * 400 + ["  ", "\t", "\r", " \r "] * 20 + ["\x0b", "\x00"]
BOUNDED = ["distance_leq", "distance_lt", "weighted_distance_leq", "weighted_distance_lt"]
FLOWS = ["maximum_flow_geq", "maximum_flow_gt"]
TREES = ["mst_weight_leq", "mst_weight_lt"]
CYCLES = ["acyclic"]
Drawn = TypeVar("Drawn")


class Texts:
    """Random texts: well formed ones, with a few tokens or lines changed."""

    def __init__(self, seed: int) -> None:
        self.random = random.Random(seed)

    def one_of(self, choices: list[Drawn]) -> Drawn:
        return self.random.choice(choices)

    def up_to(self, most: int, least: int = 0) -> int:
        return self.random.randint(least, most)

    def often(self, share: float) -> bool:
        return self.random.random() < share

    def literal(self, variables: int) -> int:
        return self.one_of([-1, 1]) * self.up_to(variables, 1)

    def token(self) -> str:
        kind = self.random.random()
        if kind < 0.6:
            return str(self.up_to(6))
        if kind < 0.7:
            return "0" * self.up_to(30) + str(self.up_to(9))
        return str(self.one_of(NUMBERS)) if kind < 0.8 else self.one_of(ODD_TOKENS)

    def graph_line(self, graph: int, variables: int) -> str:
        nodes = f"{self.up_to(2)} {self.up_to(2)}"
        variable = self.up_to(variables, 1) if self.often(0.97) else 0
        bound = self.one_of([0, 1, 2, 5, 2**53 - 1, 2**53])
        kind = self.up_to(8)
        if kind < 4:
            weight = [self.one_of([0, 1, 7, 2**32, 2**53, 2**64 - 1])] if self.often(0.5) else []
            return reference.row("edge", graph, nodes, variable, *weight)
        if kind == 4:
            return reference.row("reach", graph, nodes, variable)
        if kind < 7:
            return reference.row(self.one_of(BOUNDED + FLOWS), graph, nodes, variable, bound)
        if "acyclic" in graphs.WORDS and self.often(0.4):
            return reference.row(self.one_of(CYCLES), graph, variable)
        return reference.row(self.one_of(TREES), graph, variable, bound)

    def clause(self, variables: int) -> str:
        width = self.one_of([1, 1, 2, 2, 2, 3, 3, 6] if self.often(0.97) else [0])
        return reference.row(*(self.literal(variables) for _ in range(width)), 0)

    def input(self) -> bytes:
        variables = self.one_of([2, 3, 3, 5, 7])
        rows = []
        if self.often(0.6):
            rows.append(reference.row("p", self.one_of(["cnf", "gnf"]), self.up_to(variables), self.up_to(9)))
        identities = [self.up_to(3) for _ in range(self.one_of([0, 1, 1, 1, 2]))]
        for graph in identities:
            word = self.one_of(["digraph", "digraph int"])
            rows.append(reference.row(word, self.up_to(4, 1), self.up_to(3), graph))
        if identities:
            rows += [self.graph_line(self.one_of(identities), variables) for _ in range(self.up_to(8))]
        rows += [self.clause(variables) for _ in range(self.up_to(12))]
        if self.often(0.3):
            rows.insert(self.up_to(len(rows)), self.one_of(["c x", "", "cfoo", "  ", "c", "\tc 1 0"]))
        return self.text(rows)

    def agreeing(self, problem: Problem, values: tuple[bool, ...]) -> list[bool]:
        """The values of the variables, each predicate's variable set to what the edges say, in turn."""
        signs = dict(enumerate(values, 1))
        for predicate in problem.predicates:
            signs[predicate.variable] = reference.holds(problem, predicate, signs)
        return list(signs.values())

    def satisfying(self, problem: Problem) -> list[bool] | None:
        """The values of a model, where one is found."""
        tries = list(itertools.product([True, False], repeat=problem.variables))
        self.random.shuffle(tries)
        for tried in tries:
            values = self.agreeing(problem, tried)
            if all(reference.is_satisfied(clause, dict(enumerate(values, 1))) for clause in problem.clauses):
                return values
        return None

    def model(self, problem: Problem) -> list[str]:
        """A model where there is one, cut into lines anywhere."""
        values = [self.one_of([False, True]) for _ in range(min(problem.variables, 50))]
        if problem.variables < 10 and self.often(0.7):
            values = self.satisfying(problem) or values
        literals = [variable if value else -variable for variable, value in enumerate(values, 1)]
        self.random.shuffle(literals)
        rows, left = ["s SATISFIABLE"], list(map(str, literals + [0]))
        while left:
            count = self.up_to(len(left))
            rows.append(" ".join(["v"] + left[:count]))
            left = left[count:]
        return rows

    def chain(self, clauses: list[Clause]) -> tuple[list[int], list[int]]:
        """A chain that comes to an end over these clauses, mostly with its end as its clause."""
        first = self.random.randrange(len(clauses))
        end, used = clauses[first], [first + 1]
        for _ in range(self.up_to(5)):
            fitting = [k for k, c in enumerate(clauses) if reference.resolvent(end, c) is not None]
            if not fitting:
                break
            used.append(self.one_of(fitting) + 1)
            end = reference.resolvent(end, clauses[used[-1] - 1]) or frozenset()
        literals = list(end)
        self.random.shuffle(literals)
        if self.often(0.05) and literals:
            literals.pop()
        if self.often(0.1):
            used.append(self.up_to(len(clauses) + 1, 1))
        return literals, used

    def witness(self, word: str, nodes: int, edges: Edges, meaning: Meaning) -> Witness:
        """A witness over some of the edges."""
        kind, ends, bound = meaning
        some = {n: e for n, e in edges.items() if self.often(0.8)}
        held = list(some.values())
        if word in ("cycle", "path"):
            listed = self.round_trip(some) if word == "cycle" else self.walk(some, ends)
            return listed, listed
        if word == "order":
            return witnesses.order(nodes, edges, held)
        if word == "cut":
            return witnesses.cut(nodes, edges, held, ends[0])
        if word == "label":
            return witnesses.label(nodes, edges, held, meaning)
        if word == "flow":
            amounts = graphs.maximum_flow(held, ends, max(bound, 0)).amounts
            amount = {n: a for n, a in zip(some, amounts) if a or self.often(0.1)}
            return witnesses.carried(amount.keys(), amount.values())
        if word == "flowcut":
            inside = graphs.maximum_flow(held, ends).reached
            return inside, [n for n in witnesses.leaving(edges, inside) if self.often(0.8)]
        if word == "split":
            return witnesses.split(nodes, edges, held)
        tree = self.tree(nodes, some)
        return (tree, tree) if word == "tree" else witnesses.least(nodes, edges, tree)

    def tree(self, nodes: int, edges: Edges) -> list[int]:
        """A lightest tree where there is one, with edges that are equal to its own; else the first edges."""
        forest = graphs.lightest_forest(nodes, edges)
        chosen = [edges[n] for n in forest] if len(forest) == nodes - 1 else list(edges.values())[: nodes - 1]
        return [n for n, e in edges.items() if e in chosen][: nodes - 1]

    def walk(self, edges: Edges, ends: list[int]) -> list[int]:
        """A walk between the ends, where one is met by chance."""
        u = ends[0]
        listed: list[int] = []
        while u != ends[1] or self.often(0.1):
            onward = [n for n, e in edges.items() if e.start == u]
            if not onward or len(listed) > 6:
                break
            listed.append(self.one_of(onward))
            u = edges[listed[-1]].end
        return listed

    def round_trip(self, edges: Edges) -> list[int]:
        """A walk from a node to itself along at least one edge, where one is met by chance."""
        if not edges:
            return []
        first = self.one_of(list(edges))
        return [first] + self.walk(edges, [edges[first].end, edges[first].start])

    def owed_lemma(self, problem: Problem) -> Step:
        """A lemma of some predicate with the literals that it owes."""
        number = self.up_to(len(problem.predicates), 1)
        predicate = problem.predicates[number - 1]
        word = self.one_of(graphs.WORDS[predicate.meaning.kind])
        edges = problem.edges_of(predicate)
        listed, needed = self.witness(word, problem.nodes_of(predicate), edges, predicate.meaning)
        literals = list(witnesses.owed(word, predicate.variable, edges, needed))
        self.random.shuffle(literals)
        return Step(word, number, literals, listed)

    def lemma(self, problem: Problem) -> tuple[str, list[int]]:
        """The line of a lemma that is mostly justified, and its clause."""
        for _ in range(self.one_of([1, 10, 10])):
            step = self.owed_lemma(problem)
            if reference.is_justified(problem, step):
                break
        word, number, literals, listed = step
        kind = self.up_to(40)
        if kind == 0:
            word = self.one_of(list(reference.LEMMAS))
        elif kind == 1:
            number += self.one_of([-1, 1])
        elif kind == 2 and listed:
            listed = listed + [self.one_of(listed)]
        elif kind < 5 and literals:
            literals.pop()
        elif kind < 8:
            literals.append(self.literal(problem.variables))
        return reference.row(word, number, *literals, 0, *listed), literals

    def steps(self, problem: Problem) -> list[str]:
        """The lines of a refutation or progress, most of them right."""
        rows = [self.one_of(["s UNSATISFIABLE", "s UNKNOWN"])]
        clauses = [frozenset(c) for c in problem.clauses]
        for _ in range(self.up_to(12) if clauses or problem.predicates else 0):
            if problem.predicates and (not clauses or self.often(0.6)):
                row, literals = self.lemma(problem)
            else:
                literals, used = self.chain(clauses)
                if self.often(0.1) and problem.variables:
                    literals.append(self.literal(problem.variables))
                row = reference.row("chain", *literals, 0, *used)
            rows.append(row)
            clauses.append(frozenset(literals))
            if not literals and self.often(0.8):
                break
        return rows

    def answer(self, problem: Problem) -> bytes:
        """A text that is nearly an answer, or one."""
        is_model = self.often(0.4) and problem.variables <= 50
        return self.text(self.model(problem) if is_model else self.steps(problem))

    def changed(self, row: str) -> str:
        """The row with one token changed, put in or left out."""
        tokens = row.split(" ")
        place = self.random.randrange(len(tokens))
        kind = self.up_to(3)
        if kind == 0:
            tokens[place] = self.token()
        elif kind == 1:
            tokens.insert(place, self.token())
        elif kind == 2:
            del tokens[place]
        else:
            tokens[place] = self.one_of(ODD_WORDS)
        return " ".join(tokens)

    def text(self, rows: list[str]) -> bytes:
        """The rows as bytes, with a few changes."""
        for _ in range(self.one_of([0, 0, 0, 0, 1, 2]) if rows else 0):
            place = self.random.randrange(len(rows))
            kind = self.up_to(4)
            if kind == 0:
                rows.insert(self.up_to(len(rows)), rows[place])
            elif kind == 1:
                rows.append(rows.pop(place))
            else:
                rows[place] = self.changed(rows[place])
        joined = "".join(self.one_of(BLANKS) if b == " " else b for b in "\n".join(rows))
        return (joined + "\n" * self.often(0.8)).encode("latin1")


class Inputs(Rounds):
    """Inputs, and answers to those that can be read."""

    def __init__(self, program: Program, args: argparse.Namespace) -> None:
        super().__init__(program, args)
        self.comparison = Comparison(program, self.found)

    def compare(self, seed: int) -> str:
        texts = Texts(seed)
        text = texts.input()
        self.comparison.compare("print", text)
        try:
            problem = reference.read(text)
        except reference.Fault:
            return "inputs that are refused"
        for _ in range(3):
            self.comparison.compare("check", text, texts.answer(problem))
        return "inputs that are read"


if __name__ == "__main__":
    play(__doc__, Inputs, "inputs", 500)
