"""Measures `solve` beside clasp (Debian's package) on inputs with predicates `reach`, or `acyclic` that has to hold.

clasp.py [--program PATH] [--seeds N] [--limit S] [--large] [FAMILY..]
clasp.py --text FILE                         only writes the program that clasp reads for an input

The program is in the aspif format: a choice of all variables, and each clause as a constraint. For each first node of
a `reach` one atom a node is derived from it along the edges whose variables are chosen, and constraints say that a
predicate's variable agrees with its last node's atom. The edges of a graph that has to have no cycle stand under
their variables as `#edge` directives. So the models are those of the input. Times are processor times of whole runs,
reading and writing included; `solve` prints its model or its refutation, clasp its model alone. The status is 1 where
a run ends without an answer before its limit, no run of `solve` over a family has one, `check` refuses one, or the two
differ in it.
"""

from __future__ import annotations

import argparse
import os
import shutil
import sys
import tempfile
from collections.abc import Iterable, Iterator
from pathlib import Path

import flags
from families.catalogue import FAMILIES
from runs import ANSWERS, Run, Solver, about, geometric_mean, is_idle, ratio, timed

USUAL = ["routing", "boards", "reaching", "wall", "feedback", "schedules"]


class NotRead(Exception):
    """The input has a predicate of another kind, or a graph that may have a cycle."""


class Input:
    """What an input's lines say: edges and predicates by graph, clauses, and the greatest variable."""

    def __init__(self, lines: Iterable[str]) -> None:
        self.variables = 0
        self.nodes: dict[str, int] = {}
        self.edges: dict[str, list[list[int]]] = {}
        self.reach: list[tuple[str, list[int]]] = []  # the graph, and first node, last node and variable
        self.acyclic: dict[str, int] = {}
        self.clauses: list[list[int]] = []
        clause: list[int] = []
        for tokens in map(str.split, lines):
            if not tokens or tokens[0] in ("c", "p"):
                continue
            if tokens[0].lstrip("-").isdigit():
                for x in map(int, tokens):
                    self.variables = max(self.variables, abs(x))
                    if x:
                        clause.append(x)
                    else:
                        self.clauses.append(clause)
                        clause = []
            else:
                self.row(*tokens)

    def row(self, word: str, *fields: str) -> None:
        """A line that begins with a word."""
        if word == "digraph":
            *_, nodes, _, identity = fields
            self.nodes[identity], self.edges[identity] = int(nodes), []
            return
        graph, numbers = fields[0], list(map(int, fields[1:]))
        if word == "edge":
            self.edges[graph].append(numbers[:3])
            self.variables = max(self.variables, numbers[2])
        elif word == "reach":
            self.reach.append((graph, numbers))
            self.variables = max(self.variables, numbers[2])
        elif word == "acyclic":
            self.acyclic[graph] = numbers[0]
            self.variables = max(self.variables, numbers[0])
        else:
            raise NotRead(word)


def order_rows(read: Input) -> Iterator[str]:
    """The edges of graphs that have to have no cycle; the nodes of all graphs are numbered one after the other."""
    units = {clause[0] for clause in read.clauses if len(clause) == 1}
    first = 0
    for graph, asked in read.acyclic.items():
        if asked not in units:
            raise NotRead("a graph that may have a cycle")
        for u, v, x in read.edges[graph]:
            yield f"8 {first + u} {first + v} 1 {x}"
        first += read.nodes[graph]


def reach_rows(read: Input) -> Iterator[str]:
    """Which nodes walks of chosen edges lead to from each first node, and what the predicates' variables say of it."""
    atoms = read.variables
    first: dict[tuple[str, int], int] = {}
    for graph, (start, end, x) in read.reach:
        if (graph, start) not in first:
            at = first[graph, start] = atoms + 1
            atoms += read.nodes[graph]
            yield f"1 0 1 {at + start} 0 0"
            for u, v, edge in read.edges[graph]:
                yield f"1 0 1 {at + v} 0 2 {at + u} {edge}"
        there = first[graph, start] + end
        yield f"1 0 0 0 2 {x} {-there}"
        yield f"1 0 0 0 2 {-x} {there}"


def program_of(lines: Iterable[str]) -> str:
    """The aspif program of an input's lines."""
    read = Input(lines)
    choice = f"1 1 {read.variables} {' '.join(map(str, range(1, read.variables + 1)))} 0 0"
    clauses = (f"1 0 0 0 {len(clause)} {' '.join(str(-x) for x in clause)}" for clause in read.clauses)
    return "\n".join(["asp 1 0 0", choice, *order_rows(read), *reach_rows(read), *clauses, "0"]) + "\n"


def arguments() -> argparse.Namespace:
    """What the command's words say."""
    parser = flags.family_parser(__doc__, USUAL)
    parser.add_argument("--text", metavar="FILE", help="only write what clasp reads for this input")
    return parser.parse_args()


def clasp(solver: Solver) -> Run:
    """The run of clasp on the input in the solver's folder."""
    run = timed(["clasp", "--quiet=2", solver.path("asp")], os.devnull, solver.limit)
    run.status = {30: 10}.get(run.status, run.status)
    # at the limit clasp ends by itself
    run.stopped |= not run.answered and run.seconds > 0.9 * solver.limit
    return run


def beside(name: str, solver: Solver, args: argparse.Namespace) -> int:
    """How many inputs of the family the two answer differently; prints a row for each input, and the geometric mean.

    A family that `solve` answers nowhere counts as one more.
    """
    wrong = answers = 0
    ratios: list[float] = []
    for given in FAMILIES[name].inputs(flags.seeds(args), args.large):
        text = given.make().text()
        solver.put(text)
        Path(solver.path("asp")).write_text(program_of(text.splitlines()))
        command = flags.again(args, *["--large"] * args.large, "--only", given.seed, name)
        with about(f"{name} {given.label}", command):
            ours, theirs = solver.solve(), clasp(solver)
            says = solver.check()[1] if ours.answered else ""
        both = f"{ours.name:8} {ours.seconds:8.3f} s, clasp {theirs.name:8} {theirs.seconds:8.3f} s"
        row = f"{name:12} {given.label:22} {both}"
        answers += ours.answered
        differs = ours.answered and (says != ANSWERS[ours.status] or (theirs.answered and ours.status != theirs.status))
        if ours.failed or theirs.failed or differs:
            wrong += 1
            print(f"WRONG {row}, {says}", flush=True)
            continue
        ratios.append(ratio(ours.seconds, theirs.seconds))
        print(f"{row}, ratio {ratios[-1]:.2f}", flush=True)
    if ratios:
        print(f"{name:12} geometric mean of the ratios: {geometric_mean(ratios):.2f}")
    return wrong + is_idle(name, answers, args.limit)


def main() -> None:
    args = arguments()
    if args.text:
        with open(args.text) as lines:
            sys.stdout.write(program_of(lines))
        return
    if shutil.which("clasp") is None:
        sys.exit("there is no clasp (Debian's package clasp)")
    with tempfile.TemporaryDirectory() as folder:
        solver = Solver(args.program, folder, args.limit)
        wrong = sum(beside(name, solver, args) for name in args.families)
    sys.exit(1 if wrong else 0)


if __name__ == "__main__":
    main()
