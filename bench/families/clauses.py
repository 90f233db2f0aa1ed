"""Families of clauses alone, which a solver for clauses reads too."""

from __future__ import annotations

import itertools
import random

from families.encoding import Encoding


def of_clauses(variables: int, clauses: list[list[int]]) -> Encoding:
    """These clauses over so many variables."""
    made = Encoding()
    made.variables = variables
    made.clauses += clauses
    return made


def uniform(variables: int, seed: int) -> Encoding:
    """Uniform random 3-SAT, 4.26 clauses a variable."""
    drawn = random.Random(seed)
    clauses = []
    for _ in range(round(4.26 * variables)):
        chosen = drawn.sample(range(1, variables + 1), 3)
        clauses.append([drawn.choice([-1, 1]) * x for x in chosen])
    return of_clauses(variables, clauses)


def pigeons(holes: int, _: int) -> Encoding:
    """One pigeon more than there are holes."""
    at = [[p * holes + h + 1 for h in range(holes)] for p in range(holes + 1)]
    clauses = [list(row) for row in at]
    for h in range(holes):
        clauses += [[-at[p][h], -at[q][h]] for p, q in itertools.combinations(range(holes + 1), 2)]
    return of_clauses((holes + 1) * holes, clauses)


def colours(nodes: int, seed: int) -> Encoding:
    """Three colours for a random graph with 4.6 neighbours a node."""
    drawn = random.Random(seed)
    pairs = drawn.sample(list(itertools.combinations(range(nodes), 2)), nodes * 23 // 10)
    of = [[3 * u + c + 1 for c in range(3)] for u in range(nodes)]
    clauses = [list(row) for row in of]
    clauses += [[-x, -y] for row in of for x, y in itertools.combinations(row, 2)]
    clauses += [[-of[u][c], -of[v][c]] for u, v in pairs for c in range(3)]
    return of_clauses(3 * nodes, clauses)


def parity(variables: int, seed: int) -> Encoding:
    """The parity of the variables along two orders, which differ."""
    drawn = random.Random(100 * variables + seed)
    made = Encoding()
    made.variables = variables
    ends = []
    for _ in range(2):
        order = list(range(1, variables + 1))
        drawn.shuffle(order)
        end = order[0]
        for x in order[1:]:
            z = made.variable()  # z = end + x, modulo 2
            made.clauses += [[-end, -x, -z], [-end, x, z], [end, -x, z], [end, x, -z]]
            end = z
        ends.append(end)
    x, y = ends
    made.clauses += [[x, y], [-x, -y]]
    return made
