"""Small checkers of LRAT and DRAT proofs, written from their definitions apart from what makes the proofs.

Only what is needed here: additions by unit propagation (RUP). A RAT step or a deletion is refused.
"""

from __future__ import annotations


def read_cnf(text: str) -> list[list[int]]:
    """The clauses of a DIMACS CNF file, whose header must be right."""
    header, *rows = [line for line in text.splitlines() if not line.startswith("c")]
    _, kind, variables, count = header.split()
    clauses = [[int(token) for token in row.split()] for row in rows]
    assert kind == "cnf" and len(clauses) == int(count)
    assert all(clause[-1] == 0 and 0 not in clause[:-1] for clause in clauses)
    assert all(abs(x) <= int(variables) for clause in clauses for x in clause)
    return [clause[:-1] for clause in clauses]


def accepts_lrat(cnf: str, proof: str) -> bool:
    """Whether the proof derives the empty clause: each hint is unit when it comes, and the last one is false."""
    clauses = dict(enumerate(read_cnf(cnf), 1))
    for line in proof.splitlines():
        number, *rest = map(int, line.split())
        end = rest.index(0)
        clause, hints = rest[:end], rest[end + 1 :]
        if number in clauses or hints.pop() != 0:
            return False
        true = {-x for x in clause}
        for place, hint in enumerate(hints):
            open_literals = {x for x in clauses.get(hint, [*true]) if -x not in true}
            if not open_literals:
                if place != len(hints) - 1:
                    return False
                break
            if len(open_literals) > 1 or open_literals <= true:
                return False
            true |= open_literals
        else:
            return False
        clauses[number] = clause
        if not clause:
            return True
    return False


def accepts_drat(cnf: str, proof: str) -> bool:
    """Whether the proof derives the empty clause, each clause by unit propagation over all earlier ones."""
    clauses = read_cnf(cnf)
    for line in proof.splitlines():
        *clause, end = map(int, line.split())
        if end != 0 or not propagates_to_conflict(clauses, {-x for x in clause}):
            return False
        clauses.append(clause)
        if not clause:
            return True
    return False


def propagates_to_conflict(clauses: list[list[int]], true: set[int]) -> bool:
    """Whether unit propagation from these literals makes a clause false."""
    changed = True
    while changed:
        changed = False
        for clause in clauses:
            if any(x in true for x in clause):
                continue
            open_literals = {x for x in clause if -x not in true}
            if not open_literals:
                return True
            if len(open_literals) == 1:
                true |= open_literals
                changed = True
    return False
