"""Answers, as docs/FORMATS.md says: judged, by their first line at fault and the reason, and migrated."""

from __future__ import annotations

import itertools
from collections.abc import Iterable, Iterator
from typing import NamedTuple

from . import graphs
from .formats import (
    MOST_32_BITS,
    MOST_AMOUNT,
    MOST_NUMBER,
    MOST_VARIABLES,
    Fault,
    Line,
    Predicate,
    Problem,
    lines,
    natural,
    printed,
    read,
    row,
    signed,
)

# The literals of a clause, as a set.
Clause = frozenset[int]
# Whether each variable is true.
Signs = dict[int, bool]

# word: the greatest value of each number of an item of its list
LEMMAS = {
    "path": [MOST_32_BITS],
    "cut": [MOST_32_BITS],
    "label": [MOST_32_BITS, MOST_AMOUNT],
    "flow": [MOST_32_BITS, MOST_AMOUNT],
    "flowcut": [MOST_32_BITS],
    "tree": [MOST_32_BITS],
    "split": [MOST_32_BITS],
    "least": [MOST_32_BITS],
    "cycle": [MOST_32_BITS],
    "order": [MOST_32_BITS],
}
POSITIVE = {"path", "flow", "tree", "order"}  # these show that a predicate holds, the others that it fails
OVER_PRESENT = {"path", "flow", "tree", "cycle"}  # these rest on edges that are present, the others on absent ones
OVER_EDGES = {"path", "flow", "tree", "least", "cycle"}  # their lists name edges, the others' nodes


class Rejected(Exception):
    """The line at fault, the reason, and the number that it carries, if it carries one."""


def model_line(line: int, tokens: list[bytes], ended: bool) -> list[int]:
    """The numbers of a line of a model's text."""
    values = [value for value in map(signed, tokens[1:]) if value is not None and abs(value) <= MOST_VARIABLES]
    if tokens[0] != b"v" or len(values) < len(tokens) - 1:
        raise Rejected(line, "BadLine")
    if 0 in values[:-1] or (ended and values):
        raise Rejected(line, "BadLine")
    return values


def judge_model(problem: Problem, status_line: int, rest: Iterable[Line]) -> str:
    """What `check` says of these lines as a model. `Rejected`: they are none."""
    signs: Signs = {}
    ended, last = 0, status_line  # the line in which the model ended, and the last one
    for line, tokens in rest:
        last = line
        for value in model_line(line, tokens, ended > 0):
            if value and (abs(value) > problem.variables or abs(value) in signs):
                raise Rejected(line, "ModelVariables")
            if value:
                signs[abs(value)] = value > 0
            elif len(signs) < problem.variables:
                raise Rejected(line, "ModelVariables")
            else:
                ended = line
    if not ended:
        raise Rejected(last, "BadLine")
    for number, clause in enumerate(problem.clauses, 1):
        if not is_satisfied(clause, signs):
            raise Rejected(ended, "ClauseFalse", number)
    wrong = first_wrong_predicate(problem, signs)
    if wrong is not None:
        raise Rejected(ended, "AtomWrong", wrong)
    return "accepted model"


def is_satisfied(clause: Iterable[int], signs: Signs) -> bool:
    """Whether a literal of the clause is true."""
    return any(signs[abs(x)] == (x > 0) for x in clause)


def holds(problem: Problem, predicate: Predicate, signs: Signs) -> bool:
    """Whether the predicate holds where each variable has its sign."""
    graph = predicate.graph
    edges = [e for e in problem.edges if e.graph == graph and signs[e.variable]]
    return graphs.holds(problem.nodes_of(predicate), edges, predicate.meaning)


def first_wrong_predicate(problem: Problem, signs: Signs) -> int | None:
    """The least number of a predicate whose variable isn't what its graph says, or None."""
    for number, predicate in enumerate(problem.predicates, 1):
        if holds(problem, predicate, signs) != signs[predicate.variable]:
            return number
    return None


class Step(NamedTuple):
    """The word, the predicate's number (0 for a chain), the literals and the list of a step's line."""

    word: str
    number: int
    literals: list[int]
    listed: list[int]

    @property
    def is_chain(self) -> bool:
        return self.word == "chain"


def limits_of(word: str) -> list[int] | None:
    """The greatest value of each number of an item of the word's list. None: it isn't a step's word."""
    return [MOST_NUMBER] if word == "chain" else LEMMAS.get(word)


def step_line(line: int, tokens: list[bytes]) -> Step:
    """A step's line. `Rejected`: it isn't one, whatever the problem."""
    word, rest = tokens[0].decode("latin1"), tokens[1:]
    limits = limits_of(word)
    if limits is None:
        raise Rejected(line, "BadLine")
    number: int | None = 0
    if word != "chain":
        number = natural(rest[0]) if rest else None
        rest = rest[1:]
    values = [signed(t) for t in rest]
    if number is None or number > MOST_32_BITS or 0 not in values:
        raise Rejected(line, "BadLine")
    end = values.index(0)
    literals = [x for x in values[:end] if x is not None and abs(x) <= MOST_VARIABLES]
    written = list(map(natural, rest[end + 1 :]))
    listed = [n for k, n in enumerate(written) if n is not None and n <= limits[k % len(limits)]]
    if len(literals) < end or len(listed) < len(written):
        raise Rejected(line, "BadLine")
    if len(listed) % len(limits) or (word == "chain" and not listed):
        raise Rejected(line, "BadLine")
    return Step(word, number, literals, listed)


def resolvent(c: Clause, d: Clause) -> Clause | None:
    """What is left of two sets of literals, or None where not exactly one variable clashes."""
    variables = {abs(x) for x in c if -x in d}
    if len(variables) != 1:
        return None
    x = variables.pop()
    if not (x in c and -x in d):
        x = -x
    return (c - {x}) | (d - {-x})


def chain_end(clauses: list[Clause], numbers: list[int]) -> Clause | None:
    """What is left of a chain's clauses, or None where it gets stuck."""
    left: Clause | None = clauses[numbers[0] - 1]
    for number in numbers[1:]:
        if left is None:
            return None
        left = resolvent(left, clauses[number - 1])
    return left


def judge_chain(problem: Problem, clauses: list[Clause], line: int, literals: list[int], numbers: list[int]) -> None:
    """`Rejected`: the chain doesn't come to an end that its clause covers."""
    if any(abs(x) > problem.variables for x in literals):
        raise Rejected(line, "UnknownNumber")
    if any(not 1 <= n <= len(clauses) for n in numbers):
        raise Rejected(line, "UnknownNumber")
    left = chain_end(clauses, numbers)
    if left is None:
        raise Rejected(line, "ChainStuck")
    if not left <= set(literals):
        raise Rejected(line, "NotCovered")


def judge_lemma(problem: Problem, line: int, step: Step) -> None:
    """`Rejected`: the lemma isn't justified."""
    word, number, literals, listed = step
    if not 1 <= number <= len(problem.predicates):
        raise Rejected(line, "UnknownAtom")
    predicate = problem.predicates[number - 1]
    if word not in graphs.WORDS[predicate.meaning.kind]:
        raise Rejected(line, "WrongKind")
    if any(abs(x) > problem.variables for x in literals):
        raise Rejected(line, "UnknownNumber")
    edges, nodes = problem.edges_of(predicate), problem.nodes_of(predicate)
    if any(n not in edges if word in OVER_EDGES else n >= nodes for n in listed[:: len(LEMMAS[word])]):
        raise Rejected(line, "UnknownNumber")

    def passes(present: set[int]) -> bool:
        return graphs.passes(word, nodes, edges, present, predicate.meaning, listed)

    if not passes(set(edges) if word in OVER_PRESENT else set()):
        raise Rejected(line, "WitnessFails")
    if word in OVER_PRESENT:
        present = {n for n, e in edges.items() if -e.variable in literals}
    else:
        present = {n for n, e in edges.items() if e.variable not in literals}
    owed = predicate.variable if word in POSITIVE else -predicate.variable
    if owed not in literals or not passes(present):
        raise Rejected(line, "MissingLiteral")


def is_justified(problem: Problem, step: Step) -> bool:
    """Whether a lemma is justified."""
    try:
        judge_lemma(problem, 0, step)
    except Rejected:
        return False
    return True


def judge_steps(problem: Problem, is_refutation: bool, status_line: int, rest: Iterable[Line], backwards: bool) -> str:
    """What `check` says of these lines as a refutation or progress. `Rejected`: they aren't right."""
    clauses = [frozenset(c) for c in problem.clauses]
    line, is_empty_chain, chains = status_line, False, 0
    for line, tokens in rest:
        step = step_line(line, tokens)
        if step.is_chain:
            numbers = turned(len(clauses) + 1, step.listed) if backwards else step.listed
            judge_chain(problem, clauses, line, step.literals, numbers)
        else:
            judge_lemma(problem, line, step)
        clauses.append(frozenset(step.literals))
        is_empty_chain = step.is_chain and not step.literals
        chains += step.is_chain
    if not is_refutation:
        return f"accepted progress {chains}"
    if not is_empty_chain:
        raise Rejected(line, "NoEmptyClause")
    return "accepted refutation"


def turned(own: int, numbers: list[int]) -> list[int]:
    """The numbers of a chain counted the other way, its step having the number `own`; 0 is no clause's number."""
    return [max(own - n, 0) for n in numbers]


def versioned(answer: bytes) -> tuple[bool, int, Iterator[Line]]:
    """Whether chains count backwards, the line that is named where no status line comes, and the other lines."""
    items = lines(answer)
    first = next(items, None)
    if first is not None and first[1] == [b"version", b"2"]:
        return True, first[0], items
    return False, 1, items if first is None else itertools.chain([first], items)


def judged(problem: Problem, answer: bytes) -> str:
    """What `check` says of an answer that it accepts. `Rejected`: it doesn't."""
    backwards, first, rest = versioned(answer)
    line, status = next(rest, (first, []))
    if status == [b"s", b"SATISFIABLE"]:
        return judge_model(problem, line, rest)
    if status in ([b"s", b"UNSATISFIABLE"], [b"s", b"UNKNOWN"]):
        return judge_steps(problem, status[1] == b"UNSATISFIABLE", line, rest, backwards)
    raise Rejected(line, "NotAnswer")


def migrated_step(line: int, tokens: list[bytes], own: int, turn: bool) -> str:
    """The printed line of a step, its chain's numbers turned where the two versions differ."""
    word, number, literals, listed = step_line(line, tokens)
    if word == "chain":
        return row(word, *literals, 0, *(turned(own, listed) if turn else listed))
    return row(word, number, *literals, 0, *listed)


def migrated(problem: Problem, answer: bytes, version: int) -> str:
    """The printed text of an answer in the version. `Rejected`: it isn't accepted."""
    judged(problem, answer)
    backwards, _, items = versioned(answer)
    (_, status), *rest = items
    rows = ["version 2"] * (version == 2) + [b" ".join(status).decode()]
    if status[1] == b"SATISFIABLE":
        values = [signed(t) for _, tokens in rest for t in tokens[1:]]
        rows.append(row("v", *sorted(filter(None, values), key=abs), 0))
        return "\n".join(rows) + "\n"
    turn = backwards != (version == 2)
    for own, (line, tokens) in enumerate(rest, len(problem.clauses) + 1):
        rows.append(migrated_step(line, tokens, own, turn))
    return "\n".join(rows) + "\n"


def outcome(verb: str, text: bytes, answer: bytes = b"", version: int = 1) -> tuple[int, str]:
    """The status and the text of a run of `print`, `check` or `migrate`."""
    try:
        problem = read(text)
    except Fault as fault:
        return 3, row("refused", *fault.args) + "\n"
    if verb == "print":
        return 0, printed(problem)
    try:
        if verb == "migrate":
            return 0, migrated(problem, answer, version)
        return 0, judged(problem, answer) + "\n"
    except Rejected as rejected:
        return 1, row("rejected", *rejected.args) + "\n"
