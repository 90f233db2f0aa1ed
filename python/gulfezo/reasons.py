"""What the program's faults and reasons mean, in words, and the text of the line that they name."""

from __future__ import annotations

import itertools
from pathlib import Path

# Of an input, behind `refused LINE`.
FAULTS = {
    "UnknownWord": "the line begins with a word that the format doesn't have",
    "NotNumber": "a token isn't a number where one belongs",
    "TooLarge": "a number is above its limit (docs/FORMATS.md, limits)",
    "FieldCount": "the line has too few or too many fields for its word",
    "UnknownGraph": "the line names a graph that no `digraph` line before it declares",
    "DuplicateGraph": "a graph with this number is declared already",
    "NodeOutOfRange": "the graph has no such node (they count from 0), or it has no nodes at all",
    "BadVariable": "0 is no variable: they count from 1",
    "WeightWord": "weights are `int`, and no other word stands there",
    "SecondHeader": "there is a header already, and a file has at most one",
    "OpenClause": "the clause before this line isn't ended by 0",
    "UnfinishedClause": "the last clause isn't ended by 0",
    "SameEnds": "a flow leads from one node to another, and not to itself",
    "TooMany": "a file has so many graphs, nodes, edges, predicates, clauses or literals at most, and no more",
}
# Of an answer, behind `rejected LINE`.
REASONS = {
    "NotAnswer": "the answer doesn't begin with `s SATISFIABLE`, `s UNSATISFIABLE` or `s UNKNOWN`: is it empty?",
    "BadLine": "no such line belongs in an answer of this status, or the answer ends too soon",
    "UnknownAtom": "the problem has no predicate with this number: is it the answer to another problem?",
    "WrongKind": "the lemma's word isn't for this kind of predicate",
    "UnknownNumber": "the line names a variable, node, edge or clause that isn't there (yet)",
    "WitnessFails": "the lemma's list doesn't show what its word says, whichever edges are there",
    "MissingLiteral": "the lemma needs a literal that its clause doesn't have",
    "ChainStuck": "two clauses of the chain don't clash in exactly one variable",
    "NotCovered": "what the chain leaves has a literal that its clause doesn't have",
    "ModelVariables": "a variable has no value, or two, or isn't of the problem",
    "ClauseFalse": "the model makes the clause of this number false",
    "AtomWrong": "the variable of the predicate of this number isn't what its graph says in this model",
    "NoEmptyClause": "a refutation ends with a chain whose clause is empty, and this one doesn't",
}
SHOWN = 200  # characters of a line


def shown(text: str) -> str:
    """The text, cut short where it is long."""
    return text if len(text) <= SHOWN else text[:SHOWN] + " .."


def explained(said: str, path: Path) -> str:
    """What is added to a message about `refused LINE FAULT` or `rejected LINE REASON`, said of that file."""
    words = said.split()
    meaning = (FAULTS | REASONS).get(words[2]) if len(words) > 2 and words[0] in ("refused", "rejected") else None
    if meaning is None or not words[1].isdigit():
        return f" ({said})" if said and words[0] != "rejected" else ""
    where = "" if words[0] == "rejected" else f" ({said})"
    if int(words[1]) == 0:  # no line is named
        return f"{where}\n  {meaning}"
    return f"{where}\n  {meaning}\n  line {words[1]} of {path}: {text_of(path, int(words[1]))}"


def text_of(path: Path, number: int) -> str:
    """The text of a file's line by its number from 1, cut short where it is long."""
    with open(path, "rb") as file:
        line = next(itertools.islice(file, number - 1, number), b"")
    return shown(line.decode("utf-8", "replace").rstrip("\r\n"))
