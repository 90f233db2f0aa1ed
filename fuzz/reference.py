"""The second checker, which the front has as `gulfezo.recheck`, for the scripts of this folder.

It is a reading of docs/FORMATS.md that was written apart from the program and shares nothing with it. fuzz/run.py
compares the two. What walks, flows, spanning trees and cycles are stands in its `graphs`.
"""

from __future__ import annotations

import sys
from pathlib import Path

sys.path.insert(0, str(Path(__file__).resolve().parents[1] / "python"))

from gulfezo.recheck.formats import (  # noqa: E402
    MOST_32_BITS,
    MOST_AMOUNT,
    MOST_BOUND,
    MOST_CLAUSES,
    MOST_EDGES,
    MOST_GRAPHS,
    MOST_LITERALS,
    MOST_NODES,
    MOST_NUMBER,
    MOST_PREDICATES,
    MOST_VARIABLES,
    MOST_WEIGHT,
    PREDICATES,
    Fault,
    Line,
    Predicate,
    Problem,
    lines,
    natural,
    printed,
    read,
    row,
    signed,
)
from gulfezo.recheck.judging import (  # noqa: E402
    LEMMAS,
    OVER_EDGES,
    OVER_PRESENT,
    POSITIVE,
    Clause,
    Rejected,
    Signs,
    Step,
    chain_end,
    first_wrong_predicate,
    holds,
    is_justified,
    is_satisfied,
    judge_lemma,
    judged,
    migrated,
    outcome,
    resolvent,
    step_line,
)

__all__ = [
    "LEMMAS",
    "MOST_32_BITS",
    "MOST_AMOUNT",
    "MOST_BOUND",
    "MOST_CLAUSES",
    "MOST_EDGES",
    "MOST_GRAPHS",
    "MOST_LITERALS",
    "MOST_NODES",
    "MOST_NUMBER",
    "MOST_PREDICATES",
    "MOST_VARIABLES",
    "MOST_WEIGHT",
    "OVER_EDGES",
    "OVER_PRESENT",
    "POSITIVE",
    "PREDICATES",
    "Clause",
    "Fault",
    "Line",
    "Predicate",
    "Problem",
    "Rejected",
    "Signs",
    "Step",
    "chain_end",
    "first_wrong_predicate",
    "holds",
    "is_justified",
    "is_satisfied",
    "judge_lemma",
    "judged",
    "lines",
    "migrated",
    "natural",
    "outcome",
    "printed",
    "read",
    "resolvent",
    "row",
    "signed",
    "step_line",
]
