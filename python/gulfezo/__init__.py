"""Problems of clauses and graphs in Python, solved and checked by the program Gulfezo.

>>> from gulfezo import Problem
>>> problem = Problem()
>>> graph = problem.add_graph()
>>> a, b = graph.add_nodes(2)
>>> problem.require(graph.reach(a, b))

`problem.solve()` gives a `Model` or a `Refutation`. This package adds no promise of its own: it writes files of the
program's format, runs its `solve` and its `check`, and reads what they print. What is proved is proved of the program.
"""

import logging

from .answer import Answer, parse_answer, read_answer
from .best import Best, Incumbent, Incumbents, NoBound
from .cores import Core, Need
from .draw import drawing
from .enumeration import Models
from .errors import (
    BudgetSpent,
    FormatError,
    GulfezoError,
    NotSolved,
    PackageMissing,
    ProgramMissing,
    RejectedAnswer,
    RunError,
    TimeSpent,
    UnexpectedStatus,
)
from .foreign import read_dimacs, read_monosat
from .gates import And, If, Implies, Or, Xor
from .graph import Graph, Node
from .in_turn import Greatest, Least
from .literals import Edge, Kind, Link, Literal, Predicate
from .model import Flow, Model
from .problem import Problem
from .reading import parse_problem, read_problem
from .schedules import Schedule, Task, Time
from .session import Session
from .statistics import Statistics
from .steps import Derivation, Progress, Refutation, Step
from .sums import Sum

# Silent unless the user of the package wants to hear of it: each phase, its time, and the words of each run.
logging.getLogger("gulfezo").addHandler(logging.NullHandler())

__all__ = [
    "And",
    "Answer",
    "Best",
    "BudgetSpent",
    "Core",
    "Derivation",
    "Edge",
    "Flow",
    "FormatError",
    "Graph",
    "Greatest",
    "GulfezoError",
    "If",
    "Implies",
    "Incumbent",
    "Incumbents",
    "Kind",
    "Least",
    "Link",
    "Literal",
    "Model",
    "Models",
    "Need",
    "NoBound",
    "Node",
    "NotSolved",
    "Or",
    "PackageMissing",
    "Predicate",
    "Problem",
    "ProgramMissing",
    "Progress",
    "Refutation",
    "RejectedAnswer",
    "RunError",
    "Schedule",
    "Session",
    "Statistics",
    "Step",
    "Sum",
    "Task",
    "Time",
    "TimeSpent",
    "UnexpectedStatus",
    "Xor",
    "drawing",
    "parse_answer",
    "parse_problem",
    "read_answer",
    "read_dimacs",
    "read_monosat",
    "read_problem",
]
