"""What several tests need: the program, if it is there, and programs that stand in for it."""

from __future__ import annotations

import itertools
import os
import signal
import sys
import unittest
from collections.abc import Iterator
from pathlib import Path

from gulfezo import Problem

REPOSITORY = Path(__file__).resolve().parents[2]
BUILT = REPOSITORY / "crates" / "mono_cmd" / "out" / "mono_cmd"
# What the program lacks, by the names of `require`: "acyclic,wide weights".
WITHOUT = {what.strip() for what in os.environ.get("GULFEZO_WITHOUT", "").split(",")}


def missing(what: str) -> Exception:
    """What a test raises that can't run for want of something: it is skipped, or fails where CHECK_ALL is 1."""
    return AssertionError(what) if os.environ.get("CHECK_ALL") == "1" else unittest.SkipTest(what)


def program() -> str:
    """The compiled program; a test that needs it can't run where it isn't there."""
    found = os.environ.get("GULFEZO") or str(BUILT)
    if not os.access(found, os.X_OK):
        raise missing("the program isn't built (rt run in crates/mono_cmd), and GULFEZO names none")
    return found


def heeds_signals() -> None:
    """A process can't trap a signal that it was started to ignore, as a job in the background of a script is."""
    for number in (signal.SIGINT, signal.SIGHUP):
        signal.signal(number, signal.SIG_DFL)


def stand_in(
    folder: str, status: int, text: str, verdict: str = "", seconds: float = 0, check_seconds: float = 0
) -> str:
    """A program that prints a text and ends with a status, and, asked to check, also under literals, prints a verdict.

    It takes so many seconds for either. The file `pid` beside it has its process's number.
    """
    path = Path(folder) / "stand-in"
    path.write_text(
        f"#!{sys.executable}\nimport os, sys, time\nopen({str(Path(folder, 'pid'))!r}, 'w').write(str(os.getpid()))\n"
        f"if sys.argv[1] in ('check', 'check-with'):\n    time.sleep({check_seconds})\n    print({verdict!r})\n"
        f"else:\n    time.sleep({seconds})\n    sys.stdout.write({text!r})\n    sys.exit({status})\n"
    )
    path.chmod(0o755)
    return str(path)


def require(*wanted: str) -> None:
    """The test wants these kinds of lines and forms of the program. It is skipped where GULFEZO_WITHOUT names one.

    What isn't named there has to be there, as with `--without` of the scripts of fuzz/.
    """
    for what in WITHOUT.intersection(wanted):
        raise unittest.SkipTest(f"GULFEZO_WITHOUT names {what}")


def every_form() -> Problem:
    """A problem with each form of line."""
    problem = Problem()
    x = problem.add_variable("x, a variable")
    graph = problem.add_graph("a graph")
    graph.add_nodes(["first", (2, 3), ""])
    graph.add_edge(0, 1, 7, x)
    graph.add_link(1, 2)
    graph.reach(0, 2)
    graph.distance_leq(0, 1, 1)
    graph.distance_lt(0, 1, 2)
    graph.weighted_distance_leq(0, 1, 3)
    graph.weighted_distance_lt(0, 1, 4)
    graph.maximum_flow_geq(0, 1, 5)
    graph.maximum_flow_gt(0, 1, 6)
    graph.mst_weight_leq(7)
    graph.mst_weight_lt(8)
    graph.acyclic()
    problem.add_clause(x, ~x)
    problem.add_clause()
    return problem


def assignments(variables: int) -> Iterator[dict[int, bool]]:
    """All assignments of the variables from 1."""
    for signs in itertools.product([False, True], repeat=variables):
        yield dict(enumerate(signs, 1))


def satisfies(values: dict[int, bool], clauses: list[tuple[int, ...]]) -> bool:
    """Whether an assignment makes each clause true."""
    return all(any(values[abs(x)] == (x > 0) for x in clause) for clause in clauses)
