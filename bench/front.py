"""Measures the Python front: building, writing and reading a large problem, and best values beside the program alone.

front.py [--program PATH] [PART..]

All times are processor times in seconds, of the front itself and of the programs that it runs; memory is that of the
front at its peak. The problem of `build`, `read` and `best` is a grid with edges both ways and clauses of three
literals, one of them negated, or with `--positive` none, so that models are found soon; those of `sum` are clauses over
variables with costs. Beside the front stands the program alone, at finding the same by `best` and at judging both of
its parts by `ask` and `check`. No time is tested; the status is 1 where the two don't find the same value, or a run of
either ends otherwise than it has to.
"""

from __future__ import annotations

import argparse
import contextlib
import multiprocessing
import random
import resource
import signal
import sys
import tempfile
from collections.abc import Callable, Iterator
from pathlib import Path
from types import FrameType

HERE = Path(__file__).resolve().parent
sys.path.insert(0, str(HERE.parent / "python"))

import flags  # noqa: E402
from gulfezo import Best, GulfezoError, Predicate, Problem, read_problem  # noqa: E402
from runs import ANSWERS, PATIENCE, Wrong, about, geometric_mean, judged, ratio, timed  # noqa: E402


def own() -> float:
    """The processor time of this process so far."""
    used = resource.getrusage(resource.RUSAGE_SELF)
    return used.ru_utime + used.ru_stime


def of_programs() -> float:
    """That of what it ran."""
    used = resource.getrusage(resource.RUSAGE_CHILDREN)
    return used.ru_utime + used.ru_stime


def peak() -> str:
    """The most memory that this process had."""
    return f"{resource.getrusage(resource.RUSAGE_SELF).ru_maxrss / 1024:.0f} MB"


class Late(BaseException):
    """The time of `within` is over: nothing in the front takes this for a fault of its own."""


@contextlib.contextmanager
def within(seconds: int) -> Iterator[None]:
    """`Wrong`: this takes more seconds by the clock. The program that it waits for ends with it."""

    def stop(number: int, frame: FrameType | None) -> None:
        raise Late

    signal.signal(signal.SIGALRM, stop)
    signal.alarm(seconds)
    try:
        yield
    except Late:
        raise Wrong(f"the front had found nothing after {seconds} s by the clock") from None
    finally:
        signal.alarm(0)


def build(given: argparse.Namespace, file: Path) -> None:
    """Makes and writes the large problem."""
    drawn, side = random.Random(5), given.side
    problem = Problem()
    graph = problem.add_graph("grid", nodes=side * side)
    beside = [(y * side + x, y * side + x + 1) for y in range(side) for x in range(side - 1)]
    beside += [(node, node + side) for node in range(side * (side - 1))]
    began = own()
    edges = []
    for one, other in beside:
        edges.append(graph.add_edge(one, other, drawn.randrange(1, 20)))
        edges.append(graph.add_edge(other, one, drawn.randrange(1, 20)))
    for_edges = own() - began
    threes = ([drawn.choice(edges) for _ in range(3)] for _ in range(given.clauses))
    chosen = [[one, other if given.positive else ~other, third] for one, other, third in threes]
    began = own()
    for clause in chosen:
        problem.add_clause(clause)
    for_clauses = own() - began
    graph.weighted_distance_leq(0, side * side - 1, 0)
    began = own()
    problem.write(file)
    for_writing, began = own() - began, own()
    problem.copy()
    print(f"{len(edges):,} edges, {given.clauses:,} clauses: {for_edges / len(edges) * 1e6:.1f} us an edge,", end=" ")
    print(f"{for_clauses / given.clauses * 1e6:.1f} us a clause; written in {for_writing:.2f}", end=" ")
    print(f"({file.stat().st_size / 1e6:.1f} MB), copied in {own() - began:.2f}", flush=True)


def read(given: argparse.Namespace, file: Path) -> None:
    """Reads it."""
    began = own()
    read_problem(file)
    print(f"read in {own() - began:.2f}, {peak()}", flush=True)


def again(given: argparse.Namespace, *words: str | int) -> str:
    """The command that shows a part again."""
    seconds = [] if given.seconds is None else ["--seconds", given.seconds]
    return flags.again(given, *seconds, *words)


def best(given: argparse.Namespace, file: Path) -> None:
    """Asks for the shortest way from corner to corner."""
    problem = read_problem(file)
    size = ["--side", given.side, "--clauses", given.clauses, *["--positive"] * given.positive]
    with about("the shortest way", again(given, *size, "best")):
        said, _ = beside_the_program(given, file, problem, problem.predicates[0])
    print(f"the shortest way: {said}", flush=True)


def least(given: argparse.Namespace, file: Path) -> None:
    """Asks for the cheapest variables of which each clause has one."""
    ratios = []
    for seed in flags.seeds(given):
        drawn, problem = random.Random(seed), Problem()
        chosen = problem.add_variables(given.terms)
        for _ in range(4 * given.terms):
            problem.add_clause(drawn.sample(chosen, 3))
        aim = problem.add_sum([(literal, drawn.randrange(1, 20)) for literal in chosen]).at_most(0)
        problem.write(file)
        label = f"the least of {given.terms} terms, seed {seed}"
        with about(label, again(given, "--terms", given.terms, "--only", seed, "sum")):
            said, found = beside_the_program(given, file, problem, aim)
        ratios.append(found)
        print(f"{label}: {said}", flush=True)
    if given.seconds is None:
        most = f"{geometric_mean(ratios):.2f}, from {min(ratios):.2f} to {max(ratios):.2f}"
        print(f"the least of {given.terms} terms, {len(ratios)} seeds: ratio {most}", flush=True)


def by_the_front(given: argparse.Namespace, file: Path, problem: Problem, aim: Predicate) -> object:
    """What the front finds. `Wrong`: it finds nothing in all that time, or the program isn't right by it."""
    try:
        with within(PATIENCE * given.limit):
            return problem.best(aim, file.with_name("run"), given.program, False, seconds=given.seconds)
    except GulfezoError as fault:
        # (the further lines name files, which are gone when they are read)
        raise Wrong(f"the front: {str(fault).splitlines()[0]}") from fault


def beside_the_program(given: argparse.Namespace, file: Path, problem: Problem, aim: Predicate) -> tuple[str, float]:
    """The best bound by the front, and by the program alone, and the ratio. `Wrong`: they differ.

    With a limit of seconds it is the front's alone, and the ratio is 0.
    """
    began, ran = own(), of_programs()
    found = by_the_front(given, file, problem, aim)
    took, ran = own() - began, of_programs() - ran
    if given.seconds is not None:
        return f"{found!r}; front {took:.2f}, its programs {ran:.2f}, {peak()}", 0.0
    printed, number = file.with_name("best"), str(aim.predicate_number)
    alone = timed([given.program, "best", str(file), number], str(printed), given.limit)
    with open(printed, "rb") as lines:
        said = lines.readline(100).decode("utf-8", "replace").removesuffix("\n")
        model = lines.readline()
    value = found.value if isinstance(found, Best) else None
    if alone.stopped or value is None or alone.status != 10 or said != f"c best {value}":
        raise Wrong(f"the front found {found!r}, and the program, {alone.name}, said {said!r}")
    file.with_name("model").write_bytes(b"s SATISFIABLE\nv" + model.removeprefix(b"c v"))
    better = value + 1 if aim.word.startswith("maximum_flow") else value - 1
    judging = judging_of(given, file, number, value, 10) + judging_of(given, file, number, better, 20)
    together = ratio(took + ran, alone.seconds + judging)
    words = f"{value}; front {took:.2f}, its programs {ran:.2f}, alone {alone.seconds:.2f} and judging {judging:.2f}"
    return f"{words}: ratio {together:.2f}, {peak()}", together


def judging_of(given: argparse.Namespace, file: Path, number: str, bound: int, status: int) -> float:
    """The time in which the program asks for a bound, and judges its model (10) or its refutation (20) for it."""
    asked, said = str(file.with_name("asked")), str(file.with_name("said"))
    ask = timed([given.program, "ask", str(file), number, str(bound)], asked, given.limit)
    answer = str(file.with_name("model" if status == 10 else "best"))
    check, says = judged([given.program, "check", asked, answer], said, given.limit)
    if ask.status != 0 or says != ANSWERS[status]:
        raise Wrong(f"ask ends with {ask.name}, and check says {says!r}, where {ANSWERS[status]!r} is due")
    return ask.seconds + check.seconds


Part = Callable[[argparse.Namespace, Path], None]
PARTS: dict[str, Part] = {"build": build, "read": read, "best": best, "sum": least}


def known(name: str) -> str:
    """The name of a part."""
    if name not in PARTS:
        raise argparse.ArgumentTypeError(f"no part has the name {name}")
    return name


def run_part(part: str, given: argparse.Namespace, file: Path) -> None:
    """Runs a part, in a process of its own."""
    try:
        PARTS[part](given, file)
    except GulfezoError as fault:
        sys.exit(f"{part}: {fault}")


def main() -> int:
    parser = flags.parser(__doc__, limit=300)
    add = parser.add_argument
    add("--side", metavar="N", type=flags.positive, default=224, help="nodes on a side of the grid (%(default)s)")
    add("--clauses", metavar="N", type=flags.positive, default=500_000, help="of the grid's edges (%(default)s)")
    add("--positive", action="store_true", help="no literal of the large problem's clauses is negated")
    add("--terms", metavar="N", type=flags.positive, default=30, help="of a sum (%(default)s)")
    flags.add_seeds(parser, 8)
    add("--seconds", metavar="S", type=flags.positive, help="what the front finds in so many by the clock, by itself")
    add("parts", nargs="*", type=known, default=list(PARTS), metavar="PART", help=", ".join(PARTS))
    given = parser.parse_args()
    # Those that read the large problem want it to be there.
    parts = ["build"] * bool({"read", "best"} & set(given.parts)) + given.parts
    own_processes = multiprocessing.get_context("spawn")
    failed = False
    with tempfile.TemporaryDirectory() as folder:
        for part in dict.fromkeys(parts):
            process = own_processes.Process(target=run_part, args=(part, given, Path(folder, "problem.gnf")))
            process.start()
            process.join()
            failed = failed or process.exitcode != 0
    return int(failed)


if __name__ == "__main__":
    sys.exit(main())
