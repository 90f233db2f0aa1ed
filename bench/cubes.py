"""Measures cubes beside one run: the sum of the work to that of one run, and the longest cube, by each way to split.

cubes.py [--program PATH] [FAMILY..]         one row for each of the inputs below, none of which has a model

All times are processor times of whole runs of `solve`, in seconds; the cubes are solved one after the other, each
answer is judged, and so is their cover. No time is tested; the status is 1 where an answer is wrong or missing, or a
run takes longer than its limit.
"""

from __future__ import annotations

import argparse
import os
import shlex
import sys
import tempfile
from collections.abc import Callable
from pathlib import Path

HERE = Path(__file__).resolve().parent
sys.path.insert(0, str(HERE.parent / "python"))

import flags  # noqa: E402
from families import boards, orders, sites  # noqa: E402
from families.encoding import Encoding  # noqa: E402
from gulfezo import GulfezoError  # noqa: E402
from gulfezo.cubes.auditing import NotAccepted  # noqa: E402
from gulfezo.cubes.engines import Local  # noqa: E402
from gulfezo.cubes.folder import Folder  # noqa: E402
from gulfezo.cubes.main import judge_cover  # noqa: E402
from gulfezo.cubes.run import Plan, Run  # noqa: E402
from gulfezo.cubes.splitting import METHODS, Splitting  # noqa: E402
from runs import ANSWERS, PATIENCE, Wrong, about, judged, timed  # noqa: E402

# By name: what makes the inputs, and each one's size and seed. The sizes: cells on a side and nets; sites and links;
# elements and triples.
INPUTS: dict[str, tuple[Callable[[tuple[int, int], int], Encoding], list[tuple[tuple[int, int], int]]]] = {
    "routing": (boards.routing, [((14, 8), 7), ((14, 8), 1), ((14, 8), 6), ((16, 9), 4)]),
    "network": (sites.network_within, [((40, 19), 2), ((40, 20), 2)]),
    "orders": (orders.any_betweenness, [((120, 192), 3), ((140, 224), 1)]),
    # an input that takes no time, to try this script itself
    "trial": (boards.routing, [((10, 5), 6)]),
}
USUAL = ["routing", "network", "orders"]


def known(name: str) -> str:
    """The name of a family that has inputs here."""
    if name not in INPUTS:
        raise argparse.ArgumentTypeError(f"no inputs have the name {name}")
    return name


def arguments() -> argparse.Namespace:
    """What the command's words say."""
    parser = flags.parser(__doc__, limit=120)
    add = parser.add_argument
    add("--cubes", metavar="N", type=int, default=8, help="how many cubes are made at first (%(default)s)")
    add("--budget", metavar="N", type=int, default=100_000, help="learned clauses until a cube is split (%(default)s)")
    add("--probe", metavar="N", type=int, default=2_000, help="those of a run before there are so many (%(default)s)")
    add("--only", metavar="SEED", type=flags.positive, help="the inputs of this seed alone")
    add("families", nargs="*", type=known, default=USUAL, metavar="FAMILY", help=f"by name ({', '.join(INPUTS)})")
    return parser.parse_args()


def one_run(args: argparse.Namespace, file: str) -> float:
    """The time of one run. `Wrong`: it doesn't end with a refutation that is accepted."""
    run = timed([args.program, "solve", file, "--conflicts", str(2**63)], f"{file}.answer", args.limit)
    if run.status != 20:
        raise Wrong(f"one run: {run.name} after {run.seconds:.1f} s")
    _, says = judged([args.program, "check", file, f"{file}.answer"], f"{file}.verdict", 10 * args.limit)
    if says != ANSWERS[20]:
        raise Wrong(f"check says {says!r} of the answer of one run")
    return run.seconds


def bounded(args: argparse.Namespace, place: str) -> str:
    """A program that does what the named one does within the limit: what solves and judges cubes knows none.

    As with other runs here the limit is one of processor time, and by the clock it is so many times as long.
    """
    path = Path(place, "bounded")
    within = f"exec timeout --foreground --signal=KILL {PATIENCE * args.limit}"
    path.write_text(f'#!/bin/sh\nulimit -St {args.limit}\n{within} {shlex.quote(args.program)} "$@"\n')
    path.chmod(0o755)
    return str(path)


def cubes(args: argparse.Namespace, problem: bytes, method: str, program: str) -> tuple[int, float, float]:
    """The number of cubes, the sum of all runs' times, and the longest one. `Wrong`: they aren't all refuted."""
    with tempfile.TemporaryDirectory() as place:
        folder = Folder(Path(place), problem)
        plan = Plan(args.cubes, args.budget, args.probe, program, program)
        run = Run(plan, folder, Local(problem, 1), Splitting(problem, method))
        try:
            if run.solve():
                raise Wrong("one run found no model, and a cube has one")
            count = len(folder.finish())
            judge_cover(program, Path(place))
        except (GulfezoError, NotAccepted) as fault:
            raise Wrong(f"cubes by {method}: {fault}") from fault
        finally:
            folder.close()
        return count, sum(cube.seconds for cube in folder.tree.cubes), run.longest


def row(args: argparse.Namespace, problem: bytes) -> str:
    """What is measured of a problem."""
    with tempfile.TemporaryDirectory() as place:
        file = os.path.join(place, "f")
        Path(file).write_bytes(problem)
        alone = one_run(args, file)
        found = [f"{alone:.1f}"]
        for method in METHODS:
            count, total, longest = cubes(args, problem, method, bounded(args, place))
            found.append(f"{count}, {total:.1f}, {total / alone:.2f}, {longest:.1f}")
    return " | ".join(found)


def main() -> None:
    args = arguments()
    print("input | one run | " + " | ".join(f"{way}: cubes, sum, ratio, longest" for way in METHODS))
    shape = ["--cubes", args.cubes, "--budget", args.budget, "--probe", args.probe]
    measured = 0
    for name in args.families:
        make, inputs = INPUTS[name]
        for size, seed in [it for it in inputs if args.only in (None, it[1])]:
            label = f"{name} {size}, seed {seed}"
            with about(label, flags.again(args, *shape, "--only", seed, name)):
                found = row(args, make(size, seed).text().encode())
            print(f"{label} | {found}", flush=True)
            measured += 1
    if not measured:
        sys.exit(f"no input has the seed {args.only}")


if __name__ == "__main__":
    main()
