"""Measures `solve` on families of inputs that are made from seeds (families/catalogue.py).

solve.py [--program PATH] [FAMILY..]         one table: status, time, conflicts, size of the answer, time of `check`
                                             on it; on clauses alone MiniSat beside it
solve.py --old PATH --new PATH [FAMILY..]    the ratio of two programs in one run, and its geometric mean by family

Each answer is judged by its program's `check`, outside the time of `solve`. Times are processor times of whole runs,
reading and writing included: `solve` prints its model or its refutation, MiniSat its model alone. No time is tested;
the status is 1 where a run ends without an answer before its limit, no run of a family has one, `check` refuses one,
or two programs differ in it.
"""

from __future__ import annotations

import argparse
import sys
import tempfile

import flags
from families.catalogue import FAMILIES, Input
from runs import Solver
from tables import Ratios, Table


def arguments() -> argparse.Namespace:
    """What the command's words say."""
    parser = flags.family_parser(__doc__, FAMILIES)
    add = parser.add_argument
    add("--old", metavar="PATH", type=flags.absolute, help="a program to compare, with --new")
    add("--new", metavar="PATH", type=flags.absolute, help="the program that is compared with --old")
    add("--keep", metavar="FOLDER", help="keep the last input and its answer there")
    add("--conflicts", action="store_true", help="count the conflicts of short runs (about six further runs each)")
    add("--list", action="store_true", help="only list the families")
    args = parser.parse_args()
    if bool(args.old) != bool(args.new):
        parser.error("--old PATH and --new PATH go together")
    return args


def measure(args: argparse.Namespace, folder: str) -> int:
    """How many answers and families are wrong; prints the table."""

    def solver(program: str) -> Solver:
        return Solver(program, folder, args.limit)

    def again(name: str, given: Input) -> str:
        programs = ["--old", args.old, "--new", args.new] if args.old else []
        ways = ["--large"] * args.large + ["--conflicts"] * args.conflicts
        return flags.again(args, *programs, *ways, "--only", given.seed, name)

    table: Ratios | Table = Table(solver(args.program), again, args.conflicts)
    if args.old:
        table = Ratios(solver(args.old), solver(args.new), again)
    for name in args.families:
        family = FAMILIES[name]
        table.family(name, family, family.inputs(flags.seeds(args), args.large))
    table.summary()
    return table.wrong


def main() -> None:
    args = arguments()
    if args.list:
        for name, family in FAMILIES.items():
            print(f"{name:12} {family.what}")
        return
    with tempfile.TemporaryDirectory() as folder:
        wrong = measure(args, args.keep or folder)
    sys.exit(1 if wrong else 0)


if __name__ == "__main__":
    main()
