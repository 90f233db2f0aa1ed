"""The flags that the scripts of this folder have in common."""

from __future__ import annotations

import argparse
import os
import shlex
import sys
from collections.abc import Iterable
from pathlib import Path

from families.catalogue import FAMILIES

TOP = Path(__file__).resolve().parents[1]
BUILT = TOP / "crates" / "mono_cmd" / "out" / "mono_cmd"


def absolute(path: str) -> str:
    """The absolute path of a program, which runs in any folder can name."""
    if not os.path.isfile(path) or not os.access(path, os.X_OK):
        raise argparse.ArgumentTypeError(f"there is no program {path}")
    return os.path.abspath(path)


def positive(text: str) -> int:
    """A number of inputs or seconds: with none nothing would be measured."""
    number = int(text)
    if number < 1:
        raise argparse.ArgumentTypeError("at least 1 is wanted")
    return number


def parser(doc: str | None, built: Path = BUILT, limit: int = 60) -> argparse.ArgumentParser:
    """The flags `--program` and `--limit`."""
    made = argparse.ArgumentParser(description=doc, formatter_class=argparse.RawDescriptionHelpFormatter)
    add = made.add_argument
    add("--program", metavar="PATH", type=absolute, default=str(built), help="the program (%(default)s)")
    add("--limit", metavar="S", type=positive, default=limit, help="seconds that a run may take (%(default)s)")
    return made


def add_seeds(made: argparse.ArgumentParser, seeds: int) -> None:
    """The flags `--seeds` and `--only`."""
    add = made.add_argument
    add("--seeds", metavar="N", type=positive, default=seeds, help="at most N inputs of a size (%(default)s)")
    add("--only", metavar="SEED", type=positive, help="the inputs of this seed alone")


def seeds(args: argparse.Namespace) -> range:
    """The seeds that the flags ask for."""
    return range(args.only, args.only + 1) if args.only else range(1, args.seeds + 1)


def family(name: str) -> str:
    """The name of a family."""
    if name not in FAMILIES:
        raise argparse.ArgumentTypeError(f"no family has the name {name} (bench/solve.py --list has all)")
    return name


def family_parser(doc: str | None, families: Iterable[str]) -> argparse.ArgumentParser:
    """`--program`, the families whose inputs are measured, how many of them, and how long a run may take."""
    made = parser(doc)
    add_seeds(made, 20)
    add, usual = made.add_argument, list(families)
    add("families", nargs="*", type=family, default=usual, metavar="FAMILY", help=f"by name ({', '.join(usual)})")
    add("--large", action="store_true", help="the large inputs in place of the usual ones")
    return made


def again(args: argparse.Namespace, *words: str | int) -> str:
    """The command of this script, with these words in place of those that say what is measured."""
    script = os.path.relpath(sys.argv[0], TOP)
    line = ["python3", script, "--program", args.program, "--limit", args.limit, *words]
    return shlex.join(map(str, line))
