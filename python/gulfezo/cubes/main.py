"""The command gulfezo-cubes: solves a problem cube by cube, or judges the folder of such a run again."""

from __future__ import annotations

import argparse
import os
import sys
from collections.abc import Sequence
from pathlib import Path

from .. import program as programs
from ..errors import GulfezoError
from ..phases import Phase
from .auditing import NotAccepted, judge_folder
from .engines import Dask, Engine, Local
from .folder import Folder
from .judging import said
from .page import names_of, page
from .run import Plan, Run
from .splitting import METHODS, Splitting

EXITS = (
    "Ends with 10 where a model was found (the folder's file `model`), 20 where all cubes are refuted, 1 otherwise; "
    "with --judge with 0 where the folder is accepted, else with 1."
)


def parser() -> argparse.ArgumentParser:
    """The words of the command."""
    made = argparse.ArgumentParser(
        prog="gulfezo-cubes",
        description="Splits a problem into cubes, solves each, and judges each answer. " + EXITS,
    )
    add = made.add_argument
    add("file", metavar="FILE", nargs="?", type=Path, help="the problem; with --judge, that the folder is about it")
    add("--cubes", metavar="N", type=natural, default=16, help="how many cubes are made at first (16)")
    add("--scheduler", metavar="ADDRESS", help="of Dask, whose workers solve the cubes; else this machine does")
    add("--workers", metavar="K", type=natural, default=os.cpu_count() or 1, help="processes here (one a processor)")
    add("-o", metavar="FOLDER", dest="folder", type=Path, help="the run's folder (FILE.cubes); it goes on there")
    add("--budget", metavar="N", type=natural, default=100_000, help="learned clauses until a cube is split (100000)")
    add("--probe", metavar="N", type=natural, default=2_000, help="learned clauses of a run before there are N (2000)")
    add("--split", choices=METHODS, default=METHODS[0], help="by learned clauses, or by occurrence in the problem")
    add("--judge", metavar="FOLDER", type=Path, help="judges the folder of a run that has ended, on any machine")
    add("--quiet", action="store_true", help="without the progress line on standard error")
    return made


def natural(word: str) -> int:
    """A whole number from 1."""
    number = int(word)
    if number < 1:
        raise ValueError(word)
    return number


def main(words: Sequence[str] | None = None) -> int:
    """See `EXITS`."""
    made = parser()
    given = made.parse_args(words)
    if given.file is None and given.judge is None:
        made.error("a FILE is wanted, or --judge FOLDER")
    try:
        with programs.tidy_on_signals():
            return judge(given) if given.judge else solve(given)
    except (GulfezoError, NotAccepted, OSError) as fault:
        print(f"gulfezo-cubes: {fault}", file=sys.stderr)
        return 1


def judge(given: argparse.Namespace) -> int:
    """Judges a folder again: 0 where it is accepted. `NotAccepted`: it isn't."""
    print(judge_folder(given.judge, programs.find(), given.file, given.workers))
    return 0


def solve(given: argparse.Namespace) -> int:
    """Solves, or goes on."""
    problem = given.file.read_bytes()
    program = programs.find()
    place = given.folder or Path(f"{given.file}.cubes")
    folder = Folder(place, problem)
    try:
        has_model = finds_model(given, problem, program, folder)
        if has_model:
            folder.finish_with_model()
        else:
            folder.finish()
    finally:
        title = f"Cubes of {given.file.name}"
        folder.place("tree.html", page(title, folder.tree, names_of(problem)).encode())
        folder.close()
    shown = judge_cover(program, place) if not has_model else "accepted model"
    print(f"{shown}; judge it again by gulfezo-cubes --judge {place}")
    return 10 if has_model else 20


def finds_model(given: argparse.Namespace, problem: bytes, program: str, folder: Folder) -> bool:
    """Whether the problem has a model; else each cube has an accepted refutation. `GulfezoError`: it isn't known."""
    model = folder.path / "model"
    if model.is_file() and said(program, "check", folder.problem, model) == "accepted model":
        return True
    with Phase("" if given.quiet else "judging what the folder has"):
        folder.judge(program, given.workers)
    plan = Plan(given.cubes, given.budget, given.probe, program, None if given.scheduler else program)
    run = Run(plan, folder, engine_of(given, problem), Splitting(problem, given.split))
    with Phase("" if given.quiet else run.note):
        return run.solve()


def engine_of(given: argparse.Namespace, problem: bytes) -> Engine:
    """Where the cubes are solved."""
    if given.scheduler:
        return Dask(problem, given.scheduler)
    return Local(problem, given.workers)


def judge_cover(program: str, place: Path) -> str:
    """What is shown once all cubes are refuted, each answer judged when it came. `NotAccepted`: the cover isn't one."""
    found = said(program, "check", place / "cover.gnf", place / "cover")
    if found != "accepted refutation":
        raise NotAccepted(f"the cubes don't cover everything: check says '{found}'")
    return found


if __name__ == "__main__":
    sys.exit(main())
