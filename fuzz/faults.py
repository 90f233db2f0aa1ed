#!/usr/bin/env python3
"""Refuses requests for memory, and calls on files, one a run: faults.py [--kind KIND] [--only N]

A small library (faults/refuse.c) stands in front of the C library's. Each form of the program is run over inputs with
each kind of predicate and answers with each word of a lemma, and `solve` over inputs that make theories share searches,
mend flows and try walks that pass each node once. Each run either ends as the undisturbed one does, or as
the call that was refused asks: without memory with 6 and nothing written, where a file couldn't be opened or read with
4 and `read fault`, and where a write failed with 5 and a prefix of the text. Of each form at least one call of each
kind has to be refused (`gen` alone opens and reads nothing), and what undisturbed runs say of inputs and of answers is
what fuzz/reference.py says. A C compiler is wanted (`cc`).
"""

from __future__ import annotations

import argparse
import collections
import os
import shutil
import subprocess
import sys
import tempfile
from pathlib import Path

import flags
import reference
from runs import Stopped, Wrong, ended

HERE = Path(__file__).resolve().parent
FIRST = HERE.parent / "examples" / "first"
SCHEDULE = HERE.parent / "examples" / "schedule"
READ_FAULT = 4
WRITE_FAULT = 5
OUT_OF_MEMORY = 6
# By kind of call: once so many refusals in a row changed nothing, the run makes no further call of that kind.
MOST_SPARED = {"memory": 60, "open": 3, "read": 3, "write": 3}

# A predicate of each kind over one graph, and two of spanning trees.
GRAPH = """digraph int 3 4 0
edge 0 0 1 1 5
edge 0 1 2 2 5
edge 0 0 2 3 3
edge 0 2 0 4 1
reach 0 0 2 5
distance_leq 0 0 2 6 1
weighted_distance_leq 0 0 2 7 3
maximum_flow_geq 0 0 2 8 8
mst_weight_leq 0 9 6
acyclic 0 10
mst_weight_leq 0 11 2
"""
# Inputs over it, by name. The refutations of the last two take a lemma of each kind, by all ten words together.
INPUTS = {
    "free": GRAPH + "1 2 0\n3 -4 0\n",
    "present": GRAPH + "1 0\n2 0\n3 0\n4 0\n-5 -6 -7 -8 -9 10 11 0\n",
    "absent": GRAPH + "-1 0\n-2 0\n-3 0\n-4 0\n5 6 7 8 9 -10 0\n",
}

# The forms of which no call of this kind can be refused.
WITHOUT = {("open", "gen"), ("read", "gen")}
# The statuses of undisturbed runs of a form, where they aren't 0 alone.
STATUSES = {"solve": (10, 20), "core": (10, 20), "best": (10, 20), "team": (10, 20), "check-with": (0, 1)}

Ending = tuple[int, bytes]


def written(words: list[str], to: str, limit: float) -> None:
    """A file with what a run writes, which further runs read. `Wrong`: it takes longer than the limit."""
    try:
        Path(to).write_bytes(ending(words, limit)[1])
    except Stopped as stopped:
        files = " ".join(map(os.path.basename, words[1:]))
        raise Wrong(f"{files}, the run that makes the file {os.path.basename(to)}: {stopped}") from stopped


def drawn_up(program: str, folder: str, limit: float) -> list[list[str]]:
    """The words of the runs over an input with each kind of predicate; the files that they name are written."""
    path = {name: os.path.join(folder, name) for name in INPUTS}
    found = []
    for name, text in INPUTS.items():
        Path(path[name]).write_text(text, encoding="ascii")
        answer, two = f"{path[name]}.answer", f"{path[name]}.two"
        written([program, "solve", path[name]], answer, limit)
        written([program, "migrate", path[name], answer, "2"], two, limit)
        found += [["solve", path[name]], ["check", path[name], answer], ["check", path[name], two]]
        found += [["migrate", path[name], answer, "2"], ["team", path[name], "3", "1"]]
    free, given = path["free"], ["-2", "-3", "5", "-10", "9"]
    core = f"{free}.core"
    written([program, "core", free, *given], core, limit)
    found += [["core", free, *given], ["core", free, "1", "-10"], ["check-with", free, core, *given]]
    found += [["check-with", free, f"{free}.answer", "1", "-10"]]
    return found + [["best", free, "3"], ["best", free, "5"], ["ask", free, "5", "3"]]


def commands() -> list[list[str]]:
    """The words of the runs over the files of examples, and over generated inputs."""
    circle = str(SCHEDULE / "circle.gnf")
    routes, refutation = str(FIRST / "routes.gnf"), str(FIRST / "routes.refutation")
    wishes, core = str(FIRST / "wishes.gnf"), str(FIRST / "wishes.core")
    return [
        ["check", routes, refutation],
        ["print", routes],
        ["check", circle, str(SCHEDULE / "circle.answer")],
        ["solve", routes],
        ["solve", circle],
        ["solve", routes, "--conflicts", "1"],
        *(["solve", str(HERE / "faults" / f"{name}.gnf")] for name in ("shared", "escape", "mended")),
        ["migrate", routes, refutation, "2"],
        ["migrate", circle, str(SCHEDULE / "circle.answer"), "1"],
        ["core", wishes, "6", "-1", "-2", "-5"],
        ["core", wishes, "6", "-1"],
        ["check-with", wishes, core, "6", "-1", "-2"],
        ["best", str(FIRST / "bridges.gnf"), "1"],
        ["ask", str(FIRST / "bridges.gnf"), "1", "8"],
        ["team", routes, "2", "1"],
        ["team", wishes, "2", "1"],
        ["gen", "grid", "2", "7"],
        ["gen", "wall", "3", "7", "--solve"],
    ]


def ending(words: list[str], limit: float, library: str = "", kind: str = "", at: int = 0) -> Ending:
    """The status and the text of a run that is refused the call of this kind and number."""
    more = {"LD_PRELOAD": library, "REFUSE_KIND": kind, "REFUSE_AT": str(at)} if library else None
    run = ended(words, ".", limit, more)
    return run.returncode, run.stdout


def check_undisturbed(words: list[str], found: Ending) -> None:
    """`Wrong`: the run doesn't end with an answer, or as the reference says of an input and an answer."""
    status, text = found
    form, files, more = words[0], words[1:3], words[3:]
    if form in ("print", "check", "migrate"):
        input_text, answer = (Path(path).read_bytes() for path in (files * 2)[:2])
        due, due_text = reference.outcome(form, input_text, answer, int(more[0]) if more else 1)
        if (status, text) != (due, due_text.encode()):
            raise Wrong(f"undisturbed it ended with {found}, and not with {(due, due_text)}")
    elif not text or status not in STATUSES.get(form, (10, 20) if "--solve" in words else (0,)):
        raise Wrong(f"undisturbed it ended with {found}")


def is_due(kind: str, found: Ending, undisturbed: Ending) -> bool:
    """Whether a run that was refused a call of this kind ended as it should."""
    status, text = found
    if kind == "memory":
        return found == (OUT_OF_MEMORY, b"")
    if kind == "write":
        return status == WRITE_FAULT and text != undisturbed[1] and undisturbed[1].startswith(text)
    return found == (READ_FAULT, b"read fault\n")


def places(program: str, words: list[str], library: str, kind: str, limit: float) -> int:
    """At how many places a refusal ended the run. `Wrong`: a run ends in any third way, or takes too long."""
    undisturbed = ending([program, *words], limit)
    check_undisturbed(words, undisturbed)
    refused = spared = at = 0
    while spared < MOST_SPARED[kind]:
        at += 1
        found = ending([program, *words], limit, library, kind, at)
        if found == undisturbed:
            spared += 1
        elif is_due(kind, found, undisturbed):
            refused, spared = refused + 1, 0
        else:
            raise Wrong(f"{kind} {at} refused, it ended with {found}")
    return refused


def try_all(args: argparse.Namespace, library: str, runs: list[list[str]]) -> None:
    """Refuses each call of the kinds that are asked for in each of these runs. `Wrong`: of a form none was refused."""
    numbered = [(n, words) for n, words in enumerate(runs, 1) if n == (args.only or n)]
    if not numbered:
        raise Wrong(f"there is no run {args.only}")
    for kind in args.kind or MOST_SPARED:
        refused: collections.Counter[str] = collections.Counter()
        for number, words in numbered:
            try:
                refused[words[0]] += places(args.program, words, library, kind, args.limit)
            except Wrong as wrong:
                command = flags.again(args, "--kind", kind, "--only", number)
                raise Wrong(f"{' '.join(words)}: {wrong}\n  again: {command}") from wrong
        by_form = ", ".join(f"{count} of {form}" for form, count in sorted(refused.items()))
        lacking = [form for form, count in refused.items() if not count and (kind, form) not in WITHOUT]
        if lacking:
            raise Wrong(f"{kind}: no call was refused of {', '.join(lacking)}: is the program linked statically?")
        print(f"{kind}: {sum(refused.values())} calls refused ({by_form}), one a run: each run ended as it should")


def main() -> None:
    parser = flags.parser(__doc__)
    parser.add_argument("--kind", choices=list(MOST_SPARED), action="append", help="calls of this kind alone")
    parser.add_argument("--only", metavar="N", type=flags.positive, help="the run of this number alone, from 1 on")
    args = parser.parse_args()
    compiler = shutil.which("cc")
    if compiler is None:
        sys.exit("no C compiler: nothing was tried (Debian's package gcc has cc)")
    with tempfile.TemporaryDirectory() as folder:
        library = os.path.join(folder, "refuse.so")
        source = str(HERE / "faults" / "refuse.c")
        subprocess.run([compiler, "-O2", "-shared", "-fPIC", "-o", library, source, "-ldl"], check=True)
        try:
            try_all(args, library, commands() + drawn_up(args.program, folder, args.limit))
        except Wrong as wrong:
            sys.exit(str(wrong))


if __name__ == "__main__":
    main()
