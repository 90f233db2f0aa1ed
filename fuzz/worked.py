"""Runs the program on texts that were worked by hand: worked.py

Each line of worked.json has files with their texts, the words of a run, the status, and the text that is written,
or its beginning, where the formats fix it. A file with no text is a folder, which can be opened and not read. Where
`check` is there, what was written is handed to `check FILE` as the answer, or to `check-with FILE` with the literals
of `under`, or to `check` with what `ask FILE` prints for the words of `asked`; and that is what it has to say. Rows
with `kind` are about a kind of predicate, or wide weights, and can be left out by that name (`--without`). The status
is 0 exactly where each run is as it was worked out. `--only N` runs one row alone.
"""

from __future__ import annotations

import argparse
import json
import sys
import tempfile
from pathlib import Path
from typing import TypedDict

import flags
import kinds
from runs import MOST_STOPPED, Program, Stopped

ROWS = Path(__file__).resolve().parent / "worked.json"


class Fixed(TypedDict):
    """What each row has."""

    files: dict[str, str | None]
    words: list[str]
    status: int


class Case(Fixed, total=False):
    """A row."""

    text: str
    begins: str
    check: str
    under: list[str]
    asked: list[str]
    kind: str


def ending(program: Program, words: list[str]) -> tuple[int, bytes]:
    """The status and all that was written. `Stopped`: it takes longer than the limit."""
    run = program.run(*words)
    return run.returncode, run.stdout + run.stderr


def judging(program: Program, case: Case) -> list[str]:
    """The words of the run that judges what was written, the file `answer`."""
    file = case["words"][1]
    if "asked" in case:
        program.put("asked", ending(program, ["ask", file, *case["asked"]])[1])
        return ["check", "asked", "answer"]
    if "under" in case:
        return ["check-with", file, "answer", *case["under"]]
    return ["check", file, "answer"]


def difference(path: str, case: Case, limit: float) -> str | None:
    """What differs from how the case was worked out, or None. `Stopped`: a run takes longer than so many seconds."""
    with tempfile.TemporaryDirectory() as folder:
        program = Program(path, folder, limit)
        for name, text in case["files"].items():
            if text is None:
                Path(folder, name).mkdir()
            else:
                program.put(name, text.encode())
        status, written = ending(program, case["words"])
        text = written.decode("latin1")
        if status != case["status"] or text != case.get("text", text) or not text.startswith(case.get("begins", "")):
            return f"ended with {status} and wrote {written!r}"
        if "check" in case:
            program.put("answer", written)
            words = judging(program, case)
            judged, said = ending(program, words)
            if (judged, said) != (0, case["check"].encode()):
                return f"wrote {written!r}, of which {words[0]} says {said!r}"
    return None


def wrong_rows(args: argparse.Namespace, cases: dict[int, Case]) -> int:
    """How many of the rows, by their numbers, come out otherwise; prints a line for each."""
    wrong = stopped = 0
    for number, case in cases.items():
        try:
            what = difference(args.program, case, args.limit)
        except Stopped as error:
            stopped += 1
            what = str(error)
        if what is not None:
            wrong += 1
            print(f"{case['words']!r} over {case['files']!r}: {what}")
            print(f"  again: {flags.again(args, '--only', number)}", flush=True)
        if stopped == MOST_STOPPED:
            print("so many were stopped that no further one is tried")
            break
    return wrong


def main() -> None:
    parser = flags.parser(__doc__)
    kinds.add_flag(parser)
    parser.add_argument("--only", metavar="N", type=flags.positive, help="the row of this number alone, from 1 on")
    args = parser.parse_args()
    kinds.ask(args)
    rows: list[Case] = json.loads(ROWS.read_text(encoding="utf-8"))
    asked = {n: case for n, case in enumerate(rows, 1) if n == (args.only or n)}
    cases = {n: case for n, case in asked.items() if case.get("kind") not in args.without}
    if not cases:
        sys.exit("no row is left to be run")
    wrong = wrong_rows(args, cases)
    left_out = f", {len(asked) - len(cases)} left out" if len(cases) < len(asked) else ""
    print(f"{len(cases)} texts worked by hand, {wrong} wrong{left_out}")
    sys.exit(1 if wrong else 0)


if __name__ == "__main__":
    main()
