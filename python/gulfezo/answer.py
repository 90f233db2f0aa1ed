"""Answers: the texts that `solve` prints and `check` judges, read into values.

Reading an answer checks nothing but its form. `Problem.solve` hands one out only after the program's `check` accepted
it; whoever calls `parse_answer` decides alone what to believe.
"""

from __future__ import annotations

import os
import shutil
from collections.abc import Sequence
from pathlib import Path

from .errors import FormatError, UnexpectedStatus
from .lines import Lines
from .migrating import migrated
from .model import Model, Values
from .problem import Problem
from .steps import Derivation, Progress, Refutation, Steps

Answer = Model | Refutation | Progress
SATISFIABLE = [b"s", b"SATISFIABLE"]


def parse_answer(problem: Problem, text: str) -> Answer:
    """The answer that a text gives to the problem. `FormatError` names a line that isn't understood."""
    answer = answer_of(problem, Lines(text.encode("utf-8", "replace")))
    if not isinstance(answer, Model):
        for _ in answer.steps:  # reading it shows that its line is understood
            pass
    return answer


def read_answer(problem: Problem, path: str | os.PathLike[str], assumed: Sequence[int] = ()) -> Answer:
    """The answer in a file, as one that `check` has accepted is read: a step is read where it is asked for.

    So refutations of any size need little more memory than their file has bytes. `assumed` are the numbers of the
    literals under which it is an answer: each of them is a further clause behind the problem's. `FormatError` names a
    line that isn't understood, of a step once it is read.
    """
    return answer_of(problem, Lines(Path(path).read_bytes()), assumed)


def accepted(problem: Problem, file: Path, printed: Path, assumed: Sequence[int] = ()) -> Answer:
    """The answer in a file that `check` has accepted. `UnexpectedStatus`: it isn't understood all the same."""
    try:
        return read_answer(problem, printed, assumed)
    except FormatError as fault:
        raise UnexpectedStatus(f"an answer that check accepts isn't understood: {fault}", file, printed) from fault


def migrate(answer: Model | Derivation, version: int, program: str | None = None) -> Answer:
    """See `Model.migrate` and `Derivation.migrate`."""
    assumed = () if isinstance(answer, Model) else answer.assumptions
    file, new = migrated(answer, version, program, assumed)
    found = accepted(answer.problem, file, new, assumed)
    shutil.rmtree(file.parent)
    return found


def answer_of(problem: Problem, lines: Lines, assumed: Sequence[int] = ()) -> Answer:
    """The answer of a text by its lines, in version 1 or, behind the line `version 2`, in version 2."""
    begin, status = status_of(lines)
    if status == SATISFIABLE:
        return Model(problem, values(problem.variables, lines, begin + 1), lines.text())
    before = len(problem.clauses) + len(assumed) - begin
    steps = Steps(lines, range(begin + 1, len(lines)), before, backwards=begin == 1)
    if status == [b"s", b"UNSATISFIABLE"]:
        return Refutation(problem, steps, assumed)
    if status == [b"s", b"UNKNOWN"]:
        return Progress(problem, steps, assumed)
    number = lines.number(min(begin, len(lines) - 1)) if len(lines) else 1
    raise FormatError(number, "an answer begins with `s SATISFIABLE`, `s UNSATISFIABLE` or `s UNKNOWN`")


def status_of(lines: Lines) -> tuple[int, list[bytes]]:
    """The place of the line that says what an answer is, and the tokens of that line."""
    begin = 1 if len(lines) and lines.tokens(0) == [b"version", b"2"] else 0
    return begin, lines.tokens(begin) if len(lines) > begin else []


def values_in(printed: Path, variables: int) -> Values:
    """The values in a file that has a model. `FormatError`: it has none."""
    lines = Lines(printed.read_bytes())
    begin, status = status_of(lines)
    if status != SATISFIABLE:
        raise FormatError(begin + 1, "a model was expected")
    return values(variables, lines, begin + 1)


def values(variables: int, lines: Lines, first: int) -> Values:
    """The value of each variable, from the lines `v` of a model, of which the first has the place `first`."""
    found = Values(variables)
    for place in range(first, len(lines)):
        word, numbers = lines.numbers(place)
        if word != "v":
            raise FormatError(lines.number(place), "a model has only lines that begin with `v`")
        try:
            found.set(numbers)
        except IndexError as fault:
            raise FormatError(lines.number(place), "the model has a variable that the problem doesn't have") from fault
    missing = found.signs.find(0, 1)
    if missing > 0:
        raise FormatError(lines.number(len(lines) - 1), f"the model gives variable {missing} no value")
    return found
