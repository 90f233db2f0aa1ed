"""Answers in files with the problem that they answer: of `solve`, of `core` with what it assumes, and of `best`."""

from __future__ import annotations

import tempfile
from collections.abc import Sequence
from dataclasses import dataclass
from pathlib import Path

from . import program as programs
from .answer import Answer, read_answer
from .best import restricted
from .errors import GulfezoError, ProgramMissing
from .literals import Kind
from .model import Model, Values
from .objectives import Objective
from .problem import Problem
from .reading import read_problem
from .reasons import explained


# How the first line of what `best` writes begins.
BESTS = [[b"c", word] for word in (b"best", b"open", b"beyond", b"never")]


@dataclass(frozen=True)
class Judged:
    """An answer, if there is one, the problem that it answers, what `check` says of it, and the `words` that ask it."""

    problem: Problem
    answer: Answer | None
    verdict: str
    words: str = ""


def judged_answer(
    file: str, answer: str, assume: Sequence[int] = (), atom: int | None = None, unchecked: bool = False
) -> Judged:
    """The answer in a file, once `check` has accepted it.

    An answer that `core` wrote is one under the literals of its core, another one under those of `assume`. With `atom`
    it is what `best FILE ATOM` wrote, and answers what `ask` prints for the bound that it refutes, or that it reaches
    beyond all. `GulfezoError`: `check` doesn't accept it.
    """
    problem = read_problem(file)
    if atom is not None:
        return judged_best(problem, Path(file), Path(answer), atom, unchecked)
    assumed = list(assume) or core_of(Path(answer))
    for number in assumed:
        problem.literal(number)
    verdict = "unchecked" if unchecked else accepted_verdict(Path(file), Path(answer), assumed)
    words = ["gulfezo", "check-with" if assumed else "check", file, answer, *map(str, assumed)]
    return Judged(problem, read_answer(problem, answer, assumed), verdict, " ".join(words))


def core_of(answer: Path) -> list[int]:
    """The literals of the core that an answer begins with; none where it has none."""
    tokens = first_tokens(answer)
    if tokens[:2] != [b"c", b"core"] or tokens[-1] != b"0":
        return []
    try:
        return list(map(int, tokens[2:-1]))
    except ValueError:
        return []


def accepted_verdict(file: Path, answer: Path, assumed: Sequence[int] = ()) -> str:
    """What `check` says of an answer that it accepts. `GulfezoError`: it doesn't."""
    try:
        said = programs.verdict(programs.find(), file, answer, literals=assumed)
    except ProgramMissing as missing:
        raise ProgramMissing(f"{missing}; or believe an unchecked answer by --unchecked") from missing
    if not said.startswith("accepted "):
        why = explained(said, file if said.startswith("refused") else answer)
        if first_tokens(answer)[:2] in BESTS:
            why += f"\n  {answer} begins as what `best FILE ATOM` writes: --best ATOM says that it is that"
        raise GulfezoError(f"check says '{said}', so nothing is made of it; --unchecked does it all the same{why}")
    return said


def first_tokens(answer: Path) -> list[bytes]:
    """The tokens of an answer's first line."""
    with open(answer, "rb") as lines:
        return lines.readline(1 << 20).split()


def objective_of(problem: Problem, atom: int) -> Objective:
    """What `best` asks about the predicate of that number."""
    if not 0 < atom <= len(problem.predicates):
        raise ValueError(f"there is no predicate {atom}: the problem has {len(problem.predicates)}, from 1")
    predicate = problem.predicates[atom - 1]
    return Objective(problem, predicate, predicate.kind is Kind.MAXIMUM_FLOW)


def judged_best(problem: Problem, file: Path, answer: Path, atom: int, unchecked: bool) -> Judged:
    """See `judged_answer`."""
    objective = objective_of(problem, atom)
    bound = bound_of(answer, objective)
    asked = objective.asked(-bound if objective.is_flow else bound)
    words = f"gulfezo ask {file} {atom} {bound} > asked.gnf; gulfezo check asked.gnf {answer}"
    if unchecked:
        return Judged(asked, read_answer(asked, answer), "unchecked", words)
    with tempfile.TemporaryDirectory(prefix="gulfezo-") as folder:
        text = Path(folder, "asked.gnf")
        with open(text, "wb") as out:
            status = programs.run([programs.find(), "ask", str(file), str(atom), str(bound)], out)
        if status != 0:
            raise GulfezoError(f"ask ended with {status} for the bound {bound}: is {answer} what `best` wrote for it?")
        return Judged(asked, read_answer(asked, answer), accepted_verdict(text, answer), words)


def bound_of(answer: Path, objective: Objective) -> int:
    """The bound for which what `best` wrote is an answer of what `ask` prints."""
    tokens = first_tokens(answer)
    if tokens == [b"c", b"never"]:
        return objective.bound(objective.weakest)
    if tokens == [b"c", b"beyond"]:
        return objective.bound(objective.strongest)
    if tokens[:2] not in ([b"c", b"best"], [b"c", b"open"]) or len(tokens) != 3:
        raise ValueError(f"{answer} doesn't begin as what `best` writes")
    bound = int(tokens[2])
    return bound if tokens[1] == b"open" else bound + 1 if objective.is_flow else bound - 1


def model_of_best(file: str, answer: str, atom: int, unchecked: bool) -> Judged:
    """The model that attains the best bound, in what `best FILE ATOM` wrote: one of the problem itself."""
    problem = read_problem(file)
    objective = objective_of(problem, atom)
    with open(answer, encoding="utf-8", errors="replace") as lines:
        tokens: list[str] = next((line.split() for line in lines if line.startswith("c v ")), [])
    if not tokens:
        raise ValueError(f"{answer} has no model in a line `c v`")
    values = Values(problem.variables + 1)
    values.set(map(int, tokens[2:]))
    numbers = " ".join(tokens[2:-1])
    found = restricted(Model(objective.asked(0), values, f"s SATISFIABLE\nv {numbers} 0\n"), problem)
    if unchecked:
        return Judged(problem, found, "unchecked")
    with tempfile.NamedTemporaryFile("w", prefix="gulfezo-") as text:
        text.write(found.text)
        text.flush()
        return Judged(problem, found, accepted_verdict(Path(file), Path(text.name)))
