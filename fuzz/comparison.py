"""Runs of `print`, `check` and `migrate` beside fuzz/reference.py: status and text have to be the same bytes."""

from __future__ import annotations

import collections

import reference
from runs import Program, Stopped, Wrong
from shrinking import shrunk


class Comparison:
    """Runs over files of one folder, and what they came to."""

    def __init__(self, program: Program, kinds: collections.Counter[str]) -> None:
        self.program, self.kinds = program, kinds

    def compare(self, verb: str, text: bytes, answer: bytes = b"", version: int = 1) -> str:
        """The text that is due, which is counted. `Wrong`: the program writes another one; over shorter files, too."""
        status, due = reference.outcome(verb, text, answer, version)
        done = f"migrated to {version}" if verb == "migrate" else " ".join(due.split()[:2])
        self.kinds[due.split()[2] if status else done] += 1
        try:
            what = self.difference(verb, text, answer, version)
        except Stopped as stopped:
            raise Stopped(f"{verb} of input {text!r}, answer {answer!r}: {stopped}") from stopped
        if what is not None:
            answer = shrunk(answer, lambda some: self.differs(verb, text, some, version))
            text = shrunk(text, lambda some: self.differs(verb, some, answer, version))
            what = self.difference(verb, text, answer, version)
            raise Wrong(f"{verb} differs: input {text!r}, answer {answer!r}\n  {what}")
        return due

    def differs(self, verb: str, text: bytes, answer: bytes, version: int) -> bool:
        """Whether the program ends by itself, and with something else than what is due."""
        try:
            return self.difference(verb, text, answer, version) is not None
        except Stopped:
            return False

    def difference(self, verb: str, text: bytes, answer: bytes, version: int) -> str | None:
        """What the program says, where that isn't what is due."""
        names = ["f"] if verb == "print" else ["f", "a"]
        for name, held in zip(names, (text, answer)):
            self.program.put(name, held)
        status, due = reference.outcome(verb, text, answer, version)
        run = self.program.run(verb, *names, *([str(version)] if verb == "migrate" else []))
        if (run.returncode, run.stdout, run.stderr) == (status, due.encode(), b""):
            return None
        return f"due {status} {due!r}, found {run.returncode} {run.stdout!r} {run.stderr!r}"
