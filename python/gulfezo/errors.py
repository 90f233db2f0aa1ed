"""What can go wrong, as exceptions: all are `GulfezoError`, and each message says what to do."""

from __future__ import annotations

from pathlib import Path


class GulfezoError(Exception):
    """The base of all errors of this package. Wrong arguments raise `ValueError` instead."""


class ProgramMissing(GulfezoError):
    """The program wasn't found, or it couldn't be started."""


class FormatError(GulfezoError):
    """A text isn't of the format that was expected; `line` counts from 1."""

    def __init__(self, line: int, reason: str) -> None:
        super().__init__(f"line {line}: {reason}")
        self.line = line
        self.reason = reason


class RunError(GulfezoError):
    """A run of the program ended in an unexpected way. `problem` and `answer` are its files, which stay."""

    def __init__(self, reason: str, problem: Path, answer: Path) -> None:
        super().__init__(f"{reason}\n  the problem: {problem}\n  the answer:  {answer}")
        self.problem = problem
        self.answer = answer


class NotSolved(GulfezoError):
    """`solve` was given a budget or a time and found neither a model nor a refutation within it.

    Where a folder was asked for, its files stay, and the paths name them; else both are None, and nothing stays.
    """

    def __init__(self, reason: str, problem: Path | None = None, answer: Path | None = None) -> None:
        super().__init__(reason + (f"\n  what was learned: {answer}" if answer else ""))
        self.problem = problem
        self.answer = answer


class RejectedAnswer(RunError):
    """`check` doesn't accept what `solve` printed. No value of such an answer is ever handed out."""


class UnexpectedStatus(RunError):
    """`solve` ended with a status that is no answer, or printed another answer than its status says."""


class BudgetSpent(NotSolved):
    """`solve` learned as many clauses as its budget allows. `answer` is the file of what it learned, unread."""


class TimeSpent(NotSolved):
    """The seconds that were given are over, and the program was ended. Both paths are None, also with a folder."""


class PackageMissing(GulfezoError):
    """A package that isn't of the standard library is wanted, and it isn't installed."""
