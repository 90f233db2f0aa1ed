"""What an answer took and what it has, read off it."""

from __future__ import annotations

from collections.abc import Mapping
from dataclasses import dataclass


@dataclass(frozen=True)
class Statistics:
    """`seconds` are those of each phase: writing, solving, checking, reading; empty where the answer was only read.

    `conflicts` is the number of learned clauses that a refutation needs, or that progress has; a model names none, so
    it is None there. `lemmas` are the numbers of lemmas about graphs by their words. `bytes` is the size of the answer.
    """

    seconds: Mapping[str, float]
    conflicts: int | None
    lemmas: Mapping[str, int]
    bytes: int

    def __str__(self) -> str:
        parts = [] if self.conflicts is None else [f"learned clauses: {self.conflicts}"]
        parts += [f"{word}: {number}" for word, number in self.lemmas.items()]
        parts += [f"{phase}: {seconds:.2f} s" for phase, seconds in self.seconds.items()]
        return ", ".join([*parts, f"{self.bytes} bytes"])
