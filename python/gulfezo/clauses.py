"""The clauses of a problem, kept as one row of numbers: four bytes a literal, and a tuple where one is asked for."""

from __future__ import annotations

import itertools
from array import array
from collections.abc import Iterable, Iterator, Sequence
from typing import overload

from .limits import MOST_CLAUSES, MOST_LITERALS

Clause = tuple[int, ...]
PIECE = 50_000  # clauses that are written at once


class Clauses(Sequence[Clause]):
    """Clauses in their order, each a tuple of the numbers of its literals."""

    def __init__(self, clauses: Iterable[Iterable[int]] = ()) -> None:
        self.flat = array("i")  # each clause and a 0
        self.starts = array("I")
        for clause in clauses:
            self.append(clause)

    def __len__(self) -> int:
        return len(self.starts)

    @overload
    def __getitem__(self, at: int) -> Clause: ...
    @overload
    def __getitem__(self, at: slice) -> list[Clause]: ...

    def __getitem__(self, at: int | slice) -> Clause | list[Clause]:
        if isinstance(at, slice):
            return [self[place] for place in range(len(self))[at]]
        place = range(len(self))[at]
        return tuple(self.flat[self.starts[place] : self.end(place) - 1])

    def __iter__(self) -> Iterator[Clause]:
        flat = self.flat
        for start, end in zip(self.starts, itertools.chain(self.starts[1:], [len(flat)])):
            yield tuple(flat[start : end - 1])

    def __eq__(self, other: object) -> bool:
        return isinstance(other, Sequence) and list(self) == list(other)

    def __repr__(self) -> str:
        return repr(list(self))

    def end(self, place: int) -> int:
        """Where the clause at that place ends, behind its 0."""
        return self.starts[place + 1] if place + 1 < len(self.starts) else len(self.flat)

    def append(self, clause: Iterable[int]) -> None:
        """A further clause. `ValueError`: a problem can't have so many."""
        start, flat = len(self.flat), self.flat
        flat.extend(clause)
        flat.append(0)
        self.starts.append(start)
        if len(self.starts) > MOST_CLAUSES or len(flat) - len(self.starts) > MOST_LITERALS:
            self.cut(len(self.starts) - 1)
            raise ValueError(f"a problem has at most {MOST_CLAUSES} clauses and {MOST_LITERALS} literals in them")

    def extend(self, flat: array[int]) -> None:
        """Further clauses, each ended by a 0. `ValueError`: a problem can't have so many."""
        before, base = len(self.starts), len(self.flat)
        ends = [place for place, number in enumerate(flat, base + 1) if not number]
        if ends:
            self.starts.append(base)
            self.starts.extend(ends[:-1])
            self.flat.extend(flat)
        if len(self.starts) > MOST_CLAUSES or len(self.flat) - len(self.starts) > MOST_LITERALS:
            self.cut(before)
            raise ValueError(f"a problem has at most {MOST_CLAUSES} clauses and {MOST_LITERALS} literals in them")

    def pop(self) -> Clause:
        """Takes the last clause away, and gives it."""
        last = self[-1]
        self.cut(len(self) - 1)
        return last

    def cut(self, count: int) -> None:
        """Leaves the first clauses, so many of them."""
        if count < len(self.starts):
            del self.flat[self.starts[count] :]
            del self.starts[count:]

    def copy(self) -> Clauses:
        """The same clauses once more."""
        made = Clauses()
        made.flat.extend(self.flat)
        made.starts.extend(self.starts)
        return made

    def rows(self, first: int = 0) -> Iterator[str]:
        """The lines of a problem's file from the clause at that place on, many at once."""
        for place in range(first, len(self), PIECE):
            last = min(place + PIECE, len(self)) - 1
            text = "\n" + " ".join(map(str, self.flat[self.starts[place] : self.end(last)]))
            # A 0 ends a line. Behind an empty clause's the first pass has taken the blank, which the second sees.
            yield text.replace(" 0 ", " 0\n").replace("\n0 ", "\n0\n")[1:] + "\n"
