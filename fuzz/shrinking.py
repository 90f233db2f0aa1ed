"""Makes a text smaller that shows a difference: delta debugging (Zeller and Hildebrandt, IEEE TSE 2002)."""

from __future__ import annotations

import time
from collections.abc import Callable

SECONDS = 20.0  # that a script spends on all that it shrinks; what it meets then is told as it was drawn

Test = Callable[[bytes], bool]


class Shrinking:
    """Texts that are tried, as long as there is time."""

    spent = 0.0  # by all of them

    def __init__(self, differs: Test) -> None:
        self.differs = differs

    def holds(self, text: bytes) -> bool:
        """Whether the text still shows a difference; none does once the time is used up."""
        if Shrinking.spent > SECONDS:
            return False
        began = time.monotonic()
        found = self.differs(text)
        Shrinking.spent += time.monotonic() - began
        return found

    def fewer(self, pieces: list[bytes], text: Callable[[list[bytes]], bytes]) -> list[bytes]:
        """Pieces of which none can be left out: halves are tried first, then quarters, and at last single ones."""
        size = (len(pieces) + 1) // 2
        while size:
            at, before = 0, len(pieces)
            while at < len(pieces):
                others = pieces[:at] + pieces[at + size :]
                if self.holds(text(others)):
                    pieces = others
                else:
                    at += size
            if size > 1 or len(pieces) == before:
                size //= 2
        return pieces

    def row(self, rows: list[bytes], place: int) -> bytes:
        """The row at this place without the tokens that can be left out."""
        tokens = rows[place].split(b" ")
        before, behind = rows[:place], rows[place + 1 :]
        return b" ".join(self.fewer(tokens, lambda some: joined([*before, b" ".join(some), *behind])))


def joined(rows: list[bytes]) -> bytes:
    """The text of these rows."""
    return b"\n".join(rows)


def shrunk(text: bytes, differs: Test) -> bytes:
    """A part of the text that still differs: of its lines, and of each line's words."""
    shrinking = Shrinking(differs)
    rows = shrinking.fewer(text.split(b"\n"), joined)
    for place in range(len(rows)):
        rows[place] = shrinking.row(rows, place)
    return joined(rows)
