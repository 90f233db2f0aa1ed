"""The lines of an answer that are neither blank nor comments, found without making them all into values."""

from __future__ import annotations

import re
from array import array
from collections.abc import Sequence

from .errors import FormatError

BLANKS, NEWLINE = re.compile(rb"[ \t\r]+"), re.compile(rb"\n")
CHAIN = re.compile(rb"[ \t\r]*chain(?=[ \t\r\n]|\Z)")
SKIPPED = re.compile(rb"[ \t\r]*(?:\Z|\n|c(?:[ \t\r\n]|\Z))")  # how a blank line or a comment begins
WORD = re.compile(rb"[ \t\r]*([^ \t\r\n]+)")
# A token that is no number, and zeros before one. One pattern for a whole line would take many times its bytes.
NO_NUMBER = re.compile(rb"[ \t\r](?!-?[0-9]+(?:[ \t\r]|\Z))[^ \t\r]")
ZEROS = re.compile(rb"(?<![0-9])0+(?=[0-9])")
# Where a text has none of these, and doesn't begin or end with a line of them, each of its lines counts.
SIGNS_OF_SKIPPED = [b"\n" + sign for sign in (b"\n", b" ", b"\t", b"\r", b"c ", b"c\t", b"c\r", b"c\n")]


class Lines:
    """The lines by their places, from 0. `data` is the whole text."""

    def __init__(self, data: bytes) -> None:
        self.data = data
        starts = array("Q", [0])
        starts.extend(found.end() for found in NEWLINE.finditer(data))
        if starts[-1] == len(data):
            starts.pop()
        self.starts = starts
        self.numbers_of: Sequence[int] = range(1, len(starts) + 1)
        ends = (SKIPPED.match(data, starts[place]) for place in (0, -1) if starts)
        if any(ends) or any(sign in data for sign in SIGNS_OF_SKIPPED):
            kept = [place for place, start in enumerate(starts) if SKIPPED.match(data, start) is None]
            self.starts = array("Q", (starts[place] for place in kept))
            self.numbers_of = array("Q", (place + 1 for place in kept))

    def __len__(self) -> int:
        return len(self.starts)

    def number(self, place: int) -> int:
        """The number of the line in the text, from 1."""
        return self.numbers_of[place]

    def line(self, place: int) -> bytes:
        """The line without its end."""
        start = self.starts[place]
        end = self.data.find(b"\n", start)
        return self.data[start:] if end < 0 else self.data[start:end]

    def tokens(self, place: int) -> list[bytes]:
        """The tokens of the line."""
        return [token for token in BLANKS.split(self.line(place)) if token]

    def is_chain(self, place: int) -> bool:
        """Whether the line's word is `chain`."""
        return CHAIN.match(self.data, self.starts[place]) is not None

    def word(self, place: int) -> str:
        """The line's first token."""
        found = WORD.match(self.data, self.starts[place])
        return found[1].decode("utf-8", "replace") if found else ""

    def numbers(self, place: int) -> tuple[str, list[int]]:
        """The line's word and the numbers behind it. `FormatError`: something else stands behind it."""
        line = self.line(place)
        found = WORD.match(line)
        if found is None or NO_NUMBER.search(line, found.end()):
            raise FormatError(self.number(place), "a whole number was expected")
        word, rest = found[1].decode("utf-8", "replace"), line[found.end() :]
        try:
            return word, list(map(int, rest.split()))
        except ValueError:  # Python reads no number of thousands of digits, and the first of these may be zeros
            return word, self.without_zeros(place, rest)

    def without_zeros(self, place: int, rest: bytes) -> list[int]:
        """The numbers of that line's rest. `FormatError`: one has thousands of digits that count."""
        try:
            return list(map(int, ZEROS.sub(b"", rest).split()))
        except ValueError as fault:
            raise FormatError(self.number(place), "a number is greater than each limit of the format") from fault

    def text(self) -> str:
        """The whole text."""
        return self.data.decode("utf-8", "replace")
