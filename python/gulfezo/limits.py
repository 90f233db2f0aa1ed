"""The limits of the format, and the checks of what users give: whole numbers, and names of one line."""

from __future__ import annotations

import operator
import unicodedata
from typing import Any

MOST_VARIABLES = 1_000_000
MOST_GRAPHS = 1_024
MOST_NODES = MOST_EDGES = 1_000_000
MOST_PREDICATES = 100_000
MOST_CLAUSES = 8_000_000
MOST_LITERALS = 16_000_000
MOST_WEIGHT = 2**64 - 1
MOST_BOUND = 2**53

# Control characters, line and paragraph separators, and halves of characters that no file can hold.
UNPRINTABLE = ("Cc", "Zl", "Zp", "Cs")


def one_line(name: str) -> str:
    """The name, which goes into a comment of the file. `ValueError`: it is no text, or has such a character."""
    if isinstance(name, str) and name.isascii() and name.isprintable():
        return name
    if not isinstance(name, str) or any(unicodedata.category(character) in UNPRINTABLE for character in name):
        raise ValueError(f"a name is one line of text without control characters, which {name!r} isn't")
    return name


def printable(name: Any) -> Any:
    """The name, or the parts of its coordinates, with a mark in place of each character that no name may have."""
    if isinstance(name, tuple):
        return tuple(printable(str(part)) for part in name)
    return "".join("\ufffd" if unicodedata.category(letter) in UNPRINTABLE else letter for letter in name)


def whole(value: Any, what: str, most: int | None = None, least: int | None = 0) -> int:
    """A whole number within its limits. `ValueError`: it isn't one; neither `True` nor `3.0` is."""
    try:
        number = None if isinstance(value, bool) else operator.index(value)
    except TypeError:
        number = None
    if number is None or least is not None and number < least or most is not None and number > most:
        limits = ("" if least is None else f" from {least}") + ("" if most is None else f" to {most}")
        raise ValueError(f"{what} is a whole number{limits}, which {value!r} isn't")
    return number


def seconds_of(value: Any) -> float | None:
    """A time in seconds, or None. `ValueError`: it is no number above 0."""
    if value is None:
        return None
    if isinstance(value, bool) or not isinstance(value, (int, float)) or not value > 0:
        raise ValueError(f"seconds is a number above 0, which {value!r} isn't")
    return float(value)
