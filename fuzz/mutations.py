"""Alterations of an answer's rows, of its text, and of the input that it answers."""

from __future__ import annotations

import random
import re
from collections.abc import Callable
from typing import TypeVar

import reference

# The tokens of a row.
Row = list[str]
Drawn = TypeVar("Drawn")

LINES = ["", " ", "\r", "c", "c chain 0 1", "\tc x", "cx", "\x0b"]  # blank, comments, and two that are neither
SIGNED = re.compile("-?[0-9]+")
LIMITS = [10**6, 10**6 + 1, 2**32 - 1, 2**32, 2**53, 2**53 + 1, 2**60, 2**60 + 1, 2**64 - 1, 2**64, 10**30]
ODD_TOKENS = ["-0", "+1", "x", "-", "--1", "1x", "c", "v", "chain", "path", "00", "\x00", "\xff"]


class Mutations:
    """Alterations that are drawn one after the other."""

    def __init__(self, drawn: random.Random) -> None:
        self.random = drawn

    def pick(self, choices: list[Drawn]) -> Drawn:
        return self.random.choice(choices)

    def place(self, row: Row) -> int:
        """A place behind the row's word."""
        return self.random.randrange(1, len(row)) if len(row) > 1 else 0

    # ---- one row: each takes the tokens of a row and changes them in place

    def swap(self, row: Row) -> None:
        i, j = self.place(row), self.place(row)
        row[i], row[j] = row[j], row[i]

    def drop(self, row: Row) -> None:
        del row[self.place(row)]

    def drop_literal(self, row: Row) -> None:
        start, end = 1 if row[0] in ("chain", "v") else 2, self.end_of_clause(row)
        if end > start:
            del row[self.random.randrange(start, end)]

    def add_literal(self, row: Row) -> None:
        row.insert(self.pick([1, 2, 2]), str(self.random.randint(-9, 9)))

    def end_of_clause(self, row: Row) -> int:
        """The place of the 0 that ends the clause, or of the last token."""
        start = 1 if row[0] in ("chain", "v") else 2
        return next((k for k in range(start, len(row)) if row[k] == "0"), len(row) - 1)

    def reorder(self, row: Row) -> None:
        """The list behind the clause in another order."""
        end = self.end_of_clause(row)
        listed = row[end + 1 :]
        if self.random.random() < 0.5:
            listed.reverse()
        else:
            self.random.shuffle(listed)
        row[end + 1 :] = listed

    def change_list(self, row: Row) -> None:
        """A number of the list left out, one higher or lower, another one, or a second time."""
        end = self.end_of_clause(row)
        if end + 1 == len(row):
            row.append(str(self.random.randint(0, 5)))
            return
        k = self.random.randrange(end + 1, len(row))
        kind = self.random.randrange(4)
        if kind == 0:
            del row[k]
        elif kind == 1:
            row[k] = str(self.random.randint(0, 6))
        elif kind == 2:
            row.append(row[k])
        elif SIGNED.fullmatch(row[k]):
            row[k] = str(int(row[k]) + self.pick([-1, 1]))

    def other_word(self, row: Row) -> None:
        row[0] = self.pick([*reference.LEMMAS, "chain", "v", "s"])

    def other_predicate(self, row: Row) -> None:
        row[min(1, len(row) - 1)] = str(self.random.randint(0, 6))

    def nudge(self, row: Row) -> None:
        """A number one higher or lower, or of the other sign."""
        k = self.place(row)
        if SIGNED.fullmatch(row[k]):
            number = int(row[k])
            row[k] = str(self.pick([number - 1, number + 1, -number]))

    def flip(self, row: Row) -> None:
        """The other value of a variable."""
        k = self.place(row)
        row[k] = row[k][1:] if row[k].startswith("-") else "-" + row[k]

    def double(self, row: Row) -> None:
        k = self.place(row)
        row.insert(self.pick([k, len(row)]), row[k])

    def put_limit(self, row: Row) -> None:
        row[self.place(row)] = self.pick(["", "", "-"]) + str(self.pick(LIMITS))

    def put_zeros(self, row: Row) -> None:
        k = self.place(row)
        row[k] = "-" * row[k].startswith("-") + "0" * self.pick([1, 2, 40]) + row[k].lstrip("-")

    def put_odd(self, row: Row) -> None:
        row[self.random.randrange(len(row))] = self.pick(ODD_TOKENS)

    def cut_off(self, row: Row) -> None:
        del row[self.place(row) :]

    def put_number(self, row: Row) -> None:
        row.append(str(self.random.randint(0, 12)))

    ROW: list[Callable[[Mutations, Row], None]] = [swap, drop, drop_literal, drop_literal, drop_literal, add_literal]
    ROW += [reorder, reorder, other_word, other_predicate]
    ROW += [change_list] * 6 + [nudge, nudge, double, put_limit, put_zeros, put_odd, cut_off, put_number]

    # ---- all rows

    def first(self, rows: list[Row]) -> int:
        """The place of the first row behind the status line."""
        return 2 if rows and rows[0][:1] == ["version"] else 1

    def any_place(self, rows: list[Row]) -> int:
        """The place of a row, seldom of the status line or one before it."""
        first = self.first(rows)
        return self.random.randrange(first if len(rows) > first + 1 else 0, len(rows))

    def repeat_row(self, rows: list[Row]) -> None:
        k = self.random.randrange(len(rows))
        rows.insert(self.pick([k, len(rows)]), list(rows[k]))

    def drop_row(self, rows: list[Row]) -> None:
        del rows[self.any_place(rows)]

    def swap_rows(self, rows: list[Row]) -> None:
        i, j = (self.any_place(rows) for _ in "ij")
        rows[i], rows[j] = rows[j], rows[i]

    def other_status(self, rows: list[Row]) -> None:
        rows[0] = ["s", self.pick(["SATISFIABLE", "SATISFIABLE", "UNSATISFIABLE", "UNKNOWN", "unknown"])]

    def split_row(self, rows: list[Row]) -> None:
        k = self.random.randrange(len(rows))
        end = self.place(rows[k])
        rows[k : k + 1] = [rows[k][:end], (["v"] if rows[k][:1] == ["v"] else []) + rows[k][end:]]

    def put_version(self, rows: list[Row]) -> None:
        """A version line, mostly at the beginning, or one that is nearly one."""
        others = [["version", n] for n in ("1", "3", "02", "2 2")] + [["Version", "2"], ["version"]]
        row = self.pick([["version", "2"]] * 6 + others)
        rows.insert(self.pick([0, 0, 0, self.random.randint(0, len(rows))]), list(row))

    ROWS: list[Callable[[Mutations, list[Row]], None]] = [repeat_row, drop_row, swap_rows, other_status]
    ROWS += [split_row, put_version]

    def row_to_alter(self, rows: list[Row]) -> Row:
        """Mostly a lemma where there is one, seldom the status line."""
        lemmas = [row for row in rows if row and row[0] in reference.LEMMAS]
        if lemmas and self.random.random() < 0.6:
            return self.pick(lemmas)
        first = self.first(rows)
        if len(rows) <= first or self.random.random() < 0.03:
            return rows[min(first, len(rows)) - 1]
        return self.pick(rows[first:])

    def alter(self, rows: list[Row]) -> None:
        """One alteration of rows of tokens, in place."""
        row = self.row_to_alter(rows)
        if self.random.random() < 0.2 or not row:
            self.pick(self.ROWS)(self, rows)
        elif row[0] == "v" and self.random.random() < 0.6:
            self.flip(row)
        else:
            self.pick(self.ROW)(self, row)

    # ---- the text

    def plain(self, rows: list[Row]) -> bytes:
        """The rows as the formats print them."""
        return "".join(" ".join(row) + "\n" for row in rows).encode()

    def text(self, rows: list[Row]) -> bytes:
        """The rows as bytes: one space and one line feed each, or other blanks, line ends, blank lines and comments."""
        end = self.pick(["\n"] * 8 + ["\r\n", " \n", "\t\r\n"])
        blank = self.pick([" "] * 8 + ["  ", "\t", "\r", " \t\r "])
        lines = [blank.join(row) for row in rows]
        if self.random.random() < 0.15:
            for _ in range(self.random.randint(1, 3)):
                lines.insert(self.random.randint(0, len(lines)), self.pick(LINES))
        made = end.join(lines) + end * (self.random.random() < 0.8)
        if self.random.random() < 0.05:
            made = made[: self.random.randint(0, len(made))]
        return made.encode("latin1")

    # ---- the input

    def input(self, text: bytes) -> bytes:
        """The input with one number changed by one: mostly a bound, else a weight, a node, a variable or a literal."""
        lines = text.split(b"\n")
        bounded = [k for k, line in enumerate(lines) if line.startswith((b"dist", b"wei", b"max", b"mst"))]
        k = self.random.randrange(len(lines))
        tokens = lines[k].decode().split(" ")
        place = self.random.randrange(len(tokens))
        if bounded and self.random.random() < 0.7:
            k = self.pick(bounded)
            tokens = lines[k].decode().split(" ")
            place = len(tokens) - 1
        if SIGNED.fullmatch(tokens[place]):
            tokens[place] = str(int(tokens[place]) + self.pick([-1, 1]))
        lines[k] = " ".join(tokens).encode()
        return b"\n".join(lines)
