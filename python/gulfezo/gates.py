"""Literals that are true exactly where others are so and so: further variables, which clauses tie to them."""

from __future__ import annotations

from collections.abc import Iterable, Sequence
from typing import TYPE_CHECKING

from .literals import Literal, listed

if TYPE_CHECKING:
    from .problem import Problem


def owner_of(literals: Sequence[Literal], word: str) -> Problem:
    """The problem of the literals. `ValueError`: there is none, or they are of several problems."""
    owner = next((literal.owner for literal in literals if literal.owner is not None), None)
    if owner is None:
        raise ValueError(f"{word} wants at least one literal that a problem has made")
    for literal in literals:
        owner.require_own(literal)
    return owner


def Or(*literals: Literal | Iterable[Literal]) -> Literal:
    """A literal that is true exactly where one of the literals is, given one by one or as one list.

    It is a further variable of their problem, which clauses tie to them. `ValueError`: there is none, or they are of
    several problems.
    """
    found = listed(literals)
    owner = owner_of(found, "Or")
    if len(found) == 1:
        return found[0]
    with owner.unchanged_on_error():
        either = owner.add_variable()
        owner.add_clause(~either, *found)
        for literal in found:
            owner.add_clause(either, ~literal)
    return either


def And(*literals: Literal | Iterable[Literal]) -> Literal:
    """A literal that is true exactly where all of the literals are; see `Or`."""
    return ~Or([~literal for literal in listed(literals)])


def Implies(condition: Literal, consequence: Literal) -> Literal:
    """A literal that is true exactly where the consequence is, or the condition isn't; see `Or`.

    `problem.add_clause(~condition, consequence)` requires it without a further variable.
    """
    (first, second) = listed((condition, consequence))
    return Or(~first, second)


def Xor(*literals: Literal | Iterable[Literal]) -> Literal:
    """A literal that is true exactly where an odd number of the literals is; see `Or`. Of two: where they differ."""
    found = listed(literals)
    owner = owner_of(found, "Xor")
    odd = found[0]
    with owner.unchanged_on_error():
        for literal in found[1:]:
            before, odd = odd, owner.add_variable()
            for signs in ((~odd, before, literal), (~odd, ~before, ~literal)):
                owner.add_clause(*signs)
            for signs in ((odd, ~before, literal), (odd, before, ~literal)):
                owner.add_clause(*signs)
    return odd


def If(condition: Literal, then: Literal, otherwise: Literal) -> Literal:
    """A literal that is what `then` is where the condition is true, and what `otherwise` is elsewhere; see `Or`."""
    found = listed((condition, then, otherwise))
    owner = owner_of(found, "If")
    with owner.unchanged_on_error():
        made = owner.add_variable()
        for sign, value in ((condition, then), (~condition, otherwise)):
            owner.add_clause(~sign, ~made, value)
            owner.add_clause(~sign, made, ~value)
        # Where both are the same it is that one, whatever the condition: unit propagation sees it by these alone.
        owner.add_clause(made, ~then, ~otherwise)
        owner.add_clause(~made, then, otherwise)
    return made
