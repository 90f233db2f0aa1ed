"""Literals, and those of them that say something about a graph: edges, links and predicates.

None of them can be changed, since what a problem's file says of them stands in the problem. Two are equal where they
are the same thing of the same problem: literals by their numbers, edges and predicates by theirs.
"""

from __future__ import annotations

import enum
from collections.abc import Callable, Iterable, Sequence
from typing import TYPE_CHECKING, Any, NoReturn

if TYPE_CHECKING:
    from .problem import Problem


# What is said of names that other libraries have, or that would mean something else than it seems.
LINK = "since walks follow it either way: `ends` has both of its nodes, and `model.nodes(predicate)` those of a walk"
MISSING = {
    "value": "a literal has no value of its own: `model[literal]` has the one that a model gives it",
    "start": f"no start is known of this literal; a link has none, {LINK}",
    "end": f"no end is known of this literal; a link has none, {LINK}",
}


class Literal:
    """A variable or its negation, by its number in the files: `~a` is the negation of `a`, and `~~a` is `a`.

    Variables count from 1. Literals come from a `Problem`, and belong to it alone: `owner` (None for one that is made
    from its number by hand, which any problem with that variable takes). A literal has no truth value of its own; a
    model gives it one. `a & b`, `a | b` and `a ^ b` are `And(a, b)`, `Or(a, b)` and `Xor(a, b)`.
    """

    __slots__ = ("number", "owner")
    number: int
    owner: Problem | None

    def __init__(self, number: int, *, owner: Problem | None = None) -> None:
        if isinstance(number, bool) or not isinstance(number, int) or number == 0:
            raise ValueError(f"a literal is a whole number other than 0, which {number!r} isn't")
        set_number(self, number)
        set_owner(self, owner)

    @property
    def variable(self) -> int:
        """The number of its variable, from 1."""
        return abs(self.number)

    @property
    def identity(self) -> int:
        """What tells it apart from others of its class and problem."""
        return self.number

    def __eq__(self, other: object) -> bool:
        if self is other:
            return True
        if not isinstance(other, Literal) or self.__class__ is not other.__class__:
            return NotImplemented
        return self.owner is other.owner and self.identity == other.identity

    def __hash__(self) -> int:
        return hash((id(self.owner), self.identity))

    def __invert__(self) -> Literal:
        return literal_of(-self.number, self.owner)

    def __and__(self, other: Literal) -> Literal:
        from .gates import And

        return And(self, other)

    def __or__(self, other: Literal) -> Literal:
        from .gates import Or

        return Or(self, other)

    def __xor__(self, other: Literal) -> Literal:
        from .gates import Xor

        return Xor(self, other)

    def __bool__(self) -> NoReturn:
        raise TypeError(
            "a literal is neither true nor false before the problem is solved: write And(a, b) for `a and b`, "
            "Or(a, b) for `a or b`, ~a for `not a`, and model[a] for its value in a model"
        )

    if not TYPE_CHECKING:  # of a type checker these names stay unknown

        def __getattr__(self, name: str) -> NoReturn:
            raise AttributeError(MISSING.get(name, f"{self!r} has no {name!r}"))

        def __neg__(self) -> NoReturn:
            raise TypeError("the negation of a literal a is ~a")

        def __add__(self, other: object) -> NoReturn:
            raise TypeError(
                "literals aren't reckoned with: problem.at_most(k, [a, b]) counts them, "
                "and problem.add_sum([(a, 3), (b, 5)]) is a sum of amounts"
            )

        __radd__ = __sub__ = __rsub__ = __mul__ = __rmul__ = __add__

    def __setattr__(self, name: str, value: object) -> NoReturn:
        raise AttributeError(f"{name!r} of {self!r} can't be changed: it stands in the problem as it was added")

    def __delattr__(self, name: str) -> NoReturn:
        raise AttributeError(f"{name!r} of {self!r} can't be taken away")

    def __reduce__(self) -> tuple[Any, ...]:
        slots = [slot for kind in type(self).__mro__ for slot in getattr(kind, "__slots__", ())]
        return rebuilt, (type(self), {slot: getattr(self, slot) for slot in slots})

    def __repr__(self) -> str:
        name = self.owner.names.get(self.variable) if self.owner is not None else None
        return f"<{'not ' * (self.number < 0)}{name or f'variable {self.variable}'}>"


def setter(kind: type, name: str) -> Callable[[Any, Any], None]:
    """What sets a slot past `__setattr__`, for the one time that it is set; twice as fast as `object.__setattr__`."""
    found: Callable[[Any, Any], None] = vars(kind)[name].__set__
    return found


set_number, set_owner = setter(Literal, "number"), setter(Literal, "owner")


def literal_of(number: int, owner: Problem | None) -> Literal:
    """A literal of which it is known that its number is one."""
    made = Literal.__new__(Literal)
    set_number(made, number)
    set_owner(made, owner)
    return made


def rebuilt(kind: type[Literal], fields: dict[str, Any]) -> Literal:
    """A literal of these fields, as `copy` and `pickle` make one."""
    made = kind.__new__(kind)
    for name, value in fields.items():
        object.__setattr__(made, name, value)
    return made


class Thing(Literal):
    """A literal that is more than its variable; its negation knows it."""

    __slots__ = ()

    def __invert__(self) -> Literal:
        return Negation(self)


class Negation(Literal):
    """The negation of an edge, a link or a predicate, `negated`."""

    __slots__ = ("negated",)
    negated: Thing

    def __init__(self, negated: Thing) -> None:
        set_number(self, -negated.number)
        set_owner(self, negated.owner)
        object.__setattr__(self, "negated", negated)

    def __eq__(self, other: object) -> bool:
        return isinstance(other, Negation) and self.negated == other.negated

    def __hash__(self) -> int:
        return ~hash(self.negated)

    def __invert__(self) -> Literal:
        return self.negated

    def __repr__(self) -> str:
        return f"<not {repr(self.negated)[1:]}"


class Edge(Thing):
    """A directed edge; as a literal it says that the edge is present.

    `edge_number` counts from 1 over all graphs of the problem, in the order in which edges are added. `graph` is the
    identity of its graph, nodes count from 0, and `weight` is a whole number: its length, capacity or cost. `link` is
    the link of which it is one direction, or None.
    """

    __slots__ = ("edge_number", "graph", "start", "end", "weight")
    edge_number: int
    graph: int
    start: int
    end: int
    weight: int

    def __init__(
        self, number: int, edge_number: int, graph: int, start: int, end: int, weight: int, *, owner: Problem
    ) -> None:
        set_number(self, number)
        set_owner(self, owner)
        set_edge_number(self, edge_number)
        set_graph(self, graph)
        set_start(self, start)
        set_end(self, end)
        set_weight(self, weight)

    @property
    def identity(self) -> int:
        return self.edge_number

    @property
    def link(self) -> Link | None:
        """The link of which it is one direction."""
        assert self.owner is not None
        return self.owner.edges.link(self.edge_number)

    @property
    def thing(self) -> Edge | Link:
        """Its link, or itself where it has none."""
        assert self.owner is not None
        return self.owner.edges.thing(self.edge_number)

    def __repr__(self) -> str:
        assert self.owner is not None
        return f"<edge {self.edge_number}: {self.owner.edge_name(self).removeprefix('edge ')}, weight {self.weight}>"


set_edge_number, set_graph = setter(Edge, "edge_number"), setter(Edge, "graph")
set_start, set_end, set_weight = setter(Edge, "start"), setter(Edge, "end"), setter(Edge, "weight")


class Link(Thing):
    """An undirected edge: as a literal it says that both of its directions, the edges `there` and `back`, are present.

    `ends` are its nodes as they were given. It has no start and no end, since walks follow it either way.
    """

    __slots__ = ("there", "back")
    there: Edge
    back: Edge

    def __init__(self, there: Edge, back: Edge) -> None:
        set_number(self, there.number)
        set_owner(self, there.owner)
        object.__setattr__(self, "there", there)
        object.__setattr__(self, "back", back)

    @property
    def identity(self) -> int:
        return self.there.edge_number

    @property
    def graph(self) -> int:
        """The number of its graph."""
        return self.there.graph

    @property
    def ends(self) -> tuple[int, int]:
        """Its two nodes."""
        return self.there.start, self.there.end

    @property
    def weight(self) -> int:
        """Its length, capacity (each way) or cost."""
        return self.there.weight

    def __repr__(self) -> str:
        assert self.owner is not None
        return f"<{self.owner.link_name(self)}, weight {self.weight}>"


class Kind(enum.Enum):
    """What a predicate speaks of."""

    REACH = "reach"
    DISTANCE = "distance"
    WEIGHTED_DISTANCE = "weighted distance"
    MAXIMUM_FLOW = "maximum flow"
    MST_WEIGHT = "spanning tree"
    ACYCLIC = "cycles"


# A predicate's word in the files: its kind, and what makes its bound one of the form 'at most' or 'at least'.
WORDS = {
    "reach": (Kind.REACH, 0),
    "distance_leq": (Kind.DISTANCE, 0),
    "distance_lt": (Kind.DISTANCE, -1),
    "weighted_distance_leq": (Kind.WEIGHTED_DISTANCE, 0),
    "weighted_distance_lt": (Kind.WEIGHTED_DISTANCE, -1),
    "maximum_flow_geq": (Kind.MAXIMUM_FLOW, 0),
    "maximum_flow_gt": (Kind.MAXIMUM_FLOW, 1),
    "mst_weight_leq": (Kind.MST_WEIGHT, 0),
    "mst_weight_lt": (Kind.MST_WEIGHT, -1),
    "acyclic": (Kind.ACYCLIC, 0),
}
WITHOUT_ENDS = (Kind.MST_WEIGHT, Kind.ACYCLIC)
WITHOUT_BOUND = (Kind.REACH, Kind.ACYCLIC)


class Predicate(Thing):
    """A predicate over a graph; as a literal it says that the predicate holds.

    `predicate_number` counts from 1 over the whole problem. `ends` are the nodes from and to which it speaks (none for
    spanning trees and cycles), and `bound` is the number in the file (none for `reach` and `acyclic`).
    """

    __slots__ = ("predicate_number", "graph", "word", "ends", "bound")
    predicate_number: int
    graph: int
    word: str
    ends: tuple[int, int] | None
    bound: int | None

    def __init__(
        self,
        number: int,
        predicate_number: int,
        graph: int,
        word: str,
        ends: tuple[int, int] | None,
        bound: int | None,
        *,
        owner: Problem,
    ) -> None:
        fields = (("predicate_number", predicate_number), ("graph", graph), ("word", word), ("ends", ends))
        for name, value in (("number", number), ("owner", owner), *fields, ("bound", bound)):
            object.__setattr__(self, name, value)

    @property
    def identity(self) -> int:
        return self.predicate_number

    @property
    def kind(self) -> Kind:
        """What it speaks of."""
        return WORDS[self.word][0]

    @property
    def limit(self) -> int | None:
        """Its bound in the form 'at most' or 'at least'; so `distance_lt` 5 has the limit 4."""
        return None if self.bound is None else self.bound + WORDS[self.word][1]

    @property
    def fields(self) -> str:
        """What stands behind its word in the files."""
        numbers = [self.graph, *(self.ends or ()), self.variable]
        return " ".join(map(str, numbers if self.bound is None else [*numbers, self.bound]))

    def __str__(self) -> str:
        ends = "" if self.ends is None else f" from {self.ends[0]} to {self.ends[1]}"
        return f"{self.word}{ends}" + ("" if self.bound is None else f", {self.bound}")

    def __repr__(self) -> str:
        assert self.owner is not None
        return f"<predicate {self.predicate_number}: {self.owner.predicate_name(self)}>"


def required(literal: object) -> Literal:
    """The literal. `TypeError`: it is none."""
    if not isinstance(literal, Literal):
        known = "variables, edges and predicates are, and their negations by ~"
        raise TypeError(f"{literal!r} is no literal: {known}{meant(literal)}")
    return literal


def meant(given: object) -> str:
    """What may have been meant by what is no literal."""
    if isinstance(given, bool):
        return "; what `==` and `in` say in Python is none"
    if isinstance(given, int) and hasattr(given, "graph"):
        return "; this is a node, and `graph.reach(a, b)` and its like speak of nodes"
    return f"; problem.literal({given}) is the one of that number" if isinstance(given, int) and given else ""


def unpacked(given: tuple[Any, ...]) -> Sequence[Any]:
    """What is given one by one or as one list."""
    if len(given) != 1 or isinstance(given[0], Literal) or not isinstance(given[0], Iterable):
        return given
    return list(given[0])


def listed(given: tuple[Any, ...]) -> list[Literal]:
    """Literals that are given one by one or as one list. `TypeError`: something else is among them."""
    return list(map(required, unpacked(given)))


def several(given: Any, what: str) -> list[Literal]:
    """Literals that are given as one list. `TypeError`: something else is given, as one literal without a list."""
    if isinstance(given, Literal) or not isinstance(given, Iterable):
        raise TypeError(f"{what} takes a list of literals, as [a, b], and {given!r} is none")
    return list(map(required, given))
