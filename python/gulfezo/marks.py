"""What a picture marks: a model's walks, cuts, flows, trees, orders and cycles, or the witness of a lemma."""

from __future__ import annotations

import itertools
from collections.abc import Iterable, Iterator
from dataclasses import dataclass, field
from typing import NamedTuple

from . import search
from .graph import Graph
from .layout import label
from .literals import Edge, Kind, Link, Predicate
from .model import Model
from .naming import so_many
from .problem import Problem
from .steps import Step

# Colours that most people tell apart (M. Okabe and K. Ito, "Color Universal Design", 2008), and kinds of lines, by
# which things are told apart that have the same colour.
COLOURS = ["#0072b2", "#d55e00", "#009e73", "#cc79a7", "#e69f00", "#56b4e9"]
DASHES = ["", "14 5", "4 4", "14 4 4 4"]
SIDE = "#fde9b8"  # fills the nodes of a cut's side


class Pen(NamedTuple):
    """A colour and the dashes of a line."""

    colour: str
    dashes: str = ""


class Caption(NamedTuple):
    """A line of text below a picture, and the pen of what it is about."""

    text: str
    pen: Pen


def pens() -> Iterator[Pen]:
    """Ever further pens, the first ones told apart by colour alone."""
    return (Pen(colour, dashes) for dashes in itertools.cycle(DASHES) for colour in COLOURS)


FIRST = Pen(COLOURS[0])
PLAIN = Pen("#222222")


@dataclass
class Marks:
    """What is to be seen beside the bare graph.

    `present` are numbers of edges that are there, and `against` of edges whose absence a lemma rests on. `strong` gives
    a marked edge its pens, `notes` an edge its label, `filled` a node its colour, and `labels` a node its label. Nodes
    that are `shown` are drawn although their graph hides them. Spanning trees ignore directions, so edges have no
    `arrows` where only trees are spoken of.
    """

    present: set[int] = field(default_factory=set)
    against: set[int] = field(default_factory=set)
    strong: dict[int, list[Pen]] = field(default_factory=dict)
    notes: dict[int, str] = field(default_factory=dict)
    filled: dict[int, str] = field(default_factory=dict)
    labels: dict[int, str] = field(default_factory=dict)
    shown: set[int] = field(default_factory=set)
    arrows: bool = True
    captions: list[Caption] = field(default_factory=list)

    def mark(self, edges: Iterable[Edge], pen: Pen) -> None:
        """Marks these edges, beside what has marked them already."""
        for edge in edges:
            pens = self.strong.setdefault(edge.edge_number, [])
            if pen not in pens:
                pens.append(pen)

    def note(self, edge: Edge, amount: int | None = None) -> None:
        """Labels an edge with its weight, or with what a flow sends along it, which says both."""
        known, said = self.notes.get(edge.edge_number, ""), str(edge.weight)
        if amount is not None:
            flows = known.split(", ") if "/" in known else []
            self.notes[edge.edge_number] = ", ".join(dict.fromkeys([*flows, f"{amount}/{said}"]))
        elif not known:
            self.notes[edge.edge_number] = said

    def say(self, text: str, pen: Pen = PLAIN) -> None:
        """A further caption."""
        self.captions.append(Caption(text, pen))

    def fill(self, nodes: Iterable[int], colour: str) -> None:
        """Fills these nodes."""
        self.filled.update(dict.fromkeys(nodes, colour))

    def rank(self, order: Iterable[int]) -> None:
        """Labels the nodes with their places in an order, from 1."""
        self.labels = {node: f"{place}." for place, node in enumerate(order, 1)}


def bare(graph: Graph) -> Marks:
    """The graph itself, with all its edges."""
    return Marks(present={edge.edge_number for edge in graph.edges}, arrows=has_directions(graph))


def of_model(model: Model, graph: Graph, chosen: Predicate | None, further: Iterator[Pen]) -> Marks:
    """What a model says of a graph: the chosen predicate, or all that hold, each with the next one of the pens."""
    marks = Marks(present={edge.edge_number for edge in model.present(graph)}, arrows=has_directions(graph))
    for predicate in model.problem.predicates:
        if predicate.graph == graph.identity and (predicate == chosen or chosen is None and model[predicate]):
            mark_predicate(marks, model, predicate, next(further))
    return marks


def mark_predicate(marks: Marks, model: Model, predicate: Predicate, pen: Pen) -> None:
    """Marks what shows that the predicate holds, or that it fails."""
    named = name_of(model.problem.graphs[predicate.graph], predicate)
    if model[predicate]:
        marks.say(f"{named}: {hold(marks, model, predicate, pen)}", pen)
    else:
        marks.say(f"{named} fails: {fail(marks, model, predicate, pen)}", pen)


def hold(marks: Marks, model: Model, predicate: Predicate, pen: Pen) -> str:
    """Marks the walk, flow or tree; what the caption says of it."""
    if predicate.kind is Kind.MAXIMUM_FLOW:
        flow = model.flow(predicate)
        marks.mark(flow, pen)
        for edge, amount in flow.items():
            marks.note(edge, amount)
        return f"a flow of {predicate.limit}, as amount/capacity"
    if predicate.kind is Kind.ACYCLIC:
        marks.rank(model.order(predicate))
        return "no cycle; each edge leads from a lower place to a higher one"
    edges = directed(model.tree(predicate)) if predicate.kind is Kind.MST_WEIGHT else model.walk(predicate)
    marks.mark(edges, pen)
    if predicate.kind in (Kind.MST_WEIGHT, Kind.WEIGHTED_DISTANCE):
        for edge in edges:
            marks.note(edge)
        what = "a tree" if predicate.kind is Kind.MST_WEIGHT else "a walk"
        return f"{what} of weight {sum(edge.weight for edge in edges)}, at most {predicate.limit}"
    within = "" if predicate.limit is None else f", at most {predicate.limit}"
    return f"a walk of {so_many(len(edges), 'edge')}{within}"


def directed(things: Iterable[Edge | Link]) -> list[Edge]:
    """These edges, and of each link the way there."""
    return [thing.there if isinstance(thing, Link) else thing for thing in things]


def fail(marks: Marks, model: Model, predicate: Predicate, pen: Pen) -> str:
    """Marks the shortest walk or lightest tree, which is beyond the bound, or fills the nodes on one side of a cut.

    What the caption says of it.
    """
    graph, ends = model.problem.graphs[predicate.graph], predicate.ends
    edges = model.present(graph)
    if predicate.kind is Kind.ACYCLIC:
        cycle = search.shortest_cycle(edges)
        assert cycle is not None, "the predicate fails, so there is a cycle"
        marks.mark(cycle, pen)
        return f"a cycle of {so_many(len(cycle), 'edge')}"
    if ends is None:
        tree = search.lightest_tree(len(graph), edges)
        if tree is not None:
            marks.mark(tree, pen)
            return f"the lightest tree weighs {sum(edge.weight for edge in tree)}, above {predicate.limit}"
        component = search.components(len(graph), edges)
        marks.fill((node for node, least in enumerate(component) if least == component[0]), SIDE)
        return "nothing joins the filled nodes with the others"
    if predicate.kind is Kind.MAXIMUM_FLOW:
        inside = search.narrowest_cut(edges, *ends)
        leaving = [edge for edge in edges if edge.start in inside and edge.end not in inside]
        marks.fill(inside, SIDE)
        marks.mark(leaving, pen)
        marks.notes.update({edge.edge_number: str(edge.weight) for edge in leaving})
        return f"what leaves the filled nodes can't carry {predicate.limit}"
    weighted = predicate.kind is Kind.WEIGHTED_DISTANCE
    walk = search.shortest_walk(edges, *ends, weighted)
    if walk is None:
        marks.fill(search.reached(edges, ends[0]), SIDE)
        return "no edge leaves the filled nodes"
    marks.mark(walk, pen)
    length = f"weighs {sum(edge.weight for edge in walk)}" if weighted else f"has {so_many(len(walk), 'edge')}"
    return f"the shortest walk {length}, above {predicate.limit}"


def of_lemma(problem: Problem, step: Step) -> Marks:
    """What a lemma says: its witness, and the edges on which it rests, also at nodes that are hidden."""
    predicate = problem.predicates[(step.predicate or 0) - 1]
    graph = problem.graphs[predicate.graph]
    edges = {edge.edge_number: edge for edge in graph.edges}
    literals = set(step.clause)
    marks = Marks(arrows=predicate.kind is not Kind.MST_WEIGHT)
    if step.rests_on_present:
        marks.present = {number for number, edge in edges.items() if -edge.number in literals}
    else:
        marks.against = {number for number, edge in edges.items() if edge.number in literals}
        marks.present = set(edges) - marks.against
    said = witness(marks, step, edges, predicate.kind is Kind.WEIGHTED_DISTANCE)
    marks.shown = {end for n in marks.against | set(marks.strong) for end in (edges[n].start, edges[n].end)}
    named = name_of(graph, predicate) + ("" if predicate.bound is None else f" with bound {predicate.bound}")
    holds = "holds" if step.shows_that_it_holds else "fails"
    marks.say(f"{step.word} lemma, clause {step.number}: {named} {holds}", FIRST)
    marks.say(said)
    if marks.against:
        marks.say("it rests on the absence of the dashed edges", Pen(COLOURS[1]))
    return marks


def witness(marks: Marks, step: Step, edges: dict[int, Edge], weighted: bool) -> str:
    """Marks the list behind a lemma's clause; what the caption says of it. Labels may be `weighted` distances."""
    if step.word in ("path", "tree", "least", "cycle"):
        return walk_or_tree(marks, step, edges)
    if step.word == "flow":
        marks.mark((edges[number] for number, amount in step.pairs if amount), FIRST)
        marks.notes.update({number: f"{amount}/{edges[number].weight}" for number, amount in step.pairs if amount})
        return "a flow, as amount/capacity"
    if step.word == "order":
        marks.rank(step.listed)
        return "each edge that may be present leads from a lower place to a higher one"
    if step.word == "label":
        marks.labels = {node: str(value) for node, value in step.pairs}
        marks.fill(marks.labels, SIDE)
        if weighted:
            marks.notes.update({n: str(edges[n].weight) for n in marks.present})
        return "no edge leads to a label greater by more than its length; other nodes are too far"
    return side(marks, step, edges)


def walk_or_tree(marks: Marks, step: Step, edges: dict[int, Edge]) -> str:
    """Marks the edges of a walk, a cycle or a spanning tree; what the caption says of it."""
    chosen = [edges[number] for number in step.listed]
    marks.mark(chosen, FIRST)
    if step.word == "cycle":
        return f"a cycle of {so_many(len(chosen), 'edge')}"
    noted = edges.values() if step.word == "least" else chosen
    marks.notes.update({edge.edge_number: str(edge.weight) for edge in noted})
    weight = sum(edge.weight for edge in chosen)
    if step.word == "path":
        return f"a walk of {so_many(len(chosen), 'edge')} and of weight {weight}"
    if step.word == "tree":
        return f"a spanning tree of weight {weight}"
    return f"a lightest spanning tree of the edges that may be present weighs {weight}"


def side(marks: Marks, step: Step, edges: dict[int, Edge]) -> str:
    """Fills the nodes on one side of a cut; what the caption says of it."""
    marks.fill(step.listed, SIDE)
    if step.word == "flowcut":
        inside = set(step.listed)
        out = [n for n in marks.present if edges[n].start in inside and edges[n].end not in inside]
        marks.mark((edges[n] for n in out), FIRST)
        marks.notes.update({n: str(edges[n].weight) for n in out})
        return f"what may still leave the filled nodes carries {sum(edges[n].weight for n in out)}"
    joins = "joins the filled nodes with the others" if step.word == "split" else "leaves the filled nodes"
    return f"no edge that may be present {joins}"


def name_of(graph: Graph, predicate: Predicate) -> str:
    """The predicate by its graph's name, its word and the labels of its ends."""
    ends = "" if predicate.ends is None else " " + " to ".join(label(graph, node) for node in predicate.ends)
    return (f"{graph.name}, " if graph.name else "") + predicate.word + ends


def has_directions(graph: Graph) -> bool:
    """Whether a predicate over the graph, or none at all, cares for the directions of its edges."""
    kinds = {p.kind for p in graph.problem.predicates if p.graph == graph.identity}
    return kinds != {Kind.MST_WEIGHT}
