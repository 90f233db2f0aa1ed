"""Draws graphs with their marks: upon each other where their nodes have the same names, else beside each other."""

from __future__ import annotations

import math
from collections import defaultdict
from dataclasses import dataclass, replace

from . import layout, svg
from .graph import Graph
from .literals import Edge
from .marks import COLOURS, PLAIN, Marks, Pen

View = tuple[Graph, Marks]

# How an edge is drawn by its height: its colour, its width, and its dashes.
STYLES = [(svg.PALE, 1.2, "3 4"), (svg.INK, 1.6, ""), (COLOURS[1], 1.8, "6 5"), (COLOURS[0], 4.5, "")]


# A long line that would run through a node is bent aside by the first of these that keeps clear of all nodes; in graphs
# of more nodes nobody would see it.
BENDS = (34.0, -34.0, 60.0, -60.0, 90.0, -90.0)
MOST_NODES = 150
LONG, CLEAR = 1.2 * svg.STEP, svg.RADIUS + 4
# How wide the lines of an edge are that several things have marked, how far they are bent apart, and all at most.
NARROW, BESIDE, FAN = 3.0, 5.0, 40.0
Taken = tuple[int, int, float]  # two nodes, and the bend of a line from the first to the second


@dataclass(frozen=True)
class Line:
    """An edge as it is drawn: bent aside by so many pixels, with an arrow head or without.

    `pens` are those of all that has marked it, each of which has a line of its own: along the edge, or where it is
    false against it, of a link's other direction. `note` is what stands beside it.
    """

    edge: Edge
    marks: Marks
    bend: float
    arrow: bool
    pens: dict[Pen, bool]
    note: str = ""

    @property
    def height(self) -> int:
        """Which edges lie on top: marked ones over those a lemma rests on, over present ones, over absent ones."""
        return height(self.edge, self.marks)

    def draw(self, picture: svg.Picture, at: list[svg.Point]) -> svg.Point:
        """Draws it between its nodes; the point where its label belongs."""
        colour, width, dashes = STYLES[self.height]
        start, end = at[self.edge.start], at[self.edge.end]
        pens = self.pens or {Pen(colour, dashes): True}
        apart = min(BESIDE, FAN / len(pens))
        for place, (pen, along) in enumerate(pens.items()):
            aside, width = apart * (place - (len(pens) - 1) / 2), width if len(pens) == 1 else NARROW
            bend = self.bend + aside
            if self.edge.start == self.edge.end:
                label = picture.loop(start, pen.colour, width, pen.dashes, aside)
                continue
            way = (start, end, bend) if along or not self.arrow else (end, start, -bend)
            picture.line(*way, pen.colour, width, pen.dashes, self.arrow)
            label = svg.beside(start, end, bend)
        return label


def height(edge: Edge, marks: Marks) -> int:
    """See `Line.height`."""
    number = edge.edge_number
    return 3 if number in marks.strong else 2 if number in marks.against else int(number in marks.present)


def drawn(views: list[View], absent: bool = True) -> str:
    """The picture of these graphs with what is marked in each, with absent edges or without, as an SVG file."""
    panels: defaultdict[tuple[str, ...] | int, list[View]] = defaultdict(list)
    for graph, marks in views:
        panels[tuple(graph.names) if all(graph.names) else graph.identity].append((graph, marks))
    picture, left, captions = svg.Picture(), 0.0, []
    for panel in panels.values():
        graph, marks = panel[0]
        places = layout.places(graph, [edge for edge in graph.edges if edge.edge_number in marks.present])
        hidden = hidden_in(panel)
        seen = [x for node, (x, _) in enumerate(places) if node not in hidden]
        first = min(seen, default=0.0)
        at = [((x - first) * svg.STEP + left, y * svg.STEP) for x, y in places]
        left += (max(seen, default=0.0) - first + 2) * svg.STEP
        draw_edges(picture, panel, at, absent)
        draw_nodes(picture, panel, at)
        for _, marks in panel:
            captions += marks.captions
    return picture.written(captions)


def hidden_in(panel: list[View]) -> set[int]:
    """The nodes that are left out of a panel: those that its first graph hides, but for what is to be shown."""
    return panel[0][0].hidden_nodes.difference(*(marks.shown for _, marks in panel))


def draw_edges(picture: svg.Picture, panel: list[View], at: list[svg.Point], absent: bool) -> None:
    """The edges, those that are marked on top, and then their labels."""
    lines = [line for graph, marks in panel for line in lines_of(graph, marks) if absent or line.height]
    hidden = hidden_in(panel)
    nodes = [node for node in range(len(panel[0][0])) if node not in hidden]
    if len(nodes) <= MOST_NODES:
        taken: set[Taken] = set()
        lines = [around(line, at, nodes, taken) for line in lines]
    notes = []
    for line in sorted(lines, key=lambda line: line.height):
        place = line.draw(picture, at)
        if line.note:
            notes.append((place, line.note, next(iter(line.pens), PLAIN).colour))
    for place, note, colour in notes:
        picture.text(place, note, colour, 11)


def around(line: Line, at: list[svg.Point], nodes: list[int], taken: set[Taken]) -> Line:
    """The line, bent where it would run through one of these nodes that it doesn't join, and not as one before it."""
    ends = line.edge.start, line.edge.end
    start, end = at[ends[0]], at[ends[1]]
    if math.dist(start, end) < LONG:
        return line
    others = [at[node] for node in nodes if node not in ends]
    for bend in (line.bend, *BENDS):
        side = (*ends, bend) if ends[0] < ends[1] else (*ends[::-1], -bend)
        points = svg.along(start, end, bend)
        if side not in taken and all(math.dist(point, other) > CLEAR for other in others for point in points):
            taken.add(side)
            return replace(line, bend=bend)
    return line


def draw_nodes(picture: svg.Picture, panel: list[View], at: list[svg.Point]) -> None:
    """The nodes, each with the rim of a marked edge and its labels."""
    rims, names, hidden = rims_of(panel), panel[0][0], hidden_in(panel)
    for node, place in enumerate(at):
        if node in hidden:
            continue
        fill = next((marks.filled[node] for _, marks in panel if node in marks.filled), "white")
        picture.node(place, layout.label(names, node), fill, rims.get(node, svg.INK))
        for _, marks in panel:
            if node in marks.labels:
                beside = (place[0] + svg.RADIUS + 4, place[1] + svg.RADIUS)  # loops are above
                picture.text(beside, marks.labels[node], COLOURS[0])


def rims_of(panel: list[View]) -> dict[int, str]:
    """The colour of a marked edge at each node that has one."""
    rims: dict[int, str] = {}
    for graph, marks in panel:
        for edge in graph.edges:
            for pen in marks.strong.get(edge.edge_number, ())[:1]:
                rims.setdefault(edge.start, pen.colour)
                rims.setdefault(edge.end, pen.colour)
    return rims


def lines_of(graph: Graph, marks: Marks) -> list[Line]:
    """The edges as lines; those between the same nodes are bent apart.

    Two edges there and back, of one variable and one weight, are one line, with an arrow head only for a flow.
    """
    bundles: defaultdict[tuple[int, int], list[Line]] = defaultdict(list)
    waiting: dict[tuple[int, int, int, int], list[int]] = {}
    hidden = graph.hidden_nodes - marks.shown
    for edge in graph.edges:
        if edge.start in hidden or edge.end in hidden:
            continue
        pair = (min(edge.start, edge.end), max(edge.start, edge.end))
        back = waiting.get((edge.end, edge.start, edge.number, edge.weight))
        pens, note = marks.strong.get(edge.edge_number, ()), marks.notes.get(edge.edge_number, "")
        line = Line(edge, marks, 0.0, marks.arrows, dict.fromkeys(pens, True), note)
        if back and edge.start != edge.end:
            place = back.pop()
            bundles[pair][place] = both_ways(bundles[pair][place], line)
        else:
            waiting.setdefault((edge.start, edge.end, edge.number, edge.weight), []).append(len(bundles[pair]))
            bundles[pair].append(line)
    lines = []
    for (low, _), bundle in bundles.items():
        for place, line in enumerate(bundle):
            bend = 22.0 * (place - (len(bundle) - 1) / 2)
            lines.append(replace(line, bend=bend if line.edge.start == low else -bend))
    return lines


def both_ways(there: Line, back: Line) -> Line:
    """A link's directions as one line: of the one that is marked, and of two such the one that carries something."""
    line, other = (back, there) if importance(back) > importance(there) else (there, back)
    flows = [each.note for each in (line, other) if carries(each)]
    pens = line.pens | {pen: False for pen in other.pens if pen not in line.pens}
    return replace(line, arrow=bool(flows), pens=pens, note=", ".join(dict.fromkeys(flows)) or line.note)


def importance(line: Line) -> tuple[int, bool]:
    """How much a line of either direction of a link says."""
    return line.height, carries(line)


def carries(line: Line) -> bool:
    """Whether a flow goes along the line."""
    return "/" in line.note
