"""Writes SVG: lines with arrow heads, circles and text, in a picture as large as what is drawn."""

from __future__ import annotations

import math
import re
from collections.abc import Sequence
from html import escape

STEP = 90.0  # the distance of neighbours on a grid, in pixels
RADIUS = 20.0  # of a node
MARGIN = 34.0
SAMPLE = 44.0  # the length of a line beside its caption

INK = "#222222"
PALE = "#c4c4c4"
FONT = "font-family='Helvetica, Arial, sans-serif'"

# What no XML file may hold: control characters and the like. A file that was written by hand may have them in a name.
NOT_XML = re.compile("[^\t\n\r -\ud7ff\ue000-\ufffd\U00010000-\U0010ffff]")

Point = tuple[float, float]


class Picture:
    """Shapes in the order in which they are drawn, later ones on top."""

    def __init__(self) -> None:
        self.shapes: list[str] = []
        self.points: list[Point] = []

    def line(self, start: Point, end: Point, bend: float, colour: str, width: float, dashes: str, arrow: bool) -> None:
        """A line between two nodes, from rim to rim, bent aside by so many pixels."""
        middle = bent(start, end, bend)
        tip = RADIUS + (width + 4 if arrow else 0)
        begin, stop = towards(start, middle, RADIUS), towards(end, middle, tip)
        path = f"M{begin[0]:.1f} {begin[1]:.1f} Q{middle[0]:.1f} {middle[1]:.1f} {stop[0]:.1f} {stop[1]:.1f}"
        dashed = f" stroke-dasharray='{dashes}'" if dashes else ""
        self.shapes.append(f"<path d='{path}' fill='none' stroke='{colour}' stroke-width='{width:g}'{dashed}/>")
        if arrow:
            self.arrow_head(towards(end, middle, RADIUS), middle, colour, width)
        self.points.append(middle)

    def arrow_head(self, tip: Point, behind: Point, colour: str, width: float) -> None:
        """A triangle at the tip, pointing away from the point behind."""
        size = 6 + 1.5 * width
        back = towards(tip, behind, size)
        dx, dy = (tip[0] - back[0]) * 0.45, (tip[1] - back[1]) * 0.45
        corners = [tip, (back[0] - dy, back[1] + dx), (back[0] + dy, back[1] - dx)]
        self.shapes.append(f"<polygon points='{' '.join(f'{x:.1f},{y:.1f}' for x, y in corners)}' fill='{colour}'/>")

    def loop(self, at: Point, colour: str, width: float, dashes: str, wider: float = 0) -> Point:
        """A line from a node to itself, wider by so many pixels than usual; the point where a label belongs."""
        x, y = at
        dashed = f" stroke-dasharray='{dashes}'" if dashes else ""
        self.shapes.append(
            f"<circle cx='{x + RADIUS:.1f}' cy='{y - RADIUS:.1f}' r='{11 + wider:g}' fill='none' "
            f"stroke='{colour}' stroke-width='{width:g}'{dashed}/>"
        )
        return (x + RADIUS + 16, y - RADIUS - 12)

    def node(self, at: Point, text: str, fill: str, rim: str) -> None:
        """A node with what is written into it."""
        x, y = at
        self.points += [(x - RADIUS, y - RADIUS), (x + RADIUS, y + RADIUS)]
        self.shapes.append(
            f"<circle cx='{x:.1f}' cy='{y:.1f}' r='{RADIUS:g}' fill='{fill}' stroke='{rim}' stroke-width='2'/>"
        )
        size = 14 if len(text) <= 3 else 11 if len(text) <= 5 else 9
        self.text(at, text, INK, size, "middle")

    def text(self, at: Point, text: str, colour: str = INK, size: int = 12, anchor: str = "middle") -> None:
        """Text whose middle, or start, lies at the point; on lines it has a white rim."""
        x, y = at
        self.points.append(at)
        written = escape(NOT_XML.sub("\ufffd", text))
        self.shapes.append(
            f"<text x='{x:.1f}' y='{y + size * 0.35:.1f}' font-size='{size}' text-anchor='{anchor}' fill='{colour}' "
            f"stroke='white' stroke-width='3' paint-order='stroke' stroke-linejoin='round'>{written}</text>"
        )

    def sample(self, at: Point, colour: str, dashes: str) -> None:
        """A short line, which shows a kind of line beside its caption."""
        x, y = at
        style = f"stroke='{colour}' stroke-width='4.5' stroke-dasharray='{dashes}'"
        self.shapes.append(f"<path d='M{x:.1f} {y:.1f} h{SAMPLE:g}' fill='none' {style}/>")

    def written(self, captions: Sequence[tuple[str, tuple[str, str]]]) -> str:
        """The picture as a file, with captions below it: their texts, and the colours and dashes of their lines."""
        left = min((x for x, _ in self.points), default=0.0) - MARGIN
        top = min((y for _, y in self.points), default=0.0) - MARGIN
        bottom = max((y for _, y in self.points), default=0.0) + MARGIN
        for text, (colour, dashes) in captions:
            begin = left + MARGIN / 2
            if dashes:
                self.sample((begin, bottom), colour, dashes)
            self.text((begin + (SAMPLE + 8 if dashes else 0), bottom), text, colour, 13, "start")
            bottom += 20
        widest = max((len(text) + 8 * bool(pen[1]) for text, pen in captions), default=0)
        right = max(max((x for x, _ in self.points), default=0.0) + MARGIN, left + MARGIN + 6.9 * widest)
        bottom += 4 if captions else -MARGIN / 2
        box = f"{left:.0f} {top:.0f} {right - left:.0f} {bottom - top:.0f}"
        size = f"width='{right - left:.0f}' height='{bottom - top:.0f}'"
        background = f"<rect x='{left:.0f}' y='{top:.0f}' width='100%' height='100%' fill='white'/>"
        head = f"<svg xmlns='http://www.w3.org/2000/svg' viewBox='{box}' {size} {FONT}>"
        return "\n".join([head, background, *self.shapes, "</svg>", ""])


def beside(start: Point, end: Point, bend: float) -> Point:
    """The point where a label of a line belongs that is bent aside by so many pixels."""
    (x0, y0), (x1, y1) = start, end
    length, off = max(1.0, math.dist(start, end)), bend + 9
    along, aside = ((x1 - x0) / length, (y1 - y0) / length), (-(y1 - y0) / length, (x1 - x0) / length)
    return ((x0 + x1) / 2 + off * aside[0] + 6 * along[0], (y0 + y1) / 2 + off * aside[1] + 6 * along[1])


def along(start: Point, end: Point, bend: float, count: int = 24) -> list[Point]:
    """Points of a line between two nodes that is bent aside by so many pixels."""
    middle = bent(start, end, bend)
    found = []
    for place in range(1, count):
        t = place / count
        near, half, far = (1 - t) ** 2, 2 * t * (1 - t), t * t
        found.append(tuple(near * a + half * b + far * c for a, b, c in zip(start, middle, end)))
    return [(x, y) for x, y in found]


def bent(start: Point, end: Point, bend: float) -> Point:
    """The point towards which a line begins and ends that is bent aside by so many pixels."""
    (x0, y0), (x1, y1) = start, end
    length = max(1.0, math.dist(start, end))
    return ((x0 + x1) / 2 - 2 * bend * (y1 - y0) / length, (y0 + y1) / 2 + 2 * bend * (x1 - x0) / length)


def towards(start: Point, end: Point, by: float) -> Point:
    """The point that lies so far from the start in the direction of the end."""
    dx, dy = end[0] - start[0], end[1] - start[1]
    length = max(0.001, (dx * dx + dy * dy) ** 0.5)
    return (start[0] + dx * by / length, start[1] + dy * by / length)
