"""Writes the page: one HTML file with everything in it, which needs no network."""

from __future__ import annotations

import json
from collections.abc import Iterator
from html import escape
from pathlib import Path
from typing import Any

from ..draw import drawing
from ..literals import Kind
from ..model import Model
from ..naming import so_many
from ..problem import Problem
from ..steps import Derivation
from .data import packed_refutation

MOST_PREDICATES = 200  # that the page lists
MOST_DRAWN = 4_000  # edges of a picture


def page(title: str, problem: Problem, answer: Model | Derivation, verdict: str) -> str:
    """The page about an answer, of which `check` says the verdict."""
    here = Path(__file__).parent
    body = [f"<h1>{escape(title)}</h1>", f"<p id='verdict' class='{verdict.split(' ')[0]}'>{escape(verdict)}</p>"]
    body += [asked(problem, answer)]
    script = ""
    if isinstance(answer, Model):
        body += [picture(problem, answer), predicates(problem, answer)]
    else:
        body += [predicates(problem, None), steps_of(answer)]
        data = json.dumps(packed_refutation(problem, answer), separators=(",", ":")).replace("<", "\\u003c")
        script = f"<script>const DATA = {data};\n{(here / 'page.js').read_text()}</script>"
    style = f"<style>{(here / 'page.css').read_text()}</style>"
    head = f"<!doctype html>\n<html lang='en'><head><meta charset='utf-8'><title>{escape(title)}</title>{style}</head>"
    return "\n".join([head, "<body>", *body, script, "</body></html>", ""])


def asked(problem: Problem, answer: Model | Derivation) -> str:
    """How large the problem is, what was assumed, and what the answer has."""
    sizes = {"variable": problem.variables, "clause": len(problem.clauses), "graph": len(problem.graphs)}
    sizes |= {"node": problem.nodes, "edge": len(problem.edges), "predicate": len(problem.predicates)}
    parts = [", ".join(so_many(amount, what) for what, amount in sizes.items())]
    if isinstance(answer, Derivation) and answer.assumptions:
        literals = (problem.described(problem.literal(number)) for number in answer.assumptions)
        parts.append("assumed: " + ", ".join(literals))
    parts.append(str(answer.statistics))
    return "<h2>What was asked</h2>" + "".join(f"<p>{escape(part)}</p>" for part in parts)


def predicates(problem: Problem, model: Model | None) -> str:
    """The predicates, how each is required, and what a model says of it."""
    units = {clause[0] for clause in problem.clauses if len(clause) == 1}
    rows = []
    for x in problem.predicates[:MOST_PREDICATES]:
        wanted = "it is required" if x.number in units else "it is ruled out" if -x.number in units else ""
        cells = [str(x.predicate_number), problem.predicate_name(x), wanted]
        if model is not None:
            cells.append(found(model, x) if model[x] else "it fails")
        rows.append("<tr>" + "".join(f"<td>{escape(cell)}</td>" for cell in cells) + "</tr>")
    more = len(problem.predicates) - len(rows)
    told = f"<p>and {more:,} more</p>" if more > 0 else ""
    return f"<h2>Predicates</h2><table>{''.join(rows)}</table>{told}" if rows else ""


def found(model: Model, predicate: Any) -> str:
    """What shows in a model that a predicate holds."""
    if predicate.kind is Kind.MAXIMUM_FLOW:
        return f"it holds: a flow of {predicate.limit} over {so_many(len(model.flow(predicate)), 'edge')}"
    if predicate.kind is Kind.ACYCLIC:
        return "it holds: no circle"
    things = model.tree(predicate) if predicate.kind is Kind.MST_WEIGHT else model.path(predicate)
    what = "a tree" if predicate.kind is Kind.MST_WEIGHT else "a walk"
    return f"it holds: {what} of {so_many(len(things), 'edge')}, of weight {sum(thing.weight for thing in things)}"


def picture(problem: Problem, model: Model) -> str:
    """The picture of a model, where there is something to draw that one can see."""
    graphs = [graph for graph in problem.graphs.values() if len(graph) and not graph.hidden]
    if not graphs or sum(len(graph.edges) for graph in graphs) > MOST_DRAWN:
        return "<p>no picture: the problem has no graph, or graphs of too many edges to be seen</p>" * bool(graphs)
    return f"<h2>The picture</h2><div class='picture'>{drawing(problem, model)}</div>"


def steps_of(answer: Derivation) -> str:
    """The part of the page on which the script shows a refutation's steps."""
    return "\n".join(part for part in steps_parts(len(answer.steps)))


def steps_parts(count: int) -> Iterator[str]:
    """Its elements."""
    yield f"<h2>The refutation in {so_many(count, 'step')}</h2>"
    yield "<p>Each step's clause is true in every model. The last one is empty: nothing makes it true.</p>"
    yield "<div id='filters'></div>"
    yield "<div id='view'><div id='list' tabindex='0'><div id='rows'></div></div><div id='step'></div></div>"
    yield "<noscript><p>The steps are shown by a script, which this browser doesn't run.</p></noscript>"
