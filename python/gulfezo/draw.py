"""Draws a problem's graphs: gulfezo-draw FILE [ANSWER] -o out.svg [--predicate N | --lemma N] [--graph G]

With a model it draws present edges dark and absent ones pale, and marks a walk, flow, tree or order for each predicate
that holds; `--predicate N` chooses one predicate, also one that fails, for which it fills the nodes of a cut or marks a
cycle. With a refutation it draws the lemma whose clause has the number `--lemma N`, or the first lemma, of the graph
`--graph G` where one is chosen, by its number or its name. Without an answer it draws the bare graphs. An answer of
`core` is judged under the core that it names, and `--best ATOM` says that it is what `best FILE ATOM` wrote: its model,
or with `--lemma N` its refutation. Graphs whose nodes have the same names lie upon each other; others stand beside each
other. Graphs of sums, and others that are hidden, are drawn where they are chosen. The picture is an .svg, .png or .pdf
file.
"""

from __future__ import annotations

import argparse
import sys
from collections.abc import Sequence

from . import marks as marking
from .answer import Answer
from .asked import Judged, judged_answer, model_of_best
from .best import Incumbent
from .cores import Core
from .errors import GulfezoError
from .files import write_picture
from .graph import Graph
from .model import Model
from .panels import drawn
from .problem import Problem
from .reading import read_problem
from .steps import Derivation, Step

Drawn = Answer | Core | Incumbent | None


def drawing(
    problem: Problem,
    answer: Drawn = None,
    predicate: int = 0,
    lemma: int = 0,
    graph: int | str = -1,
    absent: bool = True,
) -> str:
    """An SVG file. `predicate`, `lemma` and `graph` choose by number (0 and -1: none is chosen), as the command does.

    A graph may be chosen by its name too. Of a core its refutation is drawn, of a best value its model, or with `lemma`
    its refutation. Without `absent`, edges that aren't there are left out. `ValueError`: there is no such one, or
    nothing to draw.
    """
    if isinstance(answer, Incumbent):
        answer = answer.refutation if lemma else answer.kept
        problem = problem if answer is None else answer.problem
    elif isinstance(answer, Core):
        answer = answer.refutation
    if answer is not None and not isinstance(answer, (Model, Derivation)):
        raise TypeError(f"{answer!r} is no answer: a model, a refutation, a core or a best value is drawn")
    chosen = number_of(problem, graph)
    if answer is None:
        return drawn([(g, marking.bare(g)) for g in chosen_graphs(problem, predicate, chosen)])
    if isinstance(answer, Model):
        if lemma:
            raise ValueError("a model has no lemmas: `predicate` chooses what is drawn of it")
        one = problem.predicates[predicate - 1] if 0 < predicate <= len(problem.predicates) else None
        further = marking.pens()
        graphs = chosen_graphs(problem, predicate, chosen)
        return drawn([(g, marking.of_model(answer, g, one, further)) for g in graphs], absent)
    if predicate:
        raise ValueError("no predicate of a refutation is drawn: `lemma` chooses the lemma, by its clause's number")
    step = answer.step(lemma) if lemma else first_lemma(problem, answer, chosen)
    if step.predicate is None:
        numbers = ", ".join(str(step.number) for step in answer.lemmas[:9])
        raise ValueError(f"clause {lemma} is a chain and speaks of no graph; lemmas have the numbers {numbers}")
    answer.require_graph(graph_of(problem, step))
    return drawn([(graph_of(problem, step), marking.of_lemma(problem, step))])


def shown_in_notebook(problem: Problem, answer: Answer | None, graph: int = -1) -> str | None:
    """The picture that Jupyter shows of an object; None, and so its `repr`, where there is nothing to draw."""
    try:
        return drawing(problem, answer, graph=graph)
    except ValueError:
        return None


def number_of(problem: Problem, graph: int | str) -> int:
    """The number of a graph that is chosen by its number or its name; -1 where none is. `ValueError`: there is none."""
    if isinstance(graph, int):
        return graph
    named = [found.identity for found in problem.graphs.values() if found.name == graph]
    if len(named) > 1:
        raise ValueError(f"the graphs {', '.join(map(str, named))} have the name {graph!r}: choose one by its number")
    if named:
        return named[0]
    if graph.isdigit() and int(graph) in problem.graphs:
        return int(graph)
    raise ValueError(no_graph(problem, graph))


def first_lemma(problem: Problem, answer: Derivation, graph: int) -> Step:
    """The first lemma, of that graph where one is chosen. `ValueError`: there is none."""
    found = (step for step in answer.lemmas if graph < 0 or graph_of(problem, step).identity == graph)
    for step in found:
        return step
    what = "no lemma" if graph < 0 else f"no lemma about graph {graph}"
    raise ValueError(f"the answer has {what}, so there is nothing to draw")


def graph_of(problem: Problem, lemma: Step) -> Graph:
    """The graph that a lemma is about. `ValueError`: the problem has no such predicate."""
    number = lemma.predicate or 0
    if not 0 < number <= len(problem.predicates):
        raise ValueError(f"clause {lemma.number} is about predicate {number}, which the problem doesn't have")
    return problem.graphs[problem.predicates[number - 1].graph]


def chosen_graphs(problem: Problem, predicate: int, graph: int) -> list[Graph]:
    """The graph that is chosen, or that of the chosen predicate, or all that have nodes and aren't hidden."""
    if not 0 <= predicate <= len(problem.predicates):
        raise ValueError(f"there is no predicate {predicate}: the problem has {len(problem.predicates)}, from 1")
    if predicate:
        graph = problem.predicates[predicate - 1].graph
    if graph >= 0 and graph not in problem.graphs:
        raise ValueError(no_graph(problem, graph))
    found = [g for g in problem.graphs.values() if len(g) and graph in (-1, g.identity)]
    if not found:
        raise ValueError("the problem has no graph with nodes to draw")
    return [g for g in found if not g.hidden] or found


def no_graph(problem: Problem, graph: int | str) -> str:
    """What is said where a graph is chosen that isn't there."""
    known = (f"{g.identity} {g.name}".strip() for g in problem.graphs.values())
    return f"there is no graph {graph}: the problem has {', '.join(known) or 'none'}"


def number(text: str) -> int:
    """A number from 1, as a predicate or a clause has it."""
    found = int(text)
    if found < 1:
        raise ValueError
    return found


def read(given: argparse.Namespace) -> Judged:
    """The problem and the answer of the files; the answer is drawn only where `check` accepts it."""
    if given.answer is None:
        return Judged(read_problem(given.file), None, "")
    if given.best is not None and not given.lemma:
        return model_of_best(given.file, given.answer, given.best, given.unchecked)
    return judged_answer(given.file, given.answer, given.assume, given.best, given.unchecked)


def parser() -> argparse.ArgumentParser:
    """The words of the command."""
    made = argparse.ArgumentParser(prog="gulfezo-draw", description=(__doc__ or "").split("\n", maxsplit=1)[0])
    made.add_argument("file", metavar="FILE", help="the problem")
    made.add_argument("answer", metavar="ANSWER", nargs="?", help="an answer to it that `gulfezo check` accepts")
    made.add_argument("-o", metavar="FILE", dest="out", required=True, help="the picture: .svg, .png or .pdf")
    made.add_argument("--predicate", metavar="N", type=number, help="draw this predicate of a model, from 1")
    made.add_argument("--lemma", metavar="N", type=number, help="draw the lemma whose clause has this number")
    made.add_argument("--graph", metavar="G", help="draw this graph alone, by its number or its name")
    made.add_argument("--assume", metavar="LIT", nargs="+", type=int, default=[], help="what the answer assumes")
    made.add_argument("--best", metavar="ATOM", type=number, help="ANSWER is what `best FILE ATOM` wrote")
    made.add_argument("--no-absent", action="store_true", help="leave out the edges that a model doesn't have")
    made.add_argument("--unchecked", action="store_true", help="don't run `gulfezo check` on the answer")
    return made


def main(words: Sequence[str] | None = None) -> int:
    """Ends with 0 where the picture was written, and with 1, and a message on standard error, where there is none."""
    given = parser().parse_args(words)
    try:
        found = read(given)
        graph = -1 if given.graph is None else given.graph
        chosen = given.predicate or 0, given.lemma or 0
        write_picture(given.out, drawing(found.problem, found.answer, *chosen, graph, not given.no_absent))
    except (GulfezoError, OSError, ValueError) as fault:
        print(f"gulfezo-draw: {fault}", file=sys.stderr)
        return 1
    except (AssertionError, LookupError):
        if not given.unchecked:
            raise
        print("gulfezo-draw: the answer doesn't fit the problem; `gulfezo check` names the line", file=sys.stderr)
        return 1
    return 0


if __name__ == "__main__":
    sys.exit(main())
