"""The page of a run: the tree of its cubes with their times, in one file that needs no other."""

from __future__ import annotations

import html
import re
from collections.abc import Iterator

from .tree import Cube, State, Tree

NAME = re.compile(rb"^c variable ([0-9]{1,10}) (.+)$", re.MULTILINE)
OPEN_TO = 6  # levels that are unfolded at first
STYLE = """
body { font: 14px sans-serif; margin: 2em; color: #222; }
ul { list-style: none; padding-left: 1.4em; margin: 0; border-left: 1px solid #ccc; }
summary, li > div { padding: 1px 0; white-space: nowrap; }
i { display: inline-block; height: 0.8em; background: #4477aa; vertical-align: middle; margin: 0 0.5em; }
.refuted i { background: #228833; } .model i { background: #ee6677; } .open i, .running i { background: #bbbbbb; }
small { color: #666; }
"""


def names_of(problem: bytes) -> dict[int, str]:
    """The names of variables, which a problem's file has as comments."""
    return {int(found[1]): found[2].decode("utf-8", "replace").strip() for found in NAME.finditer(problem)}


def text(literal: int, names: dict[int, str]) -> str:
    """A literal by its name, where it has one."""
    name = names.get(abs(literal), f"variable {abs(literal)}")
    return name if literal > 0 else f"not {name}"


def seconds_of(tree: Tree) -> dict[int, float]:
    """The processor time of each cube and all that were made of it, by its number."""
    found = {cube.number: cube.seconds for cube in tree.cubes}
    for cube in reversed(tree.cubes):
        found[cube.number] += sum(found[child.number] for child in cube.children)
    return found


def page(title: str, tree: Tree, names: dict[int, str]) -> str:
    """The page's text."""
    sums = seconds_of(tree)
    leaves = list(tree.leaves())
    refuted = sum(cube.state is State.REFUTED for cube in leaves)
    longest = max(cube.seconds for cube in tree.cubes)
    facts = f"{len(leaves)} cubes, {refuted} of them refuted; {sums[1]:.1f} s of processor time in all, " + (
        f"{longest:.1f} s for the longest run of one"
    )
    head = f"<title>{html.escape(title)}</title><style>{STYLE}</style>"
    legend = "A bar is the time of a cube with all that were made of it; green cubes are refuted."
    rows = "".join(rows_of(tree, names, sums))
    body = f"<h1>{html.escape(title)}</h1><p>{facts}.</p><p><small>{legend}</small></p><ul>{rows}</ul>"
    return f"<!DOCTYPE html><html lang='en'><head><meta charset='utf-8'>{head}</head><body>{body}</body></html>\n"


def rows_of(tree: Tree, names: dict[int, str], sums: dict[int, float]) -> Iterator[str]:
    """The rows of all cubes, each inner one with its children within it."""
    waiting: list[Cube | str] = [tree.cubes[0]]
    while waiting:
        cube = waiting.pop()
        if isinstance(cube, str):
            yield cube
            continue
        said = row_of(cube, names, sums)
        if not cube.children:
            yield f"<li class='{cube.state.value}'><div>{said}</div></li>"
            continue
        is_open = " open" if len(cube.literals) < OPEN_TO else ""
        yield f"<li class='split'><details{is_open}><summary>{said}</summary><ul>"
        waiting += ["</ul></details></li>", *reversed(cube.children)]


def row_of(cube: Cube, names: dict[int, str], sums: dict[int, float]) -> str:
    """What a row says of a cube: its last literal, its time, what came of it, and where."""
    last = text(cube.literals[-1], names) if cube.literals else "the problem"
    wide = 300 * sums[cube.number] / (sums[1] or 1)
    came = f"split on {text(cube.branch, names)}" if cube.children else cube.state.value
    worker = f", {html.escape(cube.worker)}" if cube.worker else ""
    again = f", done again {cube.rejected} times" if cube.rejected else ""
    bar = f"<i style='width: {wide:.1f}px' title='with what was made of it: {sums[cube.number]:.1f} s'></i>"
    facts = f"<small>{html.escape(came)}, {cube.seconds:.2f} s{worker}{again} (cube {cube.number})</small>"
    return f"{html.escape(last)}{bar}{facts}"
