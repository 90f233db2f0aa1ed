"""Compares `best` and `ask` with trying all assignments, on small problems: bounds.py [--rounds N] [--first SEED]

Each seed makes one problem, mostly with some of its clauses left out, and draws the number of a predicate, now and
then one that the problem lacks or one without a bound. The best bound is the best value that the predicate has under
any assignment that satisfies the problem: the least cost of a walk or a spanning tree, the greatest value of a flow.
`best` has to write that bound, values that satisfy the problem which asks for it, and an answer that
fuzz/reference.py and `check` accept of what `ask` prints for the bound past it; `ask` has to print what the reference
makes of the input with two more lines. An altered answer has to be judged as the reference judges it. The status is 0
exactly where nothing differs.
"""

from __future__ import annotations

import random

import graphs
import mutations
import problems
import reference
from assignments import is_model, satisfying
from reference import Predicate, Problem, Signs
from rounds import Rounds, play
from runs import Wrong

MOST = 2**53
STATUSES = {"best": 10, "never": 20, "beyond": 10}
FORMS = {"steps": "distance_", "weight": "weighted_distance_", "flow": "maximum_flow_", "tree": "mst_weight_"}
BOUNDS = [-MOST - 1, -2, -1, 0, 1, 2, 3, 5, MOST, MOST + 1]


def is_flow(predicate: Predicate) -> bool:
    """Whether a greater bound is the better one."""
    return predicate.meaning.kind == "flow"


def value_of(problem: Problem, predicate: Predicate, signs: Signs) -> int | None:
    """The value that the predicate has where each variable has its sign, or None where it has none up to 2^53."""
    edges = {n: e for n, e in problem.edges_of(predicate).items() if signs[e.variable]}
    nodes = problem.nodes_of(predicate)
    kind, ends, _ = predicate.meaning
    if kind == "flow":
        return min(graphs.maximum_flow(edges.values(), ends).value, MOST + 1)
    if kind == "tree":
        tree = graphs.lightest_forest(nodes, edges)
        found = sum(edges[n].weight for n in tree) if len(tree) == nodes - 1 else None
    else:
        found = graphs.distances(nodes, edges.values(), kind, ends[0])[ends[1]]
    return None if found is None or found > MOST else found


def best_value(problem: Problem, predicate: Predicate) -> int | None:
    """The best value over all assignments that satisfy the problem, or None."""
    values = (value_of(problem, predicate, signs) for signs in satisfying(problem))
    found = {value for value in values if value is not None}
    if not found:
        return None
    return max(found) if is_flow(predicate) else min(found)


def asking(text: bytes, predicate: Predicate, bound: int) -> bytes:
    """The input with the predicate once more, with this bound and a new variable that a clause makes true."""
    new = reference.read(text).variables + 1
    front = [*predicate.fields[:3], new] if len(predicate.fields) > 3 else [predicate.graph, new]
    form = FORMS[predicate.meaning.kind]
    least, more = ("geq", "gt") if is_flow(predicate) else ("leq", "lt")
    word, written = f"{form}{least}", bound
    if bound == -1:
        word, written = f"{form}{more}", 0
    if bound == MOST + 1:
        word, written = f"{form}{more}", MOST
    return text + f"{reference.row(word, *front, written)}\n{new} 0\n".encode()


def refusal(problem: Problem, number: int, bound: int | None = None) -> str | None:
    """The name of what refuses the question, the first that applies, or None. Small problems have room."""
    if not 1 <= number <= len(problem.predicates):
        return "BadAtom"
    predicate = problem.predicates[number - 1]
    if predicate.meaning.kind not in FORMS:
        return "BadAtom"
    low, high = (0, MOST + 1) if is_flow(predicate) else (-1, MOST)
    return "BadBound" if bound is not None and not low <= bound <= high else None


def first_row(best: int | None, flow: bool) -> tuple[list[str], int]:
    """The first row that `best` has to write, and the bound of the problem that the rest answers."""
    if best is None:
        return ["c", "never"], 0 if flow else MOST
    if best == MOST + 1:
        return ["c", "beyond"], best
    return ["c", "best", str(best)], best + 1 if flow else best - 1


def drawn_text(seed: int, drawn: random.Random) -> bytes:
    """A small input without some of its clauses; it mostly has a predicate with a bound."""
    text = b""
    for attempt in range(drawn.choice([1, 5, 5, 5])):
        text = problems.thinned(problems.Small(seed + attempt * 10**9).text(), drawn)
        if any(predicate.meaning.kind in FORMS for predicate in reference.read(text).predicates):
            break
    return text


class Bounds(Rounds):
    """Problems that ask for bounds."""

    def asked(self, number: int, bound: int) -> bytes:
        """The input that asks, or how that is refused: what `ask` prints has to be the same."""
        problem = reference.read(self.text)
        name = refusal(problem, number, bound)
        status, text = 3, f"refused 0 {name}\n"
        if name is None:
            made = asking(self.text, problem.predicates[number - 1], bound)
            status, text = 0, reference.printed(reference.read(made))
        found = self.run("ask", "f", number, bound)
        if found != (status, text.encode()):
            raise Wrong(f"it says {found}, and not {text!r} with the status {status}")
        return text.encode()

    def judge_asked(self, asked: bytes, answer: bytes, due: str = "") -> None:
        """`check` says of the answer to the problem that asks what the reference says."""
        self.program.put("g", asked)
        self.judge(asked, answer, "check", "g", "a", due=due)

    def check_values(self, asked: bytes, row: mutations.Row) -> None:
        """The line of the values: the literals of all variables, which satisfy the problem that asks for the bound."""
        values = [int(token) for token in row[2:]]
        if row[:2] != ["c", "v"] or values[-1:] != [0] or not is_model(reference.read(asked), values[:-1]):
            raise Wrong(f"no values that satisfy: {row}")

    def best_of(self, number: int, drawn: random.Random) -> str:
        """The runs that ask for the best bound, and what they came to."""
        problem = reference.read(self.text)
        predicate = problem.predicates[number - 1]
        best = best_value(problem, predicate)
        first, past = first_row(best, is_flow(predicate))
        status, answer = self.run("best", "f", number)
        rows = [line.split(" ") for line in answer.decode("latin1").splitlines()]
        if rows[:1] != [first] or status != STATUSES[first[1]]:
            raise Wrong(f"it says {rows[:1]} with the status {status}, and not {first}")
        if best is not None and first[1] == "best":
            self.check_values(self.asked(number, best), rows[1])
        asked = self.asked(number, past)
        self.judge_asked(asked, answer, f"accepted {'model' if first[1] == 'beyond' else 'refutation'}\n")
        if self.run("best", "f", number) != (status, answer):
            raise Wrong("a second run wrote other bytes")
        changes = mutations.Mutations(drawn)
        changes.alter(rows)
        self.judge_asked(asked, changes.text(rows))
        return f"{first[1]} of a {predicate.meaning.kind}"

    def compare(self, seed: int) -> str:
        drawn = random.Random(-seed)
        self.take(drawn_text(seed, drawn))
        problem = reference.read(self.text)
        bounded = [n for n, predicate in enumerate(problem.predicates, 1) if predicate.meaning.kind in FORMS]
        number = drawn.randint(1, len(problem.predicates) + 1)
        if bounded and drawn.random() < 0.9:
            number = drawn.choice(bounded)
        self.asked(number, drawn.choice(BOUNDS))
        name = refusal(problem, number)
        if name is None:
            return self.best_of(number, drawn)
        found = self.run("best", "f", number)
        if found != (3, f"refused 0 {name}\n".encode()):
            raise Wrong(f"it says {found}, and not {name}")
        return name


if __name__ == "__main__":
    play(__doc__, Bounds, "bounds", 1000)
