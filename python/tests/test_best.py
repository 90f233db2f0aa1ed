"""The best bound of a predicate and the best sum: with the program, and with programs that stand in for it."""

import random
import sys
import tempfile
import unittest
from pathlib import Path
from unittest import mock

from gulfezo import (
    Best,
    BudgetSpent,
    Greatest,
    Incumbent,
    Least,
    NoBound,
    Problem,
    ProgramMissing,
    Refutation,
    RejectedAnswer,
    TimeSpent,
    UnexpectedStatus,
    drawing,
)
from gulfezo.model import Model
from helpers import program, stand_in

# A program that answers each `solve` by the bound that is asked for, asks for one as the program does, and judges.
TELLS = """#!{python}
import sys, time
word, file, *rest = sys.argv[1:]
text = open(file).read()
asked = text.splitlines()[-2].split()
if word == "solve":
    status, answer, seconds = {answers!r}.get(int(asked[-1]), {otherwise!r})
    time.sleep(seconds)
    print(answer, end="")
    sys.exit(status)
if word == "best" and {best!r}:
    print({best!r}, end="")
    sys.exit(10)
if word == "check":
    time.sleep(30 if open(rest[0]).read() == {late!r} else 0)
    print({verdict!r} or ("accepted model" if "s SAT" in open(rest[0]).read() else "accepted refutation"))
if word == "ask":
    variables, clauses = map(int, text.split()[2:4])
    lines = [line for line in text.splitlines() if "_leq" in line or "_geq" in line or "_gt" in line]
    atom = lines[int(rest[0]) - 1].split()
    print("p gnf", variables + 1, clauses + 1)
    print("\\n".join(text.splitlines()[1:]))
    print(*atom[:4], variables + 1, min(int(rest[1]), 2**53))
    print(variables + 1, 0)
"""
REFUTED = (20, "s UNSATISFIABLE\nchain 0 1\n", 0)
SPENT = (0, "s UNKNOWN\n", 0)


def tells(folder: str, answers: dict, otherwise=SPENT, verdict: str = "", best: str = "", late: str = "") -> str:
    """That program: for each bound its exit code, what it prints, and how long it takes.

    What it says is best, and the answer that it takes long to check.
    """
    path = Path(folder) / "tells"
    fields = {"answers": answers, "otherwise": otherwise, "verdict": verdict, "best": best, "late": late}
    path.write_text(TELLS.format(python=sys.executable, **fields))
    path.chmod(0o755)
    return str(path)


def triangle() -> tuple[Problem, list]:
    """Three nodes, and edges of the lengths 5, 5 and 3."""
    problem = Problem()
    graph = problem.add_graph(nodes=3)
    return problem, [graph.add_edge(0, 1, 5), graph.add_edge(1, 2, 5), graph.add_edge(0, 2, 3)]


def weights(*amounts: int) -> tuple[Problem, list, object]:
    """Variables, and the sum of their amounts; one variable at least is true."""
    problem = Problem()
    chosen = problem.add_variables(len(amounts))
    problem.add_clause(chosen)
    return problem, chosen, problem.add_sum(list(zip(chosen, amounts)), "costs")


class Bests(unittest.TestCase):
    """With the program itself."""

    def setUp(self):
        self.program = program()

    def test_the_shortest_way(self):
        problem, edges = triangle()
        way = problem.graphs[0].weighted_distance_leq(0, 2, 7)
        before = problem.text()
        found = problem.best(way, program=self.program)
        self.assertIsInstance(found, Best)
        self.assertEqual((found.value, found.bound, found.gap, found.is_best), (3, 3, 0, True))
        self.assertTrue(found.model[edges[2]])
        problem.require(~edges[2])
        longer = problem.minimise(way, program=self.program)
        self.assertEqual((longer.value, [longer.model[edge] for edge in edges]), (10, [True, True, False]))
        self.assertEqual(longer.refutation.problem.predicates[-1].limit, 9)
        self.assertEqual(longer.refutation.steps[-1].clause, ())
        self.assertEqual(found.kept.problem.text(), before)
        self.assertIn("<svg", drawing(found.kept.problem, found.kept))
        problem.require(~edges[0])
        self.assertIsInstance(problem.best(way, program=self.program), Refutation)

    def test_a_distance_of_nothing(self):
        problem, _ = triangle()
        found = problem.best(problem.graphs[0].distance_leq(1, 1, 5), program=self.program)
        self.assertEqual((found.value, found.refutation.problem.predicates[-1].word), (0, "distance_lt"))

    def test_the_greatest_flow_and_the_lightest_tree(self):
        problem = Problem()
        graph = problem.add_graph(nodes=2)
        one, other = graph.add_edge(0, 1, 3), graph.add_edge(0, 1, 4)
        flow, tree = graph.maximum_flow_geq(0, 1, 7), graph.mst_weight_leq(9)
        problem.add_clause(~one, ~other)
        self.assertEqual(problem.best(flow, program=self.program).value, 4)
        self.assertEqual(problem.maximise(flow, program=self.program).value, 4)
        self.assertEqual(problem.best(tree, program=self.program).value, 3)
        for wrong in (lambda: problem.minimise(flow), lambda: problem.maximise(tree)):
            self.assertRaisesRegex(ValueError, "of a flow the greatest", wrong)

    def test_the_least_and_the_greatest_sum_leave_the_problem_as_it_is(self):
        problem = Problem()
        chosen = problem.add_variables(4)
        problem.at_least(2, chosen)
        problem.at_most(3, chosen)
        costs = problem.add_sum([(literal, 3 + place) for place, literal in enumerate(chosen)])
        before = problem.text()
        found = problem.minimise(costs, program=self.program)
        self.assertEqual((found.value, [found.model[x] for x in chosen]), (7, [True, True, False, False]))
        most = problem.maximise(costs, program=self.program)
        self.assertEqual((most.value, [most.model[x] for x in chosen]), (15, [False, True, True, True]))
        self.assertEqual((found.model[costs], most.model[costs], most.kept.problem.text()), (7, 15, before))
        self.assertEqual(problem.text(), before)
        self.assertRaises(ValueError, Problem().minimise, costs)
        chosen_again = problem.add_variable()
        with self.assertRaisesRegex(ValueError, "solve again"):
            found.model[chosen_again]

    def test_a_value_beyond_each_bound_is_told(self):
        problem, chosen, costs = weights(2**53, 2**53)
        self.assertEqual(problem.minimise(costs, program=self.program).value, 2**53)
        problem.require(*chosen)
        self.assertRaises(NoBound, problem.minimise, costs, program=self.program)
        problem.add_clause()
        self.assertIsInstance(problem.minimise(costs, program=self.program), Refutation)
        endless = Problem()
        graph = endless.add_graph(nodes=2)
        graph.add_edge(0, 1, 2**64 - 1)
        self.assertRaises(NoBound, endless.best, graph.maximum_flow_geq(0, 1, 1), program=self.program)

    def test_the_way_there_does_not_matter(self):
        drawn, problem = random.Random(4), Problem()
        chosen = problem.add_variables(18)
        for _ in range(60):
            problem.add_clause(drawn.sample(chosen, 3))
        costs = problem.add_sum([(x, drawn.randrange(1, 20)) for x in chosen])
        seen: list = []
        limits = ({}, {"seconds": 300}, {"on_improvement": seen.append}, {"budget": 90_000})
        found = [problem.minimise(costs, program=self.program, **limit) for limit in limits]
        self.assertEqual([type(each) for each in found], [Best] * 4)
        self.assertEqual(len({each.value for each in found}), 1)
        self.assertEqual({each.model[costs] for each in found}, {found[0].value})
        self.assertGreater(len(seen), 2)

    def test_incumbents_get_better_until_the_last_is_the_best(self):
        problem, _, costs = weights(9, 7, 4, 8)
        seen: list = []
        best = problem.minimise(costs, program=self.program, on_improvement=seen.append)
        found = list(problem.incumbents(costs, program=self.program))
        self.assertEqual((best.value, found[-1].value, seen[-1]), (4, 4, best))
        self.assertIsInstance(found[-1], Best)
        values = [(x.value, -1 if x.bound is None else x.bound) for x in found]
        self.assertTrue(all(a[0] >= b[0] and a[1] <= b[1] for a, b in zip(values, values[1:])), values)
        self.assertEqual((len(set(values)), len(seen)), (len(values), len(found)))
        search = problem.incumbents(costs, program=self.program)
        self.assertIsInstance(next(search), Incumbent)
        search.close()
        self.assertEqual(list(search), [])

    def test_several_aims_in_turn(self):
        problem = Problem()
        graph = problem.add_graph(nodes=2)
        edges = [graph.add_edge(0, 1, capacity) for capacity in (1, 2, 3)]
        costs = problem.add_sum([(edges[0], 5), (edges[1], 5), (edges[2], 9)])
        problem.add_clause(edges)
        flow = graph.maximum_flow_geq(0, 1, 1)
        before = problem.text()
        first, second = problem.in_turn([Least(costs), Greatest(flow)], program=self.program)
        self.assertEqual((first.value, second.value, second.model[costs]), (5, 2, 5))
        self.assertEqual([second.model[edge] for edge in edges], [False, True, False])
        again = problem.in_turn([Greatest(flow), Least(costs)], program=self.program)
        self.assertEqual([found.value for found in again], [6, 19])
        self.assertEqual(problem.text(), before)
        problem.add_clause()
        self.assertIsInstance(problem.in_turn([Least(costs)], program=self.program), Refutation)
        self.assertRaises(TypeError, problem.in_turn, [costs])


class StandIns(unittest.TestCase):
    def setUp(self):
        folder = tempfile.TemporaryDirectory()
        self.addCleanup(folder.cleanup)
        self.folder = folder.name
        self.problem, self.chosen, self.costs = weights(3, 5)

    def model(self, first: int, second: int) -> tuple:
        """A model of what `minimise` asks, in which these two variables are so, with all that hangs on them."""
        signs = {1: first, 2: second, 3: True, 4: not first, 5: not second, 6: False, 7: True}
        numbers = " ".join(str(x if sign else -x) for x, sign in signs.items())
        return 10, f"s SATISFIABLE\nv {numbers} 0\n", 0

    def minimise(self, answers: dict, verdict: str = "", best: str = "", late: str = "", **named):
        path = tells(self.folder, answers, verdict=verdict, best=best, late=late)
        return self.problem.minimise(self.costs, program=path, progress=False, **named)

    def test_what_was_found_is_handed_out_when_the_budget_is_spent(self):
        found = self.minimise({2**53: self.model(1, 1), 7: self.model(0, 1), 3: REFUTED}, budget=50)
        self.assertNotIsInstance(found, Best)
        self.assertEqual((found.value, found.bound, found.gap, found.is_best), (5, 4, 1, False))
        self.assertEqual([found.model[x] for x in self.chosen], [False, True])
        self.assertEqual(found.refutation.problem.predicates[-1].limit, 3)
        nothing = self.minimise({2**53: self.model(1, 1)}, budget=50)
        self.assertEqual((nothing.value, nothing.bound, nothing.refutation, nothing.gap), (8, None, None, None))

    def test_what_was_found_is_handed_out_when_the_time_is_over(self):
        slow = (10, "", 30)
        seen: list = []
        answers = {2**53: self.model(1, 1), 7: slow}
        found = self.minimise(answers, budget=None, seconds=5, on_improvement=seen.append)
        self.assertEqual((found.value, found.bound, seen[0].value), (8, None, 8))
        self.assertRaises(TimeSpent, self.minimise, {2**53: slow}, seconds=1)
        self.assertRaises(BudgetSpent, self.minimise, {}, budget=7)

    def test_what_is_hard_is_asked_of_best_where_the_last_one_is_wanted_alone(self):
        answers, numbers = {2**53: self.model(1, 1)}, self.model(1, 0)[1].split("v ")[1]
        said = f"c best 3\nc v {numbers}{REFUTED[1]}"
        found = self.minimise(answers, best=said)
        self.assertIsInstance(found, Best)
        self.assertEqual((found.value, [found.model[x] for x in self.chosen]), (3, [True, False]))
        self.assertEqual((found.refutation.problem.predicates[-1].limit, len(found.refutation.steps)), (2, 1))
        for limit in ({"seconds": 60}, {"budget": 50}, {"on_improvement": lambda better: None}):
            self.assertEqual(self.minimise(answers, best=said, **limit).value, 8)
        self.assertEqual(self.minimise(answers, best="c open 3\ns UNKNOWN\n").value, 8)
        with self.assertRaises(RejectedAnswer):
            self.minimise(answers, verdict="rejected 2 ClauseFalse 1", best=said, folder=self.folder)
        with self.assertRaises(UnexpectedStatus):
            self.minimise(answers, best=f"c best 3\nc v 1 0\n{REFUTED[1]}", folder=self.folder)

    def test_what_bounds_the_value_is_looked_for_where_one_less_is_hard(self):
        found = self.minimise({2**53: self.model(1, 1), 4: REFUTED}, budget=50)
        self.assertEqual((found.value, found.bound, found.gap), (8, 5, 3))
        farther = self.minimise({2**53: self.model(1, 1), 0: REFUTED, 2: REFUTED}, budget=50)
        self.assertEqual((farther.value, farther.bound), (8, 3))
        better = self.minimise({2**53: self.model(1, 1), 4: self.model(1, 0), 2: REFUTED}, budget=50)
        self.assertIsInstance(better, Best)
        easy = self.minimise({2**53: self.model(1, 1), 7: self.model(0, 1), 1: REFUTED}, budget=50)
        self.assertEqual((easy.value, easy.bound), (5, 2))

    def test_a_model_for_which_there_is_no_time_gives_way_to_the_one_before_it(self):
        late, slow = self.model(0, 1), (10, "", 30)
        answers = {2**53: self.model(1, 1), 7: late, 3: slow}
        found = self.minimise(answers, late=late[1], budget=None, seconds=8)
        self.assertEqual((found.value, found.bound), (8, None))

    def test_what_is_not_accepted_is_never_handed_out(self):
        path = tells(self.folder, {2**53: self.model(1, 1)}, verdict="rejected 2 ClauseFalse 1")
        with self.assertRaises(RejectedAnswer) as fault:
            self.problem.minimise(self.costs, self.folder, path, False)
        self.assertTrue(fault.exception.answer.is_file())
        for status, text, error in [
            (10, "s SATISFIABLE\nv 1 0\n", UnexpectedStatus),
            (10, "s UNSATISFIABLE\nchain 0 1\n", UnexpectedStatus),
            (20, "s SATISFIABLE\nv 1 0\n", RejectedAnswer),
            (0, "", UnexpectedStatus),
            (3, "refused 0 BadAtom\n", UnexpectedStatus),
        ]:
            with self.subTest(text), self.assertRaises((error, UnexpectedStatus)):
                path = tells(self.folder, {}, (status, text, 0))
                self.problem.minimise(self.costs, self.folder, path, False)

    def test_nothing_stays_of_a_question_without_an_answer(self):
        text = Path(self.folder, "text")
        text.write_text("no program")
        text.chmod(0o755)
        made = Path(self.folder, "made")
        for found, error in ((tells(self.folder, {}), BudgetSpent), (str(text), ProgramMissing)):
            made.mkdir()
            with mock.patch("tempfile.mkdtemp", lambda prefix: str(made)), self.assertRaises(error):
                self.problem.minimise(self.costs, program=found, progress=False)
            self.assertFalse(made.exists())

    def test_what_is_refused(self):
        problem, _ = triangle()
        for wrong in (problem.graphs[0].reach(0, 1), problem.add_variable(), triangle()[0].graphs[0].mst_weight_leq(1)):
            with self.assertRaises(ValueError):
                problem.best(wrong)
        for wrong in (problem.add_variable(), 3, Problem().add_sum([])):
            with self.assertRaisesRegex(ValueError, "no sum of this problem"):
                problem.minimise(wrong)
        with tempfile.TemporaryDirectory() as folder, self.assertRaises(UnexpectedStatus):
            problem.best(problem.graphs[0].distance_leq(0, 1, 1), folder, stand_in(folder, 0, "c open 4\n"), False)


class Told(unittest.TestCase):
    def test_statistics_and_words(self):
        found, chosen, costs = weights(3, 5)
        best = found.minimise(costs, program=program())
        self.assertIsInstance(best.model, Model)
        self.assertLessEqual({"writing", "solving", "checking", "reading"}, set(best.statistics.seconds))
        self.assertEqual(repr(best), "<best 3>")
        self.assertIn("solving", str(best.statistics))


if __name__ == "__main__":
    unittest.main()
