"""What users say in one call: gates, counts, weights, sums, schedules, all models; by trying and with the program."""

import doctest
import itertools
import tempfile
import unittest
from pathlib import Path
from unittest import mock

import gulfezo.schedules
from gulfezo import And, BudgetSpent, FormatError, If, Implies, Literal, Model, Or, Problem, Refutation, TimeSpent
from gulfezo import Xor, cardinality, read_monosat
from gulfezo.kept import KeptFile, with_lines
from helpers import assignments, program, satisfies, stand_in


def load_tests(loader, tests, pattern):
    tests.addTests(doctest.DocTestSuite(gulfezo.schedules))
    return tests


class Gates(unittest.TestCase):
    """By trying all assignments: each of the variables that are given has one model for each of its values."""

    def tried(self, count: int, make, wanted) -> None:
        problem = Problem()
        given = problem.add_variables(count)
        gate = make(given)
        models = [v for v in assignments(problem.variables) if satisfies(v, problem.clauses)]
        self.assertEqual(len(models), 2**count)
        for values in models:
            model = Model(problem, values, "")
            self.assertEqual(model[gate], wanted([model[x] for x in given]))

    def test_each_gate(self):
        self.tried(2, lambda x: Implies(x[0], x[1]), lambda v: v[1] or not v[0])
        self.tried(3, lambda x: If(x[0], x[1], ~x[2]), lambda v: v[1] if v[0] else not v[2])
        for count in range(1, 5):
            self.tried(count, lambda x: Xor(x), lambda v: sum(v) % 2 == 1)
            self.tried(count, lambda x: Xor(*x), lambda v: sum(v) % 2 == 1)

    def test_operators(self):
        self.tried(2, lambda x: x[0] & ~x[1], lambda v: v[0] and not v[1])
        self.tried(3, lambda x: x[0] | x[1] | x[2], any)
        self.tried(3, lambda x: (x[0] ^ x[1]) & x[2], lambda v: v[0] != v[1] and v[2])

    def test_what_is_refused_changes_nothing(self):
        problem, other = Problem(), Problem()
        x, foreign = problem.add_variable(), other.add_variable()
        before = problem.text()
        for wrong in (lambda: Xor(), lambda: Xor(x, foreign), lambda: If(x, foreign, x), lambda: Implies(foreign, x)):
            self.assertRaises(ValueError, wrong)
        for wrong in (lambda: x & True, lambda: x | 1, lambda: x ^ "x", lambda: Implies(x, 1), lambda: If(1, x, x)):
            self.assertRaises(TypeError, wrong)
        self.assertEqual(problem.text(), before)


class Counts(unittest.TestCase):
    def values(self, problem: Problem, chosen: list[Literal]) -> set[tuple[bool, ...]]:
        """The values of the chosen literals in models of the clauses."""
        models = (v for v in assignments(problem.variables) if satisfies(v, problem.clauses))
        return {tuple(v[x.variable] == (x.number > 0) for x in chosen) for v in models}

    def test_exactly_so_many(self):
        for count, bound in itertools.product(range(5), range(-1, 6)):
            problem = Problem()
            chosen = problem.add_variables(count)
            problem.exactly(bound, chosen)
            wanted = {signs for signs in itertools.product([False, True], repeat=count) if sum(signs) == bound}
            self.assertEqual(self.values(problem, chosen), wanted, (count, bound))

    def test_few_variables_are_taken(self):
        """Fewer than n·k for at most k of n."""
        for count, bound in ((9, 1), (20, 1), (20, 7), (50, 25), (300, 100), (2000, 1000)):
            problem = Problem()
            problem.at_most(bound, problem.add_variables(count))
            self.assertLess(problem.variables - count, count * bound)

    def test_the_size_of_a_totalizer_is_foreseen(self):
        for count, bound in itertools.product(range(9, 30, 5), range(1, 9)):
            problem = Problem()
            problem.at_most(bound, problem.add_variables(count))
            self.assertLessEqual(len(problem.clauses), cardinality.clauses_of_totalizer(bound, count))

    def test_lists_and_single_literals(self):
        problem = Problem()
        x, y = problem.add_variables(2)
        problem.exactly_one(x, y)
        problem.exactly_one([x, y])
        problem.at_most_one(x, ~y)
        self.assertEqual(problem.clauses, [(1, 2), (-1, -2), (1, 2), (-1, -2), (-1, 2)])
        for wrong in (lambda: problem.at_most([x, y], 1), lambda: problem.at_least(x, [y])):
            self.assertRaisesRegex(TypeError, "its bound first", wrong)
        for wrong in (lambda: problem.at_most(1, x), lambda: problem.exactly(1, 5), lambda: problem.models(over=x)):
            self.assertRaisesRegex(TypeError, "a list of literals", wrong)
        self.assertEqual(len(problem.clauses), 5)


class Programs(unittest.TestCase):
    """With the program."""

    def setUp(self):
        self.program = program()

    def all_values(self, problem: Problem, chosen: list[Literal]) -> set[tuple[bool, ...]]:
        found = [tuple(model[x] for x in chosen) for model in problem.models(over=chosen, program=self.program)]
        self.assertEqual(len(found), len(set(found)))
        return set(found)

    def test_weights(self):
        for word, keeps in (("at_most_weight", lambda sum: sum <= 6), ("at_least_weight", lambda sum: sum >= 6)):
            problem = Problem()
            chosen = problem.add_variables(3)
            terms = [(chosen[0], 2), (~chosen[1], 3), (chosen[2], 4)]
            getattr(problem, word)(6, terms)
            wanted = set()
            for signs in itertools.product([False, True], repeat=3):
                if keeps(2 * signs[0] + 3 * (not signs[1]) + 4 * signs[2]):
                    wanted.add(signs)
            self.assertEqual(self.all_values(problem, chosen), wanted)

    def test_a_count_as_a_sum(self):
        problem = Problem()
        chosen = problem.add_variables(4)
        with mock.patch.object(cardinality, "MOST_CLAUSES", -1):
            problem.at_most(2, chosen)
        self.assertEqual(len(self.all_values(problem, chosen)), 11)

    def test_all_sums_share_a_graph(self):
        problem = Problem()
        chosen = problem.add_variables(3)
        sums = [problem.add_sum([(chosen[k % 3], 1), (chosen[(k + 1) % 3], 2)]) for k in range(1_025)]
        self.assertEqual((len(problem.graphs), problem.graphs[0].name, problem.graphs[0].hidden), (1, "sums", True))
        for total in sums:
            problem.require(total.at_least(2))
        model = problem.solve(program=self.program, progress=False)
        self.assertEqual({model[total] for total in sums}, {3})
        problem.require(sums[0].at_most(2))
        self.assertFalse(problem.solve(program=self.program, progress=False))

    def test_a_shortest_schedule(self):
        problem = Problem()
        shop = problem.add_schedule({("a", 1): 3, ("a", 2): 2, ("b", 1): 2, ("b", 2): 4})
        for job in "ab":
            shop.in_order((job, 1), (job, 2))
        for machine in (1, 2):
            shop.one_at_a_time(("a", machine), ("b", machine))
        best = problem.minimise(shop.makespan, program=self.program)
        starts = shop.starts(best.model)
        self.assertEqual((best.value, best.model[shop.ends]), (8, 8))
        self.assertEqual(max(starts[task.key] + task.hours for task in shop), 8)
        before = shop[("b", 1)].before(shop[("a", 1)])
        self.assertEqual(best.model[before], starts[("b", 1)] + 2 <= starts[("a", 1)])
        self.assertEqual(shop.sequence(best.model)[0], ("b", 1))

    def test_each_schedule_of_two_tasks(self):
        problem = Problem()
        shop = problem.add_schedule({"a": 2, "b": 1}, horizon=4)
        order = shop["a"].before(shop["b"])
        shop.one_at_a_time("a", "b")
        problem.require(shop["a"].starts.at_most(1))
        steps = [step for task in shop for step in task.starts.steps]
        found = set()
        for model in problem.models(over=steps, program=self.program):
            starts = shop.starts(model)
            found.add((starts["a"], starts["b"]))
            self.assertEqual(model[order], starts["a"] + 2 <= starts["b"])
        self.assertEqual(found, {(0, 2), (0, 3), (1, 0), (1, 3)})

    def test_a_schedule_that_can_not_be(self):
        problem = Problem()
        shop = problem.add_schedule({"a": 2, "b": 3}, horizon=4)
        shop.one_at_a_time("a", "b")
        self.assertIsInstance(problem.solve(program=self.program), Refutation)

    def test_models_one_by_one(self):
        problem = Problem()
        chosen = problem.add_variables(3)
        problem.add_clause(chosen)
        before = problem.text()
        models = problem.models(over=chosen[:2], program=self.program)
        self.assertIsNone(models.refutation)
        self.assertEqual(len(list(models)), 4)
        self.assertEqual(len(models.refutation.problem.clauses), 5)
        self.assertEqual(problem.text(), before)
        self.assertEqual(len(list(problem.models(program=self.program))), 7)
        self.assertEqual(len(list(problem.models(limit=2, program=self.program))), 2)
        some = problem.models(program=self.program)
        self.assertTrue(next(some))
        some.close()
        self.assertEqual(list(some), [])
        problem.add_clause()
        self.assertEqual(list(problem.models(program=self.program)), [])

    def test_a_session_writes_what_is_new(self):
        problem = Problem()
        graph = problem.add_graph(nodes=2)
        edge = graph.add_edge(0, 1)
        with problem.session(program=self.program) as session:
            self.assertTrue(session.solve())
            there = graph.reach(0, 1)
            problem.require(there, problem.add_variable("x"))
            self.assertTrue(session.solve()[edge])
            self.assertFalse(session.solve([~edge]))
            problem.require(~edge)
            refutation = session.solve()
            self.assertEqual([step.word for step in refutation.lemmas], ["cut"])
        with self.assertRaisesRegex(ValueError, "with problem.session"):
            session.solve()


class Kept(unittest.TestCase):
    def test_the_file_is_that_of_the_problem(self):
        problem = Problem()
        graph = problem.add_graph("g", nodes=3)
        graph.add_link(0, 1)
        with tempfile.TemporaryDirectory() as folder:
            kept = KeptFile(problem, Path(folder, "f"))
            for change in (
                lambda: None,
                lambda: problem.require(problem.add_variable("named")),
                lambda: problem.require(graph.reach(0, 2)),
                lambda: graph.add_edge(1, 2),
                lambda: problem.clauses.pop(),
                lambda: problem.add_clause(),
            ):
                change()
                kept.write()
                lines = Path(folder, "f").read_text().splitlines()
                wanted = problem.text().splitlines()
                self.assertEqual(sorted(lines[1:]), sorted(wanted[1:]))
                self.assertEqual([*map(int, lines[0].split()[2:])], [*map(int, wanted[0].split()[2:])])
            with with_lines(kept.path, ["1 0", "2 0"]) as path:
                self.assertEqual(path.read_text().splitlines()[-2:], ["1 0", "2 0"])
            self.assertEqual(Path(folder, "f").read_text().splitlines(), lines)


class Ends(unittest.TestCase):
    def test_models_within_a_budget_and_a_time(self):
        problem = Problem()
        x = problem.add_variable()
        with tempfile.TemporaryDirectory() as folder:
            found = problem.models([x], program=stand_in(folder, 0, "s UNKNOWN\n"), progress=False)
            self.assertRaises(BudgetSpent, next, found)
            slow = stand_in(folder, 10, "s SATISFIABLE\nv 1 0\n", "accepted model", seconds=30)
            self.assertRaises(TimeSpent, next, problem.models([x], program=slow, progress=False, seconds=0.5))
        for wrong in ({"limit": -1}, {"seconds": 0}, {"budget": 0}):
            self.assertRaises(ValueError, problem.models, [x], **wrong)


class MonoSAT(unittest.TestCase):
    def test_at_most_one(self):
        with tempfile.TemporaryDirectory() as folder:
            file = Path(folder, "f")
            many = " ".join(map(str, range(1, 11)))
            file.write_text(f"amo 1 -2 3 0\namo {many} 0\n1 20 0\n")
            found = read_monosat(file)
            self.assertEqual(found.clauses[:4], [(1, 20), (-1, 2), (-1, -3), (2, -3)])
            self.assertGreater(found.variables, 20)
            self.assertTrue(all(abs(x) <= 10 or abs(x) > 20 for clause in found.clauses[1:] for x in clause))
            for wrong in ("amo 0\n", "amo\n", "amo 1 0 2 0\n", "1\namo 1 2 0\n"):
                file.write_text(wrong)
                self.assertRaises(FormatError, read_monosat, file)

    def test_or_and_and_still(self):
        problem = Problem()
        x, y = problem.add_variables(2)
        self.assertEqual((Or(x), And([y])), (x, y))


if __name__ == "__main__":
    unittest.main()
