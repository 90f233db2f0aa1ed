"""Solving under assumptions, and cores: with the program, and with programs that stand in for a faulty one."""

import shutil
import tempfile
import unittest

from gulfezo import BudgetSpent, Core, Model, Problem, Refutation, RejectedAnswer, UnexpectedStatus
from helpers import program, require, stand_in


def square() -> tuple[Problem, list]:
    """Two ways lead from corner to corner, each over two edges, and the assumptions that each edge is absent."""
    problem = Problem()
    graph = problem.add_graph("square", nodes=4)
    edges = [graph.add_edge(a, b) for a, b in ((0, 1), (1, 3), (0, 2), (2, 3))]
    problem.require(graph.reach(0, 3))
    return problem, [~edge for edge in edges]


class WithTheProgram(unittest.TestCase):
    def setUp(self):
        self.program = program()
        require("core")

    def test_assumptions_are_of_one_answer_alone(self):
        problem, absent = square()
        clauses = list(problem.clauses)
        answer = problem.solve(assumptions=absent[:2], program=self.program)
        self.assertEqual([answer[literal] for literal in absent], [True, True, False, False])
        answer = problem.solve(assumptions=[absent[0], absent[3]], program=self.program)
        self.assertIsInstance(answer, Refutation)
        first = answer.steps[0]
        self.assertEqual(first.number, len(clauses) + 3)
        self.assertEqual(answer.step(first.number), first)
        self.assertEqual(answer.step(first.number + len(answer.steps) - 1).clause, ())
        self.assertEqual(answer.migrate(2, self.program).migrate(1, self.program).text, answer.text)
        self.assertEqual(problem.clauses, clauses)
        self.assertTrue(problem.solve(program=self.program))

    def test_a_core_has_what_is_needed_alone(self):
        problem, absent = square()
        free = problem.add_variable("free")
        found = problem.core([free, *absent, free], program=self.program)
        self.assertIsInstance(found, Core)
        self.assertFalse(found)
        self.assertTrue(found.is_minimal)
        self.assertEqual(len(found), 2)
        self.assertEqual(found.literals, list(found))
        one, other = (literal.number for literal in found)
        self.assertIn((one, other), [(-a, -b) for a in (1, 2) for b in (3, 4)])
        for need in found.needs:
            self.assertFalse(need.model[need.literal])
            self.assertTrue(all(need.model[literal] for literal in found if literal != need.literal))
        self.assertTrue(all(name.startswith("not edge from ") for name in found.names), found.names)
        self.assertEqual(found.refutation.steps[-1].clause, ())

    def test_a_model_of_the_assumptions(self):
        problem, absent = square()
        found = problem.core(absent[2:], program=self.program)
        self.assertIsInstance(found, Model)
        self.assertTrue(all(found[literal] for literal in absent[2:]))

    def test_an_empty_core(self):
        problem, absent = square()
        problem.add_clause()
        found = problem.core(absent, program=self.program)
        self.assertEqual((len(found), found.names, found.is_minimal), (0, [], True))


class StandIns(unittest.TestCase):
    """What isn't right is never handed out."""

    def core(self, status: int, text: str, verdict: str):
        problem, absent = square()
        with tempfile.TemporaryDirectory() as folder:
            return problem.core(absent[:2], folder, stand_in(folder, status, text, verdict), False)

    def test_what_is_refused(self):
        core = "c core -1 -2 0\nc needed -1 1 -2 3 4 5 0\nc needed -2 -1 2 3 4 5 0\ns UNSATISFIABLE\nchain 0 1\n"
        for status, text, verdict, error in [
            (0, "s UNKNOWN\n", "", BudgetSpent),
            (20, core, "accepted model", RejectedAnswer),
            (20, core, "accepted refutation", RejectedAnswer),  # of the needs, which are to be models
            (20, core.replace("c core", "c cores"), "accepted refutation", UnexpectedStatus),
            *(
                (20, core.replace(*change), "accepted refutation", UnexpectedStatus)
                for change in [
                    ("core -1 -2", "core -1 -3"),
                    ("core -1 -2", "core -2 -1"),
                    ("core -1 -2 0", "core -1 -2"),
                    ("c needed -2 -1 2 3 4 5 0\n", ""),
                    ("needed -1", "needed x"),
                    ("needed -1 1 -2 3 4 5", "open -1 -3"),
                ]
            ),
            (10, "s SATISFIABLE\nv 1 0\n", "rejected 2 ClauseFalse 1", RejectedAnswer),
            (3, "refused 0 TooMany\n", "", UnexpectedStatus),
        ]:
            with self.subTest(status=status, verdict=verdict), self.assertRaises(error):
                self.core(status, text, verdict)

    def test_a_refutation_is_migrated_under_its_assumptions(self):
        problem, absent = square()
        with tempfile.TemporaryDirectory() as folder:
            path = stand_in(folder, 20, "s UNSATISFIABLE\nchain 0 1\n", "accepted refutation")
            answer = problem.solve(assumptions=absent[:2], program=path, progress=False)
            self.assertEqual(answer.assumptions, (-1, -2))
            with self.assertRaises(RejectedAnswer) as fault:
                answer.migrate(2, stand_in(folder, 1, "rejected 2 NotCovered\n"))
        self.assertEqual(fault.exception.problem.read_text(), problem.text() + "-1 0\n-2 0\n")
        shutil.rmtree(fault.exception.problem.parent)

    def test_what_no_assumption_is(self):
        problem, absent = square()
        other = Problem().add_variable()
        for wrong in ([], [other], problem.add_variables(1001)):
            with self.assertRaises(ValueError):
                problem.core(wrong)
        with self.assertRaises(ValueError):
            problem.solve(assumptions=[other])
        self.assertRaises(TypeError, problem.solve, assumptions=[1])

    def test_words_for_literals(self):
        problem, absent = square()
        named = problem.add_variable("a name")
        said = [problem.described(literal) for literal in (named, ~named, absent[0], problem.predicates[0])]
        self.assertEqual(
            said,
            ["a name", "not a name", "not edge from 0 to 1 of graph square", "reach from 0 to 3 of graph square"],
        )
        self.assertEqual(problem.described(problem.add_variable()), "variable 7")


if __name__ == "__main__":
    unittest.main()
