"""Workers that share what they learn: with the program, and by its words alone."""

import tempfile
import unittest
from pathlib import Path

from gulfezo import BudgetSpent, Problem, RejectedAnswer
from helpers import program, require, stand_in


class Workers(unittest.TestCase):
    def test_what_the_program_is_asked(self):
        problem = Problem()
        problem.require(problem.add_variable())
        with tempfile.TemporaryDirectory() as folder:
            team = stand_in(folder, 10, "s SATISFIABLE\nv 1 0\n", "accepted model")
            self.assertTrue(problem.solve(program=team, workers=2, progress=False))
            script = Path(team)
            asked = "assert sys.argv[1] != 'solve'\nif sys.argv[1] in"
            script.write_text(script.read_text().replace("if sys.argv[1] in", asked))
            self.assertTrue(problem.solve(program=team, workers=8, rounds=100, progress=False))
            team = stand_in(folder, 10, "s SATISFIABLE\nv 1 0\n", "rejected 2 ClauseFalse 1")
            self.assertRaises(RejectedAnswer, problem.solve, folder=folder, program=team, workers=1, progress=False)
            team = stand_in(folder, 0, "s UNKNOWN\n", "accepted progress 0")
            with self.assertRaisesRegex(BudgetSpent, "rounds"):
                problem.solve(program=team, workers=1, progress=False)
        wrong = [{"workers": 0}, {"workers": 9}, {"workers": 2, "rounds": 101}, {"workers": 2, "conflicts": 5}]
        for named in (*wrong, *({"workers": 2, "budget": budget} for budget in (5, 100_000, None))):
            with self.subTest(named), self.assertRaises(ValueError):
                problem.solve(**named)

    def test_the_program_itself(self):
        require("team")
        path = program()
        problem = Problem()
        first, second, third = problem.add_variables(3)
        problem.exactly_one([first, second, third])
        for assumptions in ([], [~first, ~second]):
            model = problem.solve(program=path, workers=4, rounds=2, progress=False, assumptions=assumptions)
            self.assertEqual(sum(model[literal] for literal in (first, second, third)), 1)
        problem.add_clause(~first)
        problem.require(~second, ~third)
        refutation = problem.solve(program=path, workers=4, rounds=2, progress=False)
        self.assertFalse(refutation)
        self.assertEqual(refutation.steps[-1].clause, ())


if __name__ == "__main__":
    unittest.main()
