"""Answers of version 2, whose chains count backwards, and migrating from one version to the other."""

import shutil
import tempfile
import unittest

from gulfezo import FormatError, Model, RejectedAnswer, Step, UnexpectedStatus, lrat, parse_answer, parse_problem
from helpers import program, require, stand_in

PATH = "p gnf 3 3\ndigraph int 3 2 0\nedge 0 0 1 1\nedge 0 1 2 2\nreach 0 0 2 3\n1 0\n2 0\n-3 0\n"
CLAUSES = "1 2 0\n-1 2 0\n1 -2 0\n-1 -2 0\n"
PAIRS = [
    (
        PATH,
        "s UNSATISFIABLE\npath 1 -1 -2 3 0 1 2\nchain 0 4 1 2 3\n",
        "version 2\ns UNSATISFIABLE\npath 1 -1 -2 3 0 1 2\nchain 0 1 4 3 2\n",
    ),
    (
        CLAUSES,
        "s UNSATISFIABLE\nchain 2 0 1 2\nchain 0 5 3 4 5\n",
        "c x\n\nversion\t2\ns UNSATISFIABLE\nchain 2 0 4 3\nchain 0 1 3 2 1\n",
    ),
    (CLAUSES, "s UNKNOWN\nchain 2 0 1 2\n", "version 2\ns UNKNOWN\nchain 2 0 4 3\n"),
]


def facts(step: Step) -> tuple:
    """What a step says, whichever line says it."""
    return step.number, step.word, step.predicate, step.clause, step.listed


class Versions(unittest.TestCase):
    def test_both_give_the_same_steps(self):
        for text, one, two in PAIRS:
            problem = parse_problem(text)
            first, second = parse_answer(problem, one), parse_answer(problem, two)
            self.assertIs(type(first), type(second))
            self.assertEqual(*(list(map(facts, answer.steps)) for answer in (first, second)))
            self.assertEqual([s.number for s in first.lemmas], [s.number for s in second.lemmas])

    def test_both_give_the_same_proof(self):
        problem = parse_problem(CLAUSES)
        proofs = [lrat.proof(problem, parse_answer(problem, text)) for text in PAIRS[1][1:]]
        self.assertEqual(*proofs)

    def test_model(self):
        self.assertIsInstance(parse_answer(parse_problem(CLAUSES), "version 2\ns SATISFIABLE\nv 1 -2 0\n"), Model)

    def test_lines_at_fault(self):
        problem = parse_problem(CLAUSES)
        for text, line in [
            ("version 2\n", 1),
            ("version 02\ns UNKNOWN\n", 1),
            ("version 2\nversion 2\ns UNKNOWN\n", 2),
        ]:
            with self.assertRaises(FormatError) as caught:
                parse_answer(problem, text)
            self.assertIn(f"line {line}:", str(caught.exception))


class Migrating(unittest.TestCase):
    def require_program(self) -> str:
        require("migrate")
        return program()

    def test_there_and_back(self):
        found = self.require_program()
        for text, one, two in PAIRS[:2]:
            problem = parse_problem(text)
            answer = parse_answer(problem, one)
            second = answer.migrate(2, found)
            self.assertEqual(second.text, parse_answer(problem, two).text.replace("c x\n\n", "").replace("\t", " "))
            self.assertEqual(second.migrate(1, found).text, one)
        model = parse_answer(parse_problem("1 2 0\n"), "s SATISFIABLE\nv -2 1 0\n")
        self.assertEqual(model.migrate(2, found).text, "version 2\ns SATISFIABLE\nv 1 -2 0\n")

    def test_what_the_program_rejects_is_not_handed_out(self):
        found = self.require_program()
        problem = parse_problem(CLAUSES)
        answer = parse_answer(problem, PAIRS[1][1])
        problem.require(problem.literal(1))
        with self.assertRaisesRegex(RejectedAnswer, "migrate says 'rejected 3 ChainStuck'") as fault:
            answer.migrate(2, found)
        self.assertEqual(fault.exception.problem.read_text(), problem.text())
        shutil.rmtree(fault.exception.problem.parent)

    def test_what_is_no_answer_is_not_handed_out(self):
        answer = parse_answer(parse_problem("1 0\n"), "s SATISFIABLE\nv 1 0\n")
        with tempfile.TemporaryDirectory() as folder:
            with self.assertRaisesRegex(UnexpectedStatus, "another version") as fault:
                answer.migrate(2, stand_in(folder, 2, "usage: solve FILE"))
        shutil.rmtree(fault.exception.problem.parent)
        for wrong in (0, 3, True, "2"):
            with self.assertRaisesRegex(ValueError, "versions 1 and 2"):
                answer.migrate(wrong)


if __name__ == "__main__":
    unittest.main()
