"""Refutations by clauses alone as LRAT and DRAT proofs, judged by checkers that know nothing of chains."""

import contextlib
import io
import itertools
import os
import random
import re
import shutil
import subprocess
import tempfile
import unittest
from pathlib import Path

import acl2
from gulfezo import Problem, lrat, parse_answer, parse_problem
from helpers import REPOSITORY, program
from lrat_checker import accepts_drat, accepts_lrat


def pigeons(holes: int) -> Problem:
    """One pigeon more than there are holes."""
    problem = Problem()
    at = [problem.add_variables(holes) for _ in range(holes + 1)]
    for row in at:
        problem.add_clause(*row)
    for hole in range(holes):
        for one, other in itertools.combinations(at, 2):
            problem.add_clause(~one[hole], ~other[hole])
    return problem


def random_clauses(seed: int) -> Problem:
    """Random clauses of three literals, so many that they contradict each other."""
    drawn, problem = random.Random(seed), Problem()
    variables = problem.add_variables(30)
    for _ in range(220):
        problem.add_clause(*(drawn.choice([x, ~x]) for x in drawn.sample(variables, 3)))
    return problem


def parity(count: int) -> Problem:
    """The parity of some variables along two orders, which differ."""
    problem = Problem()
    variables = problem.add_variables(count)
    ends = []
    for order in (variables, variables[::-1]):
        end = order[0]
        for x in order[1:]:
            total = problem.add_variable()
            for a, b, c in ((~end, ~x, ~total), (~end, x, total), (end, ~x, total), (end, x, ~total)):
                problem.add_clause(a, b, c)
            end = total
        ends.append(end)
    problem.add_clause(*ends)
    problem.add_clause(*(~end for end in ends))
    return problem


def odd_lines() -> Problem:
    """Clauses with repeated literals, a tautology, and one that is listed twice."""
    return parse_problem("1 1 2 0\n1 -1 0\n-1 2 2 0\n-1 2 0\n1 -2 0\n-1 -2 -2 0\n")


PROBLEMS = {
    "contradiction": parse_problem("1 0\n-1 0\n"),
    "empty clause": parse_problem("1 2 0\n0\n"),
    "odd lines": odd_lines(),
    **{f"{holes} holes": pigeons(holes) for holes in range(1, 6)},
    **{f"random {seed}": random_clauses(seed) for seed in range(1, 5)},
    "parity of 6": parity(6),
    "parity of 9": parity(9),
}


class ByHand(unittest.TestCase):
    def test_hints_go_the_other_way(self):
        problem = parse_problem("1 2 0\n-1 2 0\n1 -2 0\n-1 -2 0\n")
        answer = parse_answer(problem, "s UNSATISFIABLE\nchain 2 0 1 2\nchain 0 5 3 4 5\n")
        self.assertEqual(lrat.proof(problem, answer), ["5 2 0 2 1 0", "6 0 5 4 3 0"])
        self.assertEqual(lrat.proof(problem, answer, with_hints=False), ["2 0", "0"])

    def test_a_literal_that_is_true_already_is_no_hint(self):
        # The chain resolves in 1, and its clause keeps the literal 1 all the same.
        problem = parse_problem("1 2 0\n-1 3 0\n")
        answer = parse_answer(problem, "s UNSATISFIABLE\nchain 1 2 3 0 1 2\n")
        self.assertEqual(lrat.proof(problem, answer), ["3 1 2 3 0 1 0"])

    def test_a_lemma_is_refused_by_name(self):
        with tempfile.TemporaryDirectory() as folder:
            file, answer = Path(folder, "f"), Path(folder, "a")
            file.write_text("digraph 2 1 0\nedge 0 0 1 1\nreach 0 0 1 2\n2 0\n-1 0\n")
            answer.write_text("s UNSATISFIABLE\ncut 1 1 -2 0 0\nchain 0 3 1 2\n")
            told = io.StringIO()
            with contextlib.redirect_stderr(told):
                self.assertEqual(lrat.main([str(file), str(answer)]), 1)
            self.assertIn("line 2 of the answer, clause 3, is a lemma `cut` on predicate 1", told.getvalue())
            with contextlib.redirect_stderr(told):
                words = [str(file), str(answer), "--cnf", f"{folder}/cnf", "-o", f"{folder}/proof"]
                self.assertEqual(lrat.main(words), 0)
            self.assertIn(f"the last clause of {folder}/cnf is a lemma", told.getvalue())
            self.assertIn(f"'gulfezo check {file} {answer}' judges it", told.getvalue())
            cnf, proof = Path(folder, "cnf").read_text(), Path(folder, "proof").read_text()
            self.assertEqual((cnf, proof), ("p cnf 2 3\n2 0\n-1 0\n1 -2 0\n", "4 0 2 1 3 0\n"))
            answer.write_text("s SATISFIABLE\nv 1 2 0\n")
            with contextlib.redirect_stderr(told):
                self.assertEqual(lrat.main([str(file), str(answer)]), 1)
            self.assertIn("is no refutation", told.getvalue())

    def test_a_clause_that_is_not_there(self):
        problem = parse_problem("1 0\n-1 0\n")
        for number in (0, 3, 99):
            answer = parse_answer(problem, f"s UNSATISFIABLE\nchain 0 {number} 1\n")
            with self.assertRaisesRegex(lrat.NoCounterpart, "line 2 names a clause that isn't there"):
                lrat.proof(problem, answer)

    def test_the_checkers_of_this_test_refuse(self):
        cnf = "p cnf 2 4\n1 2 0\n-1 2 0\n1 -2 0\n-1 -2 0\n"
        self.assertTrue(accepts_lrat(cnf, "5 2 0 2 1 0\n6 0 5 4 3 0\n"))
        first, last = "5 2 0 2 1 0\n", "6 0 5 4 3 0\n"
        for wrong in ["", first, "5 2 0 1 3 0\n" + last, first + "6 0 5 4 0\n", "5 2 0 9 0\n" + last]:
            self.assertFalse(accepts_lrat(cnf, wrong), wrong)
        self.assertTrue(accepts_drat(cnf, "2 0\n0\n"))
        self.assertFalse(accepts_drat(cnf, "0\n"))


class Solved(unittest.TestCase):
    """The program's own refutations, through the command."""

    def setUp(self):
        self.program = program()
        folder = tempfile.TemporaryDirectory()
        self.addCleanup(folder.cleanup)
        self.folder = Path(folder.name)

    def converted(self, problem: Problem, *words: str) -> tuple[Path, Path]:
        """The clauses and the proof."""
        self.assertFalse(problem.solve(folder=self.folder, program=self.program))
        cnf, proof = self.folder / "cnf", self.folder / "proof"
        files = [str(self.folder / "problem.gnf"), str(self.folder / "answer")]
        self.assertEqual(lrat.main([*files, "-o", str(proof), "--cnf", str(cnf), *words]), 0)
        return cnf, proof

    def judges(self, words: list[str]) -> str:
        """The words that judge the lemmas, as the command tells them, once they have been run and did so."""
        told = io.StringIO()
        with contextlib.redirect_stderr(told):
            self.assertEqual(lrat.main(words), 0)
        (found,) = re.findall("'(gulfezo .*)' judges (?:it|them)", told.getvalue())
        (self.folder / "gulfezo").symlink_to(os.path.abspath(self.program))
        line = found.replace("gulfezo ", "./gulfezo ")
        run = subprocess.run(line, shell=True, cwd=self.folder, stdout=subprocess.PIPE, text=True, check=False)
        self.assertEqual((run.returncode, run.stdout), (0, "accepted refutation\n"))
        return found

    def test_lrat(self):
        for name, problem in PROBLEMS.items():
            with self.subTest(name):
                cnf, proof = self.converted(problem)
                self.assertTrue(accepts_lrat(cnf.read_text(), proof.read_text()))

    def test_drat(self):
        for name, problem in PROBLEMS.items():
            with self.subTest(name):
                cnf, proof = self.converted(problem, "--drat")
                self.assertTrue(accepts_drat(cnf.read_text(), proof.read_text()))

    def test_lemmas_are_further_clauses(self):
        for name in ("network/cheaper", "routing/crossed", "backbone/budget"):
            file, answer = (REPOSITORY / "examples" / f"{name}.{ending}" for ending in ("gnf", "answer"))
            with self.subTest(name), contextlib.redirect_stderr(io.StringIO()):
                cnf, proof = self.folder / "cnf", self.folder / "proof"
                self.assertEqual(lrat.main([str(file), str(answer), "-o", str(proof), "--cnf", str(cnf)]), 0)
                self.assertTrue(accepts_lrat(cnf.read_text(), proof.read_text()))
                words = [str(file), str(answer), "-o", str(proof), "--cnf", str(cnf), "--drat"]
                self.assertEqual(lrat.main(words), 0)
                if name != "network/cheaper":  # its steps are many for the slow checker
                    self.assertTrue(accepts_drat(cnf.read_text(), proof.read_text()))

    def test_assumptions_are_clauses(self):
        problem = Problem()
        graph = problem.add_graph(nodes=4)
        edges = [graph.add_edge(a, b) for a, b in ((0, 1), (1, 3), (0, 2), (2, 3))]
        problem.require(graph.reach(0, 3))
        core = problem.core([~edge for edge in edges], self.folder, self.program)
        proof, cnf = core.refutation.lrat()
        self.assertTrue(accepts_lrat(cnf, proof))
        self.assertEqual(cnf.splitlines()[2:4], [f"{literal.number} 0" for literal in core])
        words = ["-o", str(self.folder / "proof"), "--cnf", str(self.folder / "cnf")]
        files = [str(self.folder / "problem.gnf"), str(self.folder / "answer")]
        self.assertIn("check-with", self.judges([*files, *words]))
        self.assertEqual([(self.folder / name).read_text() for name in ("proof", "cnf")], [proof, cnf])

    def test_the_best_value(self):
        file, answer = REPOSITORY / "examples" / "first" / "bridges.gnf", self.folder / "answer"
        with open(answer, "wb") as out:
            subprocess.run([self.program, "best", str(file), "1"], stdout=out, check=False)
        words = ["-o", str(self.folder / "proof"), "--cnf", str(self.folder / "cnf"), "--best", "1"]
        self.assertIn(f"ask {file} 1 8 ", self.judges([str(file), str(answer), *words]))
        cnf, proof = (self.folder / name for name in ("cnf", "proof"))
        self.assertTrue(accepts_lrat(cnf.read_text(), proof.read_text()))
        problem = Problem()
        x, y = problem.add_variables(2)
        problem.add_clause(x, y)
        best = problem.minimise(problem.add_sum([(x, 2), (y, 3)]), program=self.program)
        proof, cnf = best.refutation.lrat()
        self.assertTrue(accepts_lrat(cnf, proof))
        proof, cnf = best.refutation.lrat(with_hints=False)
        self.assertTrue(accepts_drat(cnf, proof))

    def test_the_checker_that_is_proved_in_acl2(self):
        acl2.book()
        pairs = []
        for name, problem in PROBLEMS.items():
            if name not in ("odd lines", "empty clause"):  # it takes neither tautologies nor an empty clause
                cnf, proof = self.converted(problem)
                pairs.append((cnf.read_text(), proof.read_text()))
        self.assertEqual(acl2.accepted(pairs), [True] * len(pairs))
        cnf_text, proof_text = pairs[-1]
        without_a_hint = [" ".join(line.split()[:-2] + ["0"]) for line in proof_text.splitlines()]
        without_the_end = proof_text.splitlines()[:-1]
        wrong = [(cnf_text, "\n".join(lines)) for lines in (without_a_hint, without_the_end)]
        self.assertEqual(acl2.accepted(wrong), [False] * len(wrong))

    def test_checkers_of_drat_trim(self):
        """Where they are on the PATH; the checkers of this test judge the same proofs."""
        for checker in ("lrat-check", "drat-trim"):
            with self.subTest(checker):
                if shutil.which(checker) is None:
                    self.skipTest(f"{checker} isn't installed (no package of Debian has it)")
                for name, problem in PROBLEMS.items():
                    with self.subTest(name):
                        self.require_verified(checker, problem)

    def require_verified(self, checker: str, problem: Problem) -> None:
        """That checker accepts the refutation."""
        cnf, proof = self.converted(problem, *["--drat"] * (checker == "drat-trim"))
        run = subprocess.run([checker, str(cnf), str(proof)], capture_output=True, text=True, check=False)
        self.assertRegex(run.stdout, r"VERIFIED")
        self.assertNotIn("NOT VERIFIED", run.stdout)


if __name__ == "__main__":
    unittest.main()
