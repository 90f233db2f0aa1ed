"""Solving: what is handed out, and what isn't, with programs that stand in for a faulty one, and with the program."""

import contextlib
import io
import os
import re
import signal
import subprocess
import sys
import tempfile
import time
import unittest
from pathlib import Path
from unittest import mock

import gulfezo.program
from gulfezo import (
    BudgetSpent,
    GulfezoError,
    Predicate,
    Problem,
    ProgramMissing,
    RejectedAnswer,
    TimeSpent,
    UnexpectedStatus,
    parse_problem,
    reasons,
)
from helpers import REPOSITORY, every_form, heeds_signals, program, require, stand_in


def one_variable() -> Problem:
    problem = Problem()
    problem.require(problem.add_variable())
    return problem


def is_over(pid: Path) -> bool:
    """Whether the process of that number has ended; on a busy machine it may have been ended before it wrote it."""
    try:
        os.kill(int(pid.read_text()), 0)
    except (ProcessLookupError, FileNotFoundError):
        return True
    return False


class FullPipe(io.StringIO):
    """Standard error that nobody reads."""

    def write(self, text: str) -> int:
        raise BrokenPipeError


class StandIns(unittest.TestCase):
    def setUp(self):
        folder = tempfile.TemporaryDirectory()
        self.addCleanup(folder.cleanup)
        self.folder = folder.name

    def solve(self, *given, **named):
        progress = bool(named)
        return one_variable().solve(None, self.folder, stand_in(self.folder, *given, **named), progress)

    def test_an_accepted_answer_is_handed_out(self):
        model = self.solve(10, "s SATISFIABLE\nv 1 0\n", "accepted model")
        self.assertEqual(model.values, {1: True})

    def test_no_other_answer_is(self):
        for status, text, verdict, error in [
            (10, "s SATISFIABLE\nv 1 0\n", "rejected 2 ClauseFalse 1", RejectedAnswer),
            (10, "s SATISFIABLE\nv 1 0\n", "", RejectedAnswer),
            (10, "s SATISFIABLE\nv 1 0\n", "accepted " * 50_000, RejectedAnswer),
            (10, "s UNSATISFIABLE\nchain 0 1\n", "accepted refutation", RejectedAnswer),
            (20, "s UNSATISFIABLE\nchain 0 1\n", "rejected 2 NotCovered", RejectedAnswer),
            (20, "s SATISFIABLE\nv 1 0\n", "accepted refutation", UnexpectedStatus),
            (10, "s SATISFIABLE\nv 0\n", "accepted model", UnexpectedStatus),
            (3, "refused 1 UnknownWord\n", "", UnexpectedStatus),
            (6, "", "", UnexpectedStatus),
            (99, "", "", UnexpectedStatus),
        ]:
            with self.subTest(status=status, verdict=verdict), self.assertRaises(error) as fault:
                self.solve(status, text, verdict)
            for path in (fault.exception.problem, fault.exception.answer):
                self.assertTrue(path.is_file())
                self.assertIn(str(path), str(fault.exception))

    def test_a_fault_is_told_in_words(self):
        said = r"refuses the problem's file.*\(refused 1 UnknownWord\)"
        with self.assertRaisesRegex(UnexpectedStatus, said) as fault:
            self.solve(3, "refused 1 UnknownWord\n", "")
        self.assertIn("begins with a word that the format doesn't have", str(fault.exception))
        self.assertIn(f"line 1 of {self.folder}/problem.gnf: p gnf 1 1\n", str(fault.exception))
        with self.assertRaisesRegex(RejectedAnswer, "the model makes the clause of this number false") as fault:
            self.solve(10, "s SATISFIABLE\nv -1 0\n", "rejected 2 ClauseFalse 1")
        self.assertIn(f"line 2 of {self.folder}/answer: v -1 0\n", str(fault.exception))

    def test_a_program_that_is_killed(self):
        for number, said in ((9, "short of memory"), (11, "ended by signal 11")):
            path = Path(self.folder, "killed")
            path.write_text(f"#!/bin/sh\nkill -{number} $$\n")
            path.chmod(0o755)
            ended = f"solve ended with -{number}: .*{said}"
            with self.subTest(number), self.assertRaisesRegex(UnexpectedStatus, ended):
                one_variable().solve(folder=self.folder, program=str(path), progress=False)

    def test_each_fault_and_reason_of_the_formats_has_its_words(self):
        text = (REPOSITORY / "docs" / "FORMATS.md").read_text()
        for name in reasons.FAULTS | reasons.REASONS:
            self.assertIn(f"`{name}", text)
        for name in re.findall(r"^\| `([A-Z]\w+)", text, re.MULTILINE):
            self.assertIn(name, reasons.FAULTS | reasons.REASONS)

    def test_a_spent_budget_is_neither_checked_nor_read(self):
        with self.assertRaises(BudgetSpent) as fault:
            self.solve(0, "s UNKNOWN\nno step\n", "check isn't asked")
        self.assertEqual(fault.exception.answer.read_text(), "s UNKNOWN\nno step\n")
        self.assertIn(str(fault.exception.answer), str(fault.exception))

    def without_a_folder(self, *given, **named):
        """The folder that a solve makes for itself, and the error with which it ends."""
        made = os.path.join(self.folder, "made")
        os.mkdir(made)
        with mock.patch("tempfile.mkdtemp", lambda prefix: made), self.assertRaises(GulfezoError) as fault:
            one_variable().solve(*given, progress=False, **named)
        return made, fault.exception

    def test_nothing_stays_of_a_spent_budget_without_a_folder(self):
        made, fault = self.without_a_folder(1, program=stand_in(self.folder, 0, "s UNKNOWN\n"))
        self.assertIsInstance(fault, BudgetSpent)
        self.assertEqual((fault.problem, fault.answer, os.path.exists(made)), (None, None, False))

    def test_seconds_end_the_program(self):
        for named in ({"seconds": 30}, {"check_seconds": 30}):
            began = time.monotonic()
            path = stand_in(self.folder, 10, "s SATISFIABLE\nv 1 0\n", "accepted model", **named)
            made, fault = self.without_a_folder(program=path, seconds=0.7)
            self.assertIsInstance(fault, TimeSpent)
            self.assertLess(time.monotonic() - began, 5)
            self.assertFalse(os.path.exists(made))
            self.assertTrue(is_over(Path(self.folder, "pid")))
        for wrong in (0, -1, float("nan")):
            with self.assertRaisesRegex(ValueError, "above 0"):
                one_variable().solve(seconds=wrong)

    def test_signals_end_the_program_and_leave_nothing(self):
        for number in (signal.SIGTERM, signal.SIGINT, signal.SIGHUP):
            with self.subTest(number), tempfile.TemporaryDirectory() as folder:
                path = stand_in(folder, 10, "", seconds=30)
                code = f"from gulfezo import Problem\nproblem = Problem()\nproblem.solve(program={path!r})\n"
                environment = {**os.environ, "PYTHONPATH": str(REPOSITORY / "python"), "TMPDIR": folder}
                pid = Path(folder, "pid")
                words = [sys.executable, "-c", code]
                with subprocess.Popen(
                    words, env=environment, stderr=subprocess.DEVNULL, preexec_fn=heeds_signals
                ) as child:
                    for _ in range(200):
                        if pid.is_file() and pid.read_text():
                            break
                        time.sleep(0.05)
                    child.send_signal(number)
                    self.assertEqual(child.wait(10), -number)
                self.assertTrue(is_over(pid))
                self.assertEqual(sorted(os.listdir(folder)), ["pid", "stand-in"])

    def test_each_phase_is_told(self):
        told = io.StringIO()
        with contextlib.redirect_stderr(told):
            model = self.solve(10, "s SATISFIABLE\nv 1 0\n", "accepted model", check_seconds=1.3)
        lines = told.getvalue().splitlines()
        self.assertIn("gulfezo: checking the answer (0.0 MB), 1 s", lines)
        # Others are told only where they took a second too, as on a machine that does much else.
        slow = {phase for phase, seconds in model.seconds.items() if seconds >= 1}
        self.assertLessEqual({line.split()[1] for line in lines}, slow)

    def test_files_of_a_failure_stay_without_a_folder(self):
        path = stand_in(self.folder, 6, "")
        with mock.patch("tempfile.mkdtemp", lambda prefix: os.path.join(self.folder, "made")):
            os.mkdir(os.path.join(self.folder, "made"))
            with self.assertRaises(UnexpectedStatus) as fault:
                one_variable().solve(program=path, progress=False)
        self.assertTrue(fault.exception.problem.is_file())

    def test_progress_is_told_after_a_second(self):
        told = io.StringIO()
        with contextlib.redirect_stderr(told):
            self.solve(10, "s SATISFIABLE\nv 1 0\n", "accepted model", seconds=1.3)
        self.assertEqual(told.getvalue().splitlines()[0], "gulfezo: solving (variables: 1, clauses: 1), 1 s")

    def test_on_a_terminal_one_line_is_written_over(self):
        told = io.StringIO()
        told.isatty = lambda: True
        with contextlib.redirect_stderr(told):
            self.solve(10, "s SATISFIABLE\nv 1 0\n", "accepted model", seconds=2.3)
        line = "\rgulfezo: solving (variables: 1, clauses: 1)"
        self.assertTrue(told.getvalue().startswith(f"{line}, 1 s{line}, 2 s"))
        self.assertTrue(told.getvalue().endswith(" s\n"))

    def test_a_line_that_nobody_reads_ends_nothing(self):
        with contextlib.redirect_stderr(FullPipe()):
            self.assertTrue(self.solve(10, "s SATISFIABLE\nv 1 0\n", "accepted model", seconds=1.2))

    def test_a_budget_is_a_number_from_1(self):
        with self.assertRaisesRegex(ValueError, "from 1 to"):
            one_variable().solve(conflicts=0)

    def test_progress_is_not_told_where_it_is_not_wanted(self):
        told = io.StringIO()
        path = stand_in(self.folder, 10, "s SATISFIABLE\nv 1 0\n", "accepted model", seconds=1.1)
        with contextlib.redirect_stderr(told):
            one_variable().solve(program=path, progress=False)
        self.assertEqual(told.getvalue(), "")

    def test_what_is_not_the_program_is_told(self):
        for path in ("/bin/true", "/bin/echo", "/bin/false"):
            with self.subTest(path), self.assertRaisesRegex(UnexpectedStatus, f"is {path} the program `gulfezo`"):
                one_variable().solve(folder=self.folder, program=path, progress=False)
        with self.assertRaisesRegex(UnexpectedStatus, "is /bin/true the program"):
            problem = one_variable()
            problem.core([problem.literal(1)], folder=self.folder, program="/bin/true", progress=False)

    def test_words_that_say_two_things_are_refused(self):
        problem = one_variable()
        for named, said in [
            ({"rounds": 5}, "give `workers`"),
            ({"budget": 5, "conflicts": 6}, "another name"),
            ({"budget": 100_000, "conflicts": 6}, "another name"),
            ({"seconds": "5"}, "a number above 0, which '5'"),
            ({"seconds": True}, "above 0"),
        ]:
            with self.subTest(named), self.assertRaisesRegex(ValueError, said):
                problem.solve(**named)
        with self.assertRaisesRegex(TypeError, "a list of literals"):
            problem.solve(assumptions=problem.literal(1))

    def test_a_budget_of_none_is_no_limit(self):
        script = Path(stand_in(self.folder, 10, "s SATISFIABLE\nv 1 0\n", "accepted model"))
        text = script.read_text()
        for budget, said in ((None, str(2**64 - 1)), (7, "7")):
            script.write_text(text.replace("else:", f"else:\n    assert sys.argv[-2:] == ['--conflicts', {said!r}]"))
            one_variable().solve(budget, program=str(script), progress=False)

    def test_phases_are_logged(self):
        with self.assertLogs("gulfezo", "DEBUG") as logged:
            model = self.solve(10, "s SATISFIABLE\nv 1 0\n", "accepted model")
        self.assertTrue(any("DEBUG:gulfezo:runs" in line for line in logged.output))
        self.assertTrue(any("solving (variables: 1, clauses: 1) took" in line for line in logged.output))
        self.assertEqual(set(model.statistics.seconds), {"writing", "solving", "checking", "reading"})

    def test_a_missing_program(self):
        with self.assertRaisesRegex(ProgramMissing, "GULFEZO"):
            one_variable().solve(program=os.path.join(self.folder, "none"))
        nothing = mock.patch.dict(os.environ, {"PATH": "", "GULFEZO": ""})
        with nothing, mock.patch.object(Path, "is_file", lambda _: False):
            with self.assertRaisesRegex(ProgramMissing, "PATH"):
                gulfezo.program.find()


class Solving(unittest.TestCase):
    """With the program itself."""

    def setUp(self):
        self.program = program()

    def test_a_model(self):
        problem = Problem()
        graph = problem.add_graph()
        a, b, c = graph.add_nodes(3)
        edges = [graph.add_edge(a, b), graph.add_edge(b, c), graph.add_edge(a, c)]
        wanted = graph.reach(a, c)
        problem.require(wanted, ~edges[2])
        model = problem.solve(program=self.program)
        self.assertTrue(model)
        self.assertEqual(model.path(wanted), edges[:2])

    def test_a_refutation(self):
        problem = Problem()
        graph = problem.add_graph()
        a, b = graph.add_nodes(2)
        edge = graph.add_edge(a, b)
        problem.require(graph.reach(a, b), ~edge)
        answer = problem.solve(program=self.program)
        self.assertFalse(answer)
        self.assertEqual([step.word for step in answer.lemmas], ["cut"])

    def test_the_program_reads_what_is_written(self):
        """Its printed form has the same edges, predicates and clauses, bounds in the form 'at most' or 'at least'."""
        require("acyclic")
        problem = every_form()
        with tempfile.TemporaryDirectory() as folder:
            problem.write(Path(folder, "f"))
            run = subprocess.run([self.program, "print", f"{folder}/f"], capture_output=True, text=True, check=True)
        found = parse_problem(run.stdout)
        self.assertEqual((found.variables, [*found.edges.rows()]), (problem.variables, [*problem.edges.rows()]))
        self.assertEqual(found.clauses, problem.clauses)

        def meaning(predicate: Predicate) -> tuple[object, ...]:
            return predicate.variable, predicate.kind, predicate.ends, predicate.limit

        self.assertEqual([meaning(p) for p in found.predicates], [meaning(p) for p in problem.predicates])

    def test_cycles(self):
        require("acyclic")
        problem = Problem()
        graph = problem.add_graph()
        a, b, c = graph.add_nodes(3)
        edges = [graph.add_edge(a, b), graph.add_edge(b, c), graph.add_edge(c, a)]
        runs = graph.acyclic()
        problem.require(runs, edges[1], edges[2])
        model = problem.solve(program=self.program)
        self.assertEqual((model[edges[0]], model.order(runs)), (False, [b, c, a]))
        problem.require(edges[0])
        answer = problem.solve(program=self.program)
        self.assertEqual([step.word for step in answer.lemmas], ["cycle"])
        problem = Problem()
        graph = problem.add_graph(nodes=2)
        problem.require(~graph.add_edge(0, 1), ~graph.acyclic())
        graph.add_edge(1, 0)
        self.assertEqual({step.word for step in problem.solve(program=self.program).lemmas}, {"order"})

    def test_wide_weights(self):
        """Sums beyond 2^64: each kind that has weights, at its bound and one off it."""
        require("wide weights")
        most = 2**64 - 1
        problem = Problem()
        graph = problem.add_graph(nodes=3)
        first, second = graph.add_edge(0, 1, most), graph.add_edge(1, 2, most)
        short = graph.add_edge(0, 2, 2**53)
        wide, light = graph.maximum_flow_geq(0, 2, 2**53), graph.mst_weight_leq(2**53)
        near, nearer = graph.weighted_distance_leq(0, 2, 2**53), graph.weighted_distance_lt(0, 2, 2**53)
        problem.require(first, second, ~short)
        model = problem.solve(program=self.program)
        self.assertEqual([model[x] for x in (wide, light, near)], [True, False, False])
        problem.clauses.pop()
        problem.require(short)
        model = problem.solve(program=self.program)
        self.assertEqual([model[x] for x in (wide, light, near, nearer)], [True, False, True, False])
        self.assertEqual([edge.weight for edge in model.path(near)], [2**53])
        problem.require(light)
        self.assertFalse(problem.solve(program=self.program))

    def test_sums_and_counts(self):
        problem = Problem()
        chosen = problem.add_variables(6)
        problem.at_least(4, chosen)
        problem.require(problem.add_sum([(x, 10 - i) for i, x in enumerate(chosen)]).at_most(26))
        model = problem.solve(program=self.program)
        self.assertEqual([model[x] for x in chosen], [False, False, True, True, True, True])


if __name__ == "__main__":
    unittest.main()
