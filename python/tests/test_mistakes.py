"""Mistakes that would encode something else in silence: each is refused where it is made, and changes nothing."""

import contextlib
import copy
import io
import itertools
import os
import subprocess
import sys
import tempfile
import threading
import unittest
import xml.dom.minidom
from pathlib import Path

from gulfezo import And, Core, Edge, FormatError, Incumbent, Least, Literal, Model, Or, Problem, draw, parse_answer
from gulfezo import parse_problem
from helpers import REPOSITORY, assignments, satisfies


def size(problem: Problem) -> tuple[int, ...]:
    """How much a problem has of each thing."""
    return problem.variables, problem.nodes, len(problem.edges), len(problem.predicates), len(problem.clauses)


class Mistakes(unittest.TestCase):
    def setUp(self):
        self.problem, self.other = Problem(), Problem()
        self.graph, self.far = self.problem.add_graph(), self.other.add_graph()
        self.a, self.b = self.graph.add_nodes(2)
        self.x, self.y = self.problem.add_variables(2)
        self.foreign = self.other.add_variable()
        self.before = size(self.problem)

    def refused(self, error: type[Exception], *calls: object) -> None:
        """Each call is refused, and changes nothing."""
        for place, call in enumerate(calls):
            with self.subTest(place), self.assertRaises(error):
                call()
        self.assertEqual(size(self.problem), self.before)


class Told(Mistakes):
    """Each message says what to write."""

    def test_literals_are_neither_reckoned_with_nor_compared(self):
        x, y, problem = self.x, self.y, self.problem
        for call in (lambda: x + y, lambda: sum([x, y]), lambda: 3 * x, lambda: x - 1, lambda: 1 - x):
            with self.assertRaisesRegex(TypeError, r"problem\.at_most\(k, .*problem\.add_sum\("):
                call()
        with self.assertRaisesRegex(TypeError, "is ~a"):
            problem.add_clause(-x)
        total, shop = problem.add_sum([(x, 3), (y, 5)]), problem.add_schedule({"saw": 2, "drill": 1})
        for measured, word in ((total, "total"), (shop["saw"].starts, "time")):
            for call in (lambda m=measured: m <= 5, lambda m=measured: m > 5, lambda m=measured: 5 >= m):
                with self.assertRaisesRegex(TypeError, rf"{word}\.at_most\(5\), {word}\.at_least\(5\)"):
                    call()

    def test_what_was_meant_by_what_is_no_literal(self):
        problem, graph = self.problem, self.graph
        named = graph.add_node("hub")
        for given, said in (
            (1, r"problem\.literal\(1\)"),
            (-2, r"problem\.literal\(-2\)"),
            (named, r"this is a node"),
            (self.x == self.y, "`==`"),
            (None, "by ~$"),
        ):
            with self.assertRaisesRegex(TypeError, said):
                problem.add_clause(given)
        for call in (lambda: graph.add_edge("hub", self.a), lambda: graph.reach(self.a, "hub")):
            with self.assertRaisesRegex(ValueError, r"graph\.node\('hub'\)"):
                call()
        with self.assertRaisesRegex(ValueError, r"graph\.node\(\(3, 1\)\)"):
            graph.add_link((3, 1), self.a)

    def test_what_is_asked_for_takes(self):
        problem, x = self.problem, self.x
        for call in (problem.minimise, problem.maximise):
            for wrong in (x, self.graph.reach(self.a, self.b), [(x, 1)]):
                with self.assertRaisesRegex(ValueError, r"add_sum\(.*no distance, flow or tree"):
                    call(wrong)
        total = problem.add_sum([(x, 1)])
        for wrong in (x, total):
            with self.assertRaisesRegex(ValueError, "no predicate with a bound; of a sum minimise and maximise"):
                problem.best(wrong)
        self.before = size(problem)
        for call, error, said in (
            (lambda: problem.in_turn(Least(total)), TypeError, r"\[Least\(costs\), Greatest\(flow\)\]"),
            (lambda: problem.add_graph(3), ValueError, r"add_graph\(nodes=3\)"),
            (lambda: problem.add_schedule(["cut", "drill"]), TypeError, r"\{'cut': 3, 'drill': 2\}"),
            (lambda: problem.add_networkx([(0, 1)]), TypeError, "'list' is no graph of networkx"),
            (lambda: draw.drawing(problem, x), TypeError, "a model, a refutation, a core or a best value"),
        ):
            with self.assertRaisesRegex(error, said):
                call()
        self.assertEqual(size(problem), self.before)

    def test_what_an_answer_is_asked_for(self):
        problem, graph, x = self.problem, self.graph, self.x
        holds = graph.reach(self.a, self.a)
        model = Model(problem, {number: True for number in range(1, problem.variables + 1)}, "")
        graph.add_node()
        refutation = parse_answer(problem, "s UNSATISFIABLE\ncut 1 -3 0 0\n")
        best = Incumbent(3, model, model, None, None, model.statistics)
        core = Core(problem, [], refutation)
        for call, error, said in (
            (lambda: model.lemmas, AttributeError, "a refutation's"),
            (lambda: model.path(x), ValueError, "these are reach, distance_leq, .*, weighted_distance_lt$"),
            (lambda: model.tree(holds), ValueError, "these are mst_weight_leq, mst_weight_lt$"),
            (lambda: refutation[x], TypeError, "there is no model. Ask `if answer:` first"),
            (lambda: core[x], TypeError, "there is no model"),
            (lambda: best[x], TypeError, r"best\.model\["),
            (lambda: best.path(holds), AttributeError, "its `model` has"),
        ):
            with self.subTest(said), self.assertRaisesRegex(error, said):
                call()
        self.assertEqual(copy.copy(model).values, model.values)
        self.far.add_nodes(5)
        self.far.reach(0, 1)
        with self.assertRaisesRegex(ValueError, "isn't of the problem that this answer is about"):
            draw.drawing(self.other, refutation)


class Literals(Mistakes):
    def test_a_literal_has_no_truth_value(self):
        x, y, problem = self.x, self.y, self.problem
        self.refused(
            TypeError,
            lambda: problem.require(x and y),
            lambda: problem.require(x or y),
            lambda: problem.require(not x),
            lambda: problem.add_clause(x if y else ~x),
            lambda: bool(self.graph.edges or ~x),
        )
        with self.assertRaisesRegex(TypeError, r"And\(a, b\).*Or\(a, b\).*~a"):
            bool(x)

    def test_what_is_no_literal(self):
        x, problem, graph = self.x, self.problem, self.graph
        self.refused(
            TypeError,
            lambda: problem.require(x == x),
            lambda: problem.require([x]),
            lambda: problem.require(x, 1),
            lambda: problem.add_clause(x, 2),
            lambda: problem.add_clause([x], x),
            lambda: problem.add_clause("x"),
            lambda: problem.at_most_one([x, 1]),
            lambda: problem.add_sum([(1, 1)]),
            lambda: graph.add_edge(0, 1, 1, 1),
            lambda: Or(x, True),
        )
        for wrong in (0, True, 1.0, "1"):
            with self.assertRaises(ValueError):
                Literal(wrong)

    def test_another_problem(self):
        problem, graph, foreign = self.problem, self.graph, self.foreign
        with_edge = self.other.add_graph(nodes=2)
        edge, holds = with_edge.add_edge(0, 1), with_edge.reach(0, 1)
        self.refused(
            ValueError,
            *(lambda x=x: problem.add_clause(self.x, x) for x in (foreign, ~foreign, edge, holds)),
            lambda: problem.require(self.x, foreign),
            lambda: problem.exactly_one([self.x, self.y, foreign]),
            lambda: problem.at_least(2, [self.x, foreign]),
            lambda: problem.add_sum([(self.x, 1), (foreign, 1)]),
            lambda: graph.add_edge(0, 1, variable=foreign),
            lambda: graph.reach(0, 1, foreign),
            lambda: Or(self.x, foreign),
            lambda: And(foreign, self.x),
            lambda: problem.add_clause(Literal(99)),
            lambda: problem.literal(3),
            lambda: Or(),
        )
        self.assertEqual(problem.literal(-2), ~self.y)
        model = Model(problem, {1: True, 2: False}, "")
        self.refused(
            ValueError,
            lambda: model[foreign],
            lambda: model[edge],
            lambda: model.path(holds),
            lambda: model.edges(with_edge),
            lambda: model[1],
        )

    def test_a_node_of_another_graph(self):
        second = self.problem.add_graph(nodes=3)
        node = second.add_node()
        self.before = size(self.problem)
        self.refused(
            ValueError,
            lambda: self.graph.add_edge(self.a, node),
            lambda: self.graph.add_link(node, self.b),
            lambda: self.graph.reach(node, self.a),
            lambda: second.maximum_flow_geq(self.a, node, 1),
            lambda: self.graph.add_edge(0, 2),
            lambda: self.graph.add_edge(False, 1),
            lambda: self.graph.add_edge(0, 1.0),
        )
        self.assertIsInstance(second.add_edge(0, node), Edge)
        self.assertEqual(f"{node} {node!r}", "3 3")
        copied = copy.deepcopy(self.problem)
        self.assertEqual(copied.text(), self.problem.text())


class Numbers(Mistakes):
    def test_whole_numbers_within_their_limits(self):
        problem, graph, x = self.problem, self.graph, self.x
        for wrong in (1.5, True, 3.0, "1", None, -1, 2**64):
            calls = [lambda: graph.add_edge(0, 1, wrong), lambda: problem.add_sum([(x, wrong)])]
            calls += [lambda: graph.add_link(0, 1, wrong), lambda: graph.add_nodes(wrong)]
            calls += [lambda: problem.add_variables(wrong)]
            self.refused((ValueError, TypeError), *calls)
        for wrong in (1.5, True, 3.0, "1", None, -1, 2**53 + 1):
            self.refused(
                ValueError,
                lambda: graph.distance_leq(0, 1, wrong),
                lambda: graph.maximum_flow_gt(0, 1, wrong),
                lambda: graph.mst_weight_lt(wrong),
            )
        for wrong in (1.5, True, 3.0, "1", None):
            self.refused(ValueError, lambda: problem.at_most(wrong, [x]), lambda: problem.at_least(wrong, [x]))
        self.refused(
            ValueError,
            lambda: problem.solve(budget=1.0),
            lambda: problem.declare_graph(2**32),
            lambda: graph.add_predicate("reach", (0, 1), 5),
            lambda: graph.add_predicate("mst_weight_leq", (0, 1), 5),
            lambda: graph.add_predicate("reach", None, None),
            lambda: graph.add_predicate("reaches", (0, 1), None),
            lambda: problem.add_graph(nodes=-1),
            lambda: graph.add_nodes(999_999),
            lambda: problem.add_variables(999_999),
        )
        self.assertEqual(list(problem.graphs), [0])

    def test_counts_of_any_size(self):
        problem = self.problem
        problem.at_least(2**70, [self.x])
        problem.at_most(-(2**70), [self.x])
        problem.at_most(2**70, [self.x])
        self.assertEqual(problem.clauses, [(), ()])


class Terms(Mistakes):
    def test_sums_take_pairs_and_bounds_come_first(self):
        problem, x, y = self.problem, self.x, self.y
        for wrong in ([x, y], {x: 1}, (x, 1), [(x, 1), y], x):
            with self.assertRaisesRegex(TypeError, "a list of pairs"):
                problem.add_sum(wrong)
        for call in (problem.at_most_weight, problem.at_least_weight):
            with self.assertRaisesRegex(TypeError, "its bound first"):
                call([(x, 1)], 5)
        self.refused(TypeError, lambda: problem.add_sum([(1, x)]), lambda: problem.at_most_weight(5, [x]))
        self.assertEqual(problem.add_sum(((z, 2) for z in (x, y))).greatest, 4)

    def test_tasks_by_their_keys(self):
        shop, other = (Problem().add_schedule({"a": 1, "b": 2}) for _ in range(2))
        before = shop.problem.text()
        for wrong in (["a", "b"], "c", other["a"], None):
            calls = [shop["a"].before, lambda key: shop.in_order("a", key), lambda key: shop.one_at_a_time("a", key)]
            for call in calls:
                with self.assertRaisesRegex(ValueError, "one by one"):
                    call(wrong)
        self.assertEqual(shop.problem.text(), before)


class Gates(unittest.TestCase):
    def test_by_trying_all_assignments(self):
        for count, word in itertools.product(range(1, 5), (Or, And)):
            problem = Problem()
            chosen = [~x if place % 2 else x for place, x in enumerate(problem.add_variables(count))]
            gate = word(chosen) if count % 2 else word(*chosen)
            models = [v for v in assignments(problem.variables) if satisfies(v, problem.clauses)]
            self.assertEqual(len(models), 2**count)
            for values in models:
                model = Model(problem, values, "")
                self.assertEqual(model[gate], (any if word is Or else all)(model[x] for x in chosen))

    def test_a_list_is_a_clause(self):
        problem = Problem()
        x, y = problem.add_variables(2)
        problem.add_clause([x, ~y])
        problem.add_clause(z for z in (y, x))
        problem.add_clause([])
        self.assertEqual(problem.clauses, [(1, -2), (2, 1), ()])


class Names(Mistakes):
    def test_keys_and_coordinates(self):
        graph = self.problem.add_graph()
        keys = [(1, 23), (12, 3), (1, 2, 3), (1, 2, 4), "hub", ("row", 1)]
        nodes = graph.add_nodes(keys)
        self.assertEqual([graph.node(key) for key in keys], nodes)
        self.assertEqual(len(set(graph.names)), len(keys))
        own = graph.add_node("shown", key=frozenset([1]))
        self.assertEqual(graph.node(frozenset([1])), own)
        graph.add_nodes(["shown", "shown"])
        self.before = size(self.problem)
        self.refused(
            ValueError,
            lambda: graph.add_node(key=frozenset([1])),
            lambda: graph.node("shown"),
            lambda: graph.node("none"),
            lambda: graph.add_node(5),
            lambda: graph.add_nodes(["fine", 5]),
            lambda: self.problem.add_variable(5),
            lambda: self.problem.add_graph(3),
        )
        self.refused(TypeError, lambda: graph.add_node(([1], 2)), lambda: graph.add_node(key=[1]))

    def test_a_copy_finds_nodes_by_the_same_keys(self):
        key, lock = object(), threading.Lock()
        nodes = [self.graph.add_node(key=key), self.graph.add_node("named", key=lock)]
        copied = copy.deepcopy(self.problem).graphs[0]
        self.assertEqual([copied.node(key), copied.node(lock)], nodes)
        self.assertIsInstance(copied.add_edge(copied.node(key), copied.node(lock)), Edge)
        self.assertEqual(self.graph.edges, [])

    def test_names_with_control_characters(self):
        graph, problem = self.graph, self.problem
        for wrong in ("a\x00b", "\x1b[1m", "a\x7f", "\u2028", "\ud800", "\t"):
            self.refused(
                ValueError,
                lambda: graph.add_node(wrong),
                lambda: graph.add_node((wrong, 1)),
                lambda: problem.add_variable(wrong),
                lambda: problem.add_graph(wrong),
            )
        drawn = draw.drawing(parse_problem("digraph 1 0 0\nc node 0 0 a\x01\x1b<b\n"), None)
        xml.dom.minidom.parseString(drawn)

    def test_numbers_and_blanks_as_the_files_have_them(self):
        for wrong in ("1\x0b0\n", "１ 0\n", "1_0 0\n", "+1 0\n", "1.0 0\n", "digraph 1\xa00 0\n"):
            with self.subTest(wrong), self.assertRaises(FormatError) as fault:
                parse_problem(wrong)
            self.assertEqual(fault.exception.line, 1)


class Commands(unittest.TestCase):
    def setUp(self):
        folder = tempfile.TemporaryDirectory()
        self.addCleanup(folder.cleanup)
        self.folder = Path(folder.name)

    def test_a_predicate_lemma_or_graph_that_is_not_there(self):
        file, answer, model = (str(self.folder / name) for name in ("f", "a", "m"))
        Path(file).write_text("digraph 2 1 0\nedge 0 0 1 1\nreach 0 0 1 2\n")
        Path(answer).write_text("s UNSATISFIABLE\ncut 1 1 -2 0 0\n")
        Path(model).write_text("s SATISFIABLE\nv 1 2 0\n")
        out = ["-o", str(self.folder / "svg"), "--unchecked"]
        for words, said in [
            ([file, "--predicate", "99"], "there is no predicate 99"),
            ([file, answer, "--predicate", "1"], "no predicate of a refutation"),
            ([file, model, "--predicate", "2"], "there is no predicate 2"),
            ([file, model, "--lemma", "1"], "a model has no lemmas"),
            ([file, answer, "--lemma", "2"], "no step has the number 2"),
            ([file, answer, "--graph", "1"], "there is no graph 1"),
            ([file, "--graph", "-1"], "there is no graph -1"),
        ]:
            told = io.StringIO()
            with self.subTest(words), contextlib.redirect_stderr(told):
                self.assertEqual(draw.main([*words, *out]), 1)
            self.assertIn(said, told.getvalue())

    def test_a_closed_pipe(self):
        file, answer = self.folder / "f", self.folder / "a"
        file.write_text("1 0\n-1 0\n" * 10)
        wide = " ".join(map(str, range(1, 1001)))
        answer.write_text("s UNSATISFIABLE\n" + f"chain {wide} 0 1\n" * 2000 + "chain 0 1 2\n")
        words = [sys.executable, "-m", "gulfezo.lrat", str(file), str(answer)]
        environment = {**os.environ, "PYTHONPATH": str(REPOSITORY / "python")}
        run = subprocess.Popen(words, stdout=subprocess.PIPE, stderr=subprocess.PIPE, env=environment)
        run.stdout.readline()
        run.stdout.close()
        self.assertEqual(run.stderr.read(), b"")
        run.stderr.close()
        self.assertIn(run.wait(), (0, 1))


if __name__ == "__main__":
    unittest.main()
