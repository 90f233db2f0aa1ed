"""Problems as texts: written, read back, and refused where they can't be."""

import doctest
import itertools
import tempfile
import unittest
from pathlib import Path
from unittest import mock

import gulfezo
import gulfezo.problem
from gulfezo import FormatError, Problem, cardinality, parse_problem, read_problem
from helpers import assignments, every_form, satisfies


def load_tests(loader, tests, pattern):
    tests.addTests(doctest.DocTestSuite(gulfezo))
    tests.addTests(doctest.DocTestSuite(gulfezo.problem))
    return tests


class Texts(unittest.TestCase):
    def test_every_form(self):
        self.assertEqual(
            every_form().text().splitlines(),
            [
                "p gnf 12 2",
                "c variable 1 x, a variable",
                "digraph int 3 3 0",
                "c graph 0 a graph",
                "c node 0 0 first",
                "c node 0 1 2,3",
                "edge 0 0 1 1 7",
                "edge 0 1 2 2 1",
                "edge 0 2 1 2 1",
                "reach 0 0 2 3",
                "distance_leq 0 0 1 4 1",
                "distance_lt 0 0 1 5 2",
                "weighted_distance_leq 0 0 1 6 3",
                "weighted_distance_lt 0 0 1 7 4",
                "maximum_flow_geq 0 0 1 8 5",
                "maximum_flow_gt 0 0 1 9 6",
                "mst_weight_leq 0 10 7",
                "mst_weight_lt 0 11 8",
                "acyclic 0 12",
                "1 -1 0",
                "0",
            ],
        )

    def test_reading_gives_it_back(self):
        text = every_form().text()
        self.assertEqual(parse_problem(text).text(), text)

    def test_clauses_over_several_lines(self):
        self.assertEqual(parse_problem("c x\n1 -2\n3 0 4 0\n\n0\n").clauses, [(1, -2, 3), (4,), ()])

    def test_a_line_that_is_not_understood_is_named(self):
        for text, line in [
            ("1 0\nedge 0 1 2 3\n", 2),
            ("digraph int 3 0 0\n\nreach 0 0 5 1\n", 3),
            ("digraph int 3 0 0\nreach 0 0 1 2 3\n", 2),
            ("digraph 1 0 0\nacyclic 0 1 2\n", 2),
            ("x y\n", 1),
            ("1 0\n2 3\nc the end\n\n", 2),
            ("1 2\nc x\ndigraph 1 0 0\n3 0\n", 3),
            ("digraph 1 0 0\nedge 0 0 0 1 1 1\n", 2),
            ("digraph float 1 0 0\n", 1),
            ("p gnf 1\n", 1),
            ("9" * 5000 + " 0\n", 1),
        ]:
            with self.subTest(text[:40]), self.assertRaises(FormatError) as fault:
                parse_problem(text)
            self.assertEqual(fault.exception.line, line)
            self.assertLess(len(str(fault.exception)), 600)

    def test_numbers_and_comments_of_any_kind(self):
        self.assertEqual(parse_problem("0" * 5000 + "1 -0\n").clauses, [(1,)])
        wide = f"c graph {'9' * 5000} x"
        for comment in ("c variable 1 \x0b", "c variable \u00b2 x", "c variable 1", "c node 0 0 x", wide):
            self.assertEqual(parse_problem(f"{comment}\n1 0\n").clauses, [(1,)])
        problem = Problem()
        problem.add_variable("\u00a0a \u00a0")
        self.assertEqual(parse_problem(problem.text()).text(), problem.text())

    def test_a_carriage_return_ends_no_line(self):
        with tempfile.TemporaryDirectory() as folder:
            file = Path(folder, "f")
            file.write_bytes(b"c not\r5 0\n1\r2 0\r\n")
            self.assertEqual(read_problem(file).clauses, [(1, 2)])

    def test_nodes_are_found_by_the_names_in_a_file(self):
        graph = parse_problem("digraph 3 0 0\nc node 0 0 a\nc node 0 1 hub@3,1\nc node 0 0 b\n").graphs[0]
        self.assertEqual((graph.node("b"), graph.node("hub@3,1"), graph.names), (0, 1, ["b", "hub@3,1", ""]))
        self.assertRaises(ValueError, graph.node, "a")
        self.assertEqual(graph.add_node("a"), 3)


class Refusals(unittest.TestCase):
    def test_what_can_not_be_written(self):
        problem = Problem()
        graph = problem.add_graph()
        graph.add_nodes(2)
        x, other = problem.add_variable(), Problem().add_variables(9)[8]
        for wrong in [
            lambda: graph.add_edge(0, 2),
            lambda: graph.add_edge(-1, 0),
            lambda: graph.add_edge(0, 1, 2**64),
            lambda: graph.add_edge(0, 1, variable=~x),
            lambda: graph.add_edge(0, 1, variable=other),
            lambda: graph.distance_leq(0, 1, -1),
            lambda: graph.maximum_flow_geq(1, 1, 1),
            lambda: graph.add_node("two\nlines"),
            lambda: problem.add_variable("two\nlines"),
            lambda: problem.add_graph("two\rlines"),
            lambda: problem.add_clause(other),
        ]:
            with self.assertRaises(ValueError):
                wrong()
        self.assertEqual((problem.variables, problem.edges, problem.predicates, problem.clauses), (1, [], [], []))


class Cardinality(unittest.TestCase):
    def test_by_trying_all_assignments(self):
        for count, bound in itertools.product(range(7), range(8)):
            for word in ("at_most", "at_least"):
                problem = Problem()
                chosen = problem.add_variables(count)
                getattr(problem, word)(bound, chosen)
                if problem.variables > 11:
                    continue
                found = {
                    tuple(values[x.number] for x in chosen)
                    for values in assignments(problem.variables)
                    if satisfies(values, problem.clauses)
                }
                wanted = {
                    signs
                    for signs in itertools.product([False, True], repeat=count)
                    if (sum(signs) <= bound if word == "at_most" else sum(signs) >= bound)
                }
                self.assertEqual(found, wanted, (word, bound, count))

    def test_exactly_one_of_many(self):
        for pairwise in (cardinality.PAIRWISE, 3):  # by pairs, and by the counter
            problem = Problem()
            chosen = problem.add_variables(7)
            with mock.patch.object(cardinality, "PAIRWISE", pairwise):
                problem.exactly_one(chosen)
            self.assertEqual(problem.variables > 7, pairwise == 3)
            found = [v for v in assignments(problem.variables) if satisfies(v, problem.clauses)]
            self.assertEqual(sorted(sum(v[x.number] for x in chosen) for v in found), [1] * len(found))
            self.assertEqual({x.number for v in found for x in chosen if v[x.number]}, set(range(1, 8)))


if __name__ == "__main__":
    unittest.main()
