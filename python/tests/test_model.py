"""What is read from a model: edges, walks, flows and trees, and the sum of amounts along a ladder."""

import itertools
import tempfile
import unittest

from gulfezo import FormatError, Model, PackageMissing, Problem, Progress, Refutation
from gulfezo import drawing, parse_answer, read_answer, search
from helpers import assignments, missing


class Fixture(unittest.TestCase):
    """Four nodes, five edges, of which the last one is absent, and a predicate of each kind."""

    def setUp(self):
        self.problem = Problem()
        self.graph = graph = self.problem.add_graph()
        graph.add_nodes(["a", "b", "c", "d"])
        ends = [(0, 1, 2), (1, 3, 2), (0, 2, 5), (2, 3, 5), (0, 3, 1)]
        self.edges = [graph.add_edge(u, v, w) for u, v, w in ends]
        self.reach = graph.reach(0, 3)
        self.heavy = graph.weighted_distance_leq(0, 3, 4)
        self.flow = graph.maximum_flow_geq(0, 3, 6)
        self.tree = graph.mst_weight_leq(9)
        self.back = graph.reach(3, 0)
        self.text = "s SATISFIABLE\nv 1 2 3 4 -5\nv 6 7 8 9 -10 0\n"
        self.model = parse_answer(self.problem, self.text)


class Reading(Fixture):
    def test_values(self):
        self.assertTrue(self.model)
        self.assertTrue(self.model[self.edges[0]] and self.model[~self.edges[4]] and not self.model[~self.reach])
        self.assertEqual(self.model.edges(self.graph), self.edges[:4])

    def test_walks(self):
        self.assertEqual(len(self.model.path(self.reach)), 2)
        self.assertEqual(self.model.path(self.heavy), self.edges[:2])

    def test_a_flow_keeps_to_capacities_and_is_kept_at_nodes(self):
        flow = self.model.flow(self.flow)
        self.assertTrue(all(0 < amount <= edge.weight for edge, amount in flow.items()))
        net = [0, 0, 0, 0]
        for edge, amount in flow.items():
            net[edge.start] += amount
            net[edge.end] -= amount
        self.assertEqual(net, [6, 0, 0, -6])

    def test_a_tree(self):
        tree = self.model.tree(self.tree)
        self.assertEqual(sorted(e.edge_number for e in tree)[:2], [1, 2])
        self.assertEqual(sum(e.weight for e in tree), 9)

    def test_an_order(self):
        problem = Problem()
        graph = problem.add_graph(nodes=4)
        edges = [graph.add_edge(u, v) for u, v in [(3, 1), (1, 0), (0, 3)]]
        runs = graph.acyclic()
        for absent, order in [(0, [1, 0, 2, 3]), (1, [0, 2, 3, 1]), (2, [2, 3, 1, 0])]:
            values = {edge.number: edge != edges[absent] for edge in edges} | {runs.number: True}
            self.assertEqual(Model(problem, values, "").order(runs), order)
        model = Model(problem, {1: True, 2: True, 3: True, 4: False}, "")
        with self.assertRaisesRegex(ValueError, "there isn't an order"):
            model.order(runs)
        self.assertIsNone(search.topological_order(4, edges))
        self.assertEqual(search.shortest_cycle(edges), edges)
        self.assertIsNone(search.shortest_cycle(edges[:2]))

    def test_what_does_not_hold_is_refused(self):
        model = self.model
        wrong = [(model.path, self.back), (model.path, self.flow), (model.tree, self.reach), (model.order, self.tree)]
        for read, predicate in wrong:
            with self.assertRaises(ValueError):
                read(predicate)
        with self.assertRaisesRegex(ValueError, "solve again"):
            self.model[self.problem.add_variable()]

    def test_networkx(self):
        try:
            graph = self.model.networkx(self.graph)
        except PackageMissing as fault:
            raise missing(str(fault)) from fault
        self.assertEqual(sorted(graph.edges(keys=True)), [(0, 1, 1), (0, 2, 3), (1, 3, 2), (2, 3, 4)])
        self.assertEqual(graph.edges[2, 3, 4]["weight"], 5)


class Texts(Fixture):
    def test_steps(self):
        text = "c x\ns UNSATISFIABLE\npath 1 -1 -2 6 0 1 2\nflow 3 8 0 1 0\nchain 0 1\n"
        answer = parse_answer(self.problem, text)
        self.assertIsInstance(answer, Refutation)
        self.assertFalse(answer)
        self.assertEqual([step.number for step in answer.lemmas], [1, 2])
        self.assertEqual(answer.step(1).clause, (-1, -2, 6))
        self.assertEqual(answer.step(2).pairs, [(1, 0)])
        with self.assertRaisesRegex(ValueError, "from 1 to 3"):
            answer.step(4)
        self.assertIsInstance(parse_answer(self.problem, "s UNKNOWN\n"), Progress)

    def test_an_answer_is_about_the_problem_as_it_was(self):
        text = "s UNSATISFIABLE\ncut 1 1 3 5 -6 0 0\nchain 0 1\n"
        answer = parse_answer(self.problem, text)
        before = drawing(self.problem, answer)
        self.problem.add_sum([(self.problem.add_variable(), 5)]).at_most(3)
        self.assertEqual(drawing(self.problem, answer), before)
        with self.assertRaisesRegex(ValueError, "were 0 clauses when this answer came, and are 3"):
            answer.lrat()
        self.graph.add_edge(0, 3)
        with self.assertRaisesRegex(ValueError, "graph 0 isn't as it was"):
            drawing(self.problem, answer)
        self.assertIsNone(answer._repr_svg_())

    def test_blank_lines_and_comments(self):
        for text in [
            "c x\n\n \t\r\ns UNSATISFIABLE \nc\npath 1 6 0\n\nc chain 0\r\n\tchain\t0 1\r\n \nc",
            "\ns UNSATISFIABLE\r\n  \npath 1 6 0\nc\tx\n\nchain 0 1",
            "s UNSATISFIABLE\npath 1 6 0\n  c\nchain 0 1\n\n",
        ]:
            answer = parse_answer(self.problem, text)
            self.assertEqual([step.word for step in answer.steps], ["path", "chain"])
            self.assertEqual([text.split("\n")[step.line - 1].split()[0] for step in answer.steps], ["path", "chain"])
            self.assertEqual((len(answer.lemmas), answer.steps[-1].number, answer.text), (1, 2, text))

    def test_a_file_is_read_step_by_step(self):
        with tempfile.NamedTemporaryFile() as file:
            file.write(b"s UNSATISFIABLE\nchain 1 0 1\nchain x 0\nchain 0 2 1\n")
            file.flush()
            answer = read_answer(self.problem, file.name)
        self.assertEqual(answer.steps[-1].clause, ())
        with self.assertRaises(FormatError) as fault:
            answer.steps[1]
        self.assertEqual(fault.exception.line, 3)

    def test_what_is_no_answer(self):
        short, no_number = "s SATISFIABLE\nv 1 0\n", "s UNSATISFIABLE\nchain x 0\n"
        other = f"s SATISFIABLE\nv {' '.join(map(str, range(2, 12)))} 0\n"
        wide = f"s UNSATISFIABLE\nc\nchain 0 {'9' * 5000}\n"
        for text, line in [
            ("", 1),
            ("s MAYBE\n", 1),
            (short, 2),
            (other, 2),
            (no_number, 2),
            (wide, 3),
            ("s UNKNOWN\n\npath\n", 3),
            ("s UNKNOWN\nchain 0 1\x0b2\n", 2),
        ]:
            with self.subTest(text[:40]), self.assertRaises(FormatError) as fault:
                parse_answer(self.problem, text)
            self.assertEqual(fault.exception.line, line)

    def test_zeros_before_a_number(self):
        zeros = "0" * 5000
        answer = parse_answer(self.problem, f"s UNSATISFIABLE\nflow 3 -{zeros}1 8 {zeros} {zeros}1 0\nchain -0 1\n")
        self.assertEqual((answer.steps[0].clause, answer.steps[0].pairs), ((-1, 8), [(1, 0)]))
        self.assertEqual((answer.steps[1].clause, answer.steps[1].listed), ((), (1,)))


class Sums(unittest.TestCase):
    def test_the_walk_is_as_long_as_the_sum(self):
        problem = Problem()
        x, y, z = problem.add_variables(3)
        total = problem.add_sum([(x, 3), (~y, 5), (z, 0)])
        for values in assignments(problem.variables):
            model = Model(problem, values, "")
            if not all(any(values[abs(a)] == (a > 0) for a in clause) for clause in problem.clauses):
                continue
            walk = search.shortest_walk(model.edges(total.graph), 0, 3, True)
            self.assertEqual(sum(e.weight for e in walk), 3 * model[x] + 5 * model[~y])


class Searches(unittest.TestCase):
    def test_small_graphs_against_each_other(self):
        """The value of a flow is the capacity of the cut that is found (strong duality)."""
        pairs = [(0, 1), (1, 2), (0, 2), (2, 3), (1, 3), (2, 1)]
        for weights in itertools.product([0, 1, 3], repeat=len(pairs)):
            graph = Problem().add_graph()
            graph.add_nodes(4)
            edges = [graph.add_edge(u, v, w) for (u, v), w in zip(pairs, weights)]
            flow = search.flow_of_at_least(edges, 0, 3, 99)
            side = search.narrowest_cut(edges, 0, 3)
            cut = sum(e.weight for e in edges if e.start in side and e.end not in side)
            self.assertEqual(sum(a for e, a in flow.items() if e.end == 3), cut)


if __name__ == "__main__":
    unittest.main()
