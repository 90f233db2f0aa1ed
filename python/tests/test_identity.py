"""What is the same thing and what isn't: literals, edges, links and predicates, as they are given and come back."""

import copy
import pickle
import unittest

from gulfezo import Link, Literal, Problem, search
from helpers import program


def board() -> tuple:
    """Four nodes in a row, of which the second and the third have a link, and whether the last is reached."""
    problem = Problem()
    graph = problem.add_graph("board")
    a, b, c, d = graph.add_nodes(list("abcd"))
    edges = [graph.add_edge(a, b, 2), graph.add_link(c, b, 3), graph.add_edge(c, d, 4)]
    return problem, graph, edges, graph.reach(a, d)


class Same(unittest.TestCase):
    def test_an_edge_is_the_one_that_was_added(self):
        problem, graph, (ab, cb, cd), there = board()
        self.assertEqual([graph.edges[0], graph.edges[3]], [ab, cd])
        self.assertEqual({graph.edges[0]: 1}[ab], 1)
        self.assertEqual((problem.edges[0], problem.predicates[0], graph.links), (ab, there, [cb]))
        self.assertEqual((cb.there, cb.back, cb.there.link, cb.back.link), (*problem.edges[1:3], cb, cb))
        self.assertNotEqual(ab, cd)

    def test_twice_negated_is_the_thing_itself(self):
        problem, _, things, there = board()
        for thing in (*things, there, problem.add_variable()):
            self.assertEqual(~~thing, thing)
            self.assertIs(type(~~thing), type(thing))
            self.assertEqual((~thing, hash(~thing), (~thing).number), (~thing, hash(~thing), -thing.number))
            self.assertNotEqual(thing, ~thing)
            self.assertIn(~thing, {~thing})

    def test_things_of_two_problems_differ(self):
        one, other = board(), board()
        for mine, yours in zip((*one[2], one[3]), (*other[2], other[3])):
            self.assertEqual(mine.number, yours.number)
            self.assertNotEqual(mine, yours)
            self.assertNotEqual(~mine, ~yours)
            self.assertNotIn(mine, [yours])
        self.assertNotEqual(one[0].add_variable(), other[0].add_variable())
        self.assertNotEqual(Literal(3), one[0].literal(3))

    def test_edges_of_one_variable_differ(self):
        problem, graph, _, _ = board()
        x = problem.add_variable()
        one, other = graph.add_edge(0, 1, variable=x), graph.add_edge(0, 1, variable=x)
        self.assertEqual((one == other, one.number, len({one, other})), (False, other.number, 2))

    def test_nothing_of_them_can_be_changed(self):
        problem, _, things, there = board()
        for thing in (*things, there, ~there, problem.literal(1)):
            with self.assertRaisesRegex(AttributeError, "can't be changed"):
                thing.number = 5
        with self.assertRaisesRegex(AttributeError, "can't be changed"):
            things[0].weight = 5
        with self.assertRaises(AttributeError):
            del there.bound

    def test_names_that_mean_something_else(self):
        _, _, (ab, cb, _), _ = board()
        for name, said in (("value", "model"), ("start", "ends"), ("end", "nodes"), ("nothing", "has no 'nothing'")):
            with self.subTest(name), self.assertRaisesRegex(AttributeError, said):
                getattr(cb, name)
        self.assertEqual((ab.start, ab.end, cb.ends, cb.weight), (0, 1, (2, 1), 3))

    def test_copies(self):
        problem, _, (ab, cb, _), there = board()
        again, edge, link, holds = copy.deepcopy((problem, ab, ~cb, there))
        self.assertIs(edge.owner, again)
        self.assertEqual((edge, ~link, holds), (again.edges[0], again.graphs[0].links[0], again.predicates[0]))
        self.assertNotEqual(edge, ab)
        self.assertEqual(again.text(), problem.text())
        self.assertEqual(pickle.loads(pickle.dumps(problem)).text(), problem.text())

    def test_words(self):
        problem, graph, (ab, cb, _), there = board()
        found = list(map(repr, (ab, cb, ~cb, there, problem.add_variable("x"), graph, problem)))
        self.assertEqual(
            found,
            [
                "<edge 1: from a to b of graph board, weight 2>",
                "<link of c and b of graph board, weight 3>",
                "<not link of c and b of graph board, weight 3>",
                "<predicate 1: reach from a to d of graph board>",
                "<x>",
                "<graph 0 'board': 4 nodes, 4 edges>",
                "<problem: 5 variables, 0 clauses, 1 graph, 4 edges, 1 predicate>",
            ],
        )


class Found(unittest.TestCase):
    """What comes back from the program is what was given."""

    def setUp(self):
        self.program = program()

    def test_a_core_has_the_users_own_objects(self):
        problem, graph, things, there = board()
        problem.require(there)
        core = problem.core([~thing for thing in things], program=self.program)
        self.assertEqual(len(core), 1)
        self.assertTrue(any(~thing in core for thing in things))
        self.assertTrue(any(~thing in core.literals for thing in things))
        self.assertIn(problem.literal(core.literals[0].number), core)
        self.assertNotIn(there, core)
        problem.clauses.pop()
        problem.require(~there)
        core = problem.core([*things, problem.add_variable()], program=self.program)
        self.assertEqual(core.literals, things)
        self.assertEqual([need.literal for need in core.needs], things)

    def test_a_link_is_one_thing_in_walks_edges_and_costs(self):
        problem, graph, things, there = board()
        problem.require(there)
        model = problem.solve(program=self.program)
        self.assertEqual((model.path(there), model.edges(graph)), (things, things))
        self.assertEqual(sum(thing.weight for thing in model.edges(graph)), 9)
        self.assertEqual((model.nodes(there), [edge.end for edge in model.walk(there)]), ([0, 1, 2, 3], [1, 2, 3]))
        self.assertEqual(len(model.present(graph)), 4)
        self.assertEqual(graph.between(1, 2), graph.between(2, 1))
        self.assertIsInstance(graph.between(1, 2)[0], Link)
        self.assertEqual(problem.described(things[1]), "link of c and b of graph board")

    def test_a_link_is_one_thing_in_flows_and_trees(self):
        problem, graph, things, _ = board()
        flow, tree = graph.maximum_flow_geq(0, 3, 2), graph.mst_weight_leq(9)
        problem.require(flow, tree)
        model = problem.solve(program=self.program)
        self.assertEqual(model.tree(tree), things)
        found = model.flow(flow)
        self.assertEqual([found[thing] for thing in things], [2, -2, 2])
        self.assertEqual(found[things[1].there], 0)

    def test_no_link_carries_both_ways(self):
        _, _, (_, cb, _), _ = board()
        self.assertEqual(search.one_way({cb.there: 3, cb.back: 1}), {cb.there: 2})
        self.assertEqual(search.one_way({cb.there: 1, cb.back: 1}), {})


class Unchanged(unittest.TestCase):
    """A call that fails half-way changes nothing."""

    def test_too_many_variables(self):
        problem, graph, things, _ = board()
        problem.variables = 999_990
        before, mark = problem.text(), problem.mark()
        chosen = [problem.literal(number) for number in range(1, 60)]
        for call in (
            lambda: problem.at_most(20, chosen),
            lambda: problem.exactly_one(chosen),
            lambda: problem.add_sum([(x, 1) for x in chosen]),
            lambda: problem.add_schedule({"a": 20, "b": 20}),
        ):
            with self.assertRaisesRegex(ValueError, "variables"):
                call()
            self.assertEqual((problem.mark(), problem.text() == before), (mark, True))

    def test_nodes_edges_and_keys_go_too(self):
        problem, graph, _, _ = board()
        before = problem.text()
        with self.assertRaises(ZeroDivisionError), problem.unchanged_on_error():
            graph.add_link(0, graph.add_node("e", key="key"))
            problem.add_graph("other", nodes=3)
            graph.reach(0, 4)
            problem.require(problem.add_variable("x"))
            problem.add_sum([(problem.literal(1), 1)])
            1 / 0
        self.assertEqual(problem.text(), before)
        self.assertRaises(ValueError, graph.node, "key")
        problem.add_sum([(problem.literal(1), 1)])
        self.assertEqual(graph.add_node("e", key="key"), 4)

    def test_a_schedule_forgets_what_was_taken_away(self):
        problem = Problem()
        shop = problem.add_schedule({"a": 1, "b": 1, "c": 1})
        problem.always()
        known = problem.variables
        for call in (
            lambda: shop.in_order("a", "b", "c"),
            lambda: shop.one_at_a_time("a", "b"),
            lambda: shop.ends,
            lambda: shop.makespan,
        ):
            problem.variables = 999_999  # one more is possible
            mark = problem.mark()
            self.assertRaisesRegex(ValueError, "variables", call)
            self.assertEqual(problem.mark(), mark)
            problem.variables = known
        order = shop["a"].before("b")
        self.assertEqual((list(problem.edges), shop["a"].before(shop["b"])), ([order], order))
        self.assertEqual(shop.makespan.greatest, 3)

    def test_a_large_bound_takes_few_variables(self):
        problem = Problem()
        problem.at_most(1000, problem.add_variables(2000))
        self.assertLess(problem.variables, 5000)


if __name__ == "__main__":
    unittest.main()
