"""Small problems at random: what the front says of them, and what trying all assignments says."""

import itertools
import random
import unittest

from gulfezo import Problem
from helpers import program

Signs = tuple[bool, ...]


class Drawn:
    """A problem of clauses, a count, a sum, and a graph of edges and links, with what trying all assignments gives."""

    def __init__(self, seed: int) -> None:
        self.random = drawn = random.Random(seed)
        self.problem = problem = Problem()
        self.variables = problem.add_variables(drawn.randrange(2, 7))
        self.clauses = [self.literals(drawn.randrange(1, 4)) for _ in range(drawn.randrange(6))]
        for clause in self.clauses:
            problem.add_clause(clause)
        self.most = drawn.randrange(len(self.variables) + 1)
        problem.at_most(self.most, self.variables)
        self.terms = [(x, drawn.choice((0, 1, 2, 5, 9))) for x in self.literals(6)]
        self.total = problem.add_sum(self.terms, "total")
        self.edges: list[tuple[int, int, int, int, bool]] = []
        graph = problem.add_graph(nodes=4)
        for place, variable in enumerate(self.variables[:5]):
            (start, end), weight, both = drawn.sample(range(4), 2), drawn.randrange(4), drawn.random() < 0.5
            self.edges.append((start, end, weight, place, both))
            (graph.add_link if both else graph.add_edge)(start, end, weight, variable=variable)
        self.way, self.flow = graph.weighted_distance_leq(0, 3, 1), graph.maximum_flow_geq(0, 3, 1)

    def literals(self, count: int) -> list:
        """So many literals of different variables, or as many as there are."""
        chosen = self.random.sample(self.variables, min(count, len(self.variables)))
        return [self.random.choice((x, ~x)) for x in chosen]

    @staticmethod
    def is_true(signs: Signs, literal) -> bool:
        return signs[literal.variable - 1] == (literal.number > 0)

    def models(self) -> list[Signs]:
        """All models."""
        every = itertools.product([False, True], repeat=len(self.variables))
        few = (signs for signs in every if sum(signs) <= self.most)
        return [signs for signs in few if all(any(self.is_true(signs, x) for x in clause) for clause in self.clauses)]

    def sum_in(self, signs: Signs) -> int:
        return sum(amount for x, amount in self.terms if self.is_true(signs, x))

    def arcs(self, signs: Signs) -> list[tuple[int, int, int]]:
        """What is there, each way by itself."""
        present = [edge for edge in self.edges if signs[edge[3]]]
        return [(u, v, w) for u, v, w, *_ in present] + [(v, u, w) for u, v, w, _, both in present if both]

    def distance(self, signs: Signs) -> int | None:
        least = {0: 0}
        for _ in range(4):
            for start, end, weight in self.arcs(signs):
                if start in least:
                    least[end] = min(least.get(end, 99), least[start] + weight)
        return least.get(3)

    def capacity(self, signs: Signs) -> int:
        """That of a narrowest cut."""
        sides = [{0}, {0, 1}, {0, 2}, {0, 1, 2}]
        return min(sum(w for u, v, w in self.arcs(signs) if u in side and v not in side) for side in sides)

    def wanted(self) -> tuple[int | None, ...]:
        """The least and the greatest sum, the shortest way, the greatest flow, and the number of models."""
        models = self.models()
        sums, flows = [self.sum_in(signs) for signs in models], [self.capacity(signs) for signs in models]
        ways = [way for signs in models if (way := self.distance(signs)) is not None]
        least, greatest = min(sums, default=None), max(sums, default=None)
        return least, greatest, min(ways, default=None), max(flows, default=None), len(models)

    def found(self, path: str) -> tuple[int | None, ...]:
        """The same by the front."""
        problem = self.problem
        asked = [problem.minimise(self.total, program=path), problem.maximise(self.total, program=path)]
        asked += [problem.minimise(self.way, program=path), problem.maximise(self.flow, program=path)]
        values = (answer.value if answer else None for answer in asked)
        return *values, sum(1 for _ in problem.models(over=self.variables, program=path))


class Tried(unittest.TestCase):
    def test_small_problems(self):
        path = program()
        for seed in range(12):
            with self.subTest(seed):
                drawn = Drawn(seed)
                self.assertEqual(drawn.found(path), drawn.wanted())


if __name__ == "__main__":
    unittest.main()
