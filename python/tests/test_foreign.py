"""Files of other programs, and graphs of networkx: what is read, and what is refused by its line and word."""

import tempfile
import unittest
from pathlib import Path

from gulfezo import FormatError, Problem, read_dimacs, read_monosat
from helpers import missing


class Files(unittest.TestCase):
    def setUp(self):
        folder = tempfile.TemporaryDirectory()
        self.addCleanup(folder.cleanup)
        self.file = Path(folder.name, "f")

    def read(self, by, text: str) -> Problem:
        self.file.write_text(text, encoding="utf-8")
        return by(self.file)

    def refused(self, by, *cases: tuple[str, int, str]) -> None:
        """Each text is refused at that line, and what is said has these words."""
        for text, line, said in cases:
            with self.subTest(text), self.assertRaises(FormatError) as fault:
                self.read(by, text)
            self.assertEqual(fault.exception.line, line)
            self.assertIn(said, fault.exception.reason)

    def test_dimacs(self):
        for text in ("c x\np cnf 3 2\n1 -2\n0 3 0\n", "1 -2 0\n3 0", "p cnf 3 2\n1 -2 0\n3 0\n%\n0\n"):
            self.assertEqual(self.read(read_dimacs, text).text(), "p gnf 3 2\n1 -2 0\n3 0\n")
        self.assertEqual(self.read(read_dimacs, "p cnf 5 1\n1 0\n").variables, 5)
        self.refused(
            read_dimacs,
            ("p cnf 3 2\n1 0\nreach 0 0 1 2\n", 3, "`reach`"),
            ("p gnf 1 1\n1 0\n", 1, "`p cnf`"),
            ("p cnf 1 1\np cnf 1 1\n1 0\n", 2, "one header"),
            ("p cnf 1 2\n1 0\n", 2, "the file has 1 and 1"),
            ("p cnf 1 1\n2 0\n", 2, "the file has 2 and 1"),
            ("1 0\n2\n", 2, "isn't ended by 0"),
            ("1 x 0\n", 1, "no natural number"),
            ("p wcnf 1 1 1\n", 1, "`p cnf`"),
            ("1 0\n2\nc x\n", 2, "isn't ended by 0"),
        )

    def test_monosat(self):
        text = (
            "c x\np cnf 3 1\ndigraph int 0 0 0 streets\nnode 0 0 a\nnode 0 1\ndigraph 2 0 3\nsymbol 3 there\n"
            "edge 0 0 1 1 4\nedge 3 1 0 2\nreach 0 0 1 3\nmst_weight_lt 3 5 2\nsolve\nacyclic 0 6\n1 -3 0\nsolve\n"
        )
        found = self.read(read_monosat, text)
        self.assertEqual(
            found.text(),
            "p gnf 6 1\nc variable 3 there\ndigraph int 2 1 0\nc graph 0 streets\nc node 0 0 a\ndigraph int 2 1 3\n"
            "edge 0 0 1 1 4\nedge 3 1 0 2 1\nreach 0 0 1 3\nmst_weight_lt 3 5 2\nacyclic 0 6\n1 -3 0\n",
        )
        self.refused(
            read_monosat,
            ("1 0\nbv const 4 1\n", 2, "`bv`"),
            ("forest 0 1\n", 1, "`forest`"),
            ("digraph float 2 1 0\n", 1, "weights `int`"),
            ("digraph 1 0 0\nnode 0 2 a\n", 2, "before node 1"),
            ("node 0 0\n", 1, "`node`"),
            ("digraph 1 0 0\nreach 0 0 1 1\n", 2, "no node 1"),
            ("digraph 1 0 0\nedge 0 0 0 1 -3\n", 2, "no natural number"),
            ("symbol 0 a\n", 1, "from 1"),
            ("1 0\nsolve 1 -2\n", 2, "`solve`: it assumes literals"),
            ("1 2\nsolve\n", 2, "isn't ended by 0"),
            ("minimize bv 1\n", 1, "`minimize`"),
            ("1 2\n", 1, "isn't ended by 0"),
            ("1 2\ndigraph 1 0 0\n", 2, "isn't ended by 0"),
        )
        self.assertEqual(found.graphs[0].node("a"), 0)

    def test_a_carriage_return_ends_no_line(self):
        for by in (read_dimacs, read_monosat):
            self.file.write_bytes(b"c not\r5 0\r\n1\r2 0\n")
            self.assertEqual(by(self.file).clauses, [(1, 2)])


class Plain:
    """What `Problem.from_networkx` asks of a graph, in a test where networkx may be missing."""

    def __init__(self, nodes, edges, directed):
        self.nodes, self.given, self.directed = nodes, edges, directed

    def is_directed(self) -> bool:
        return self.directed

    def edges(self, data: bool) -> list[tuple[object, object, dict[str, object]]]:
        return self.given


class Graphs(unittest.TestCase):
    def test_arbitrary_keys(self):
        keys = ["hub", (1, 2), 7, frozenset({1}), "", "two\nlines", (1, "x\ty"), 1.5]
        edges = [(keys[k], keys[k + 1], {"weight": k, "cost": 9}) for k in range(len(keys) - 1)] + [(7, 7, {})]
        for directed in (True, False):
            with self.assertRaisesRegex(ValueError, "from 7 to 7 has no 'weight'"):
                Problem.from_networkx(Plain(keys, edges, directed))
            problem = Problem.from_networkx(Plain(keys, edges, directed), default=1)
            graph = problem.graphs[0]
            self.assertEqual([graph.node(key) for key in keys], list(range(len(keys))))
            weights = [edge.weight for edge in graph.between(graph.node("hub"), graph.node((1, 2)))]
            self.assertEqual(weights, [0])
            self.assertEqual(len(graph.between(graph.node((1, 2)), graph.node("hub"))), 0 if directed else 1)
            self.assertEqual(len(problem.text().splitlines()), len(problem.edges) + 2 + sum(map(bool, graph.names)))
        with self.assertRaisesRegex(ValueError, "an edge's weight"):
            Problem.from_networkx(Plain([0, 1], [(0, 1, {"weight": 0.5})], True))
        problem = Problem.from_networkx(Plain([0, 1], [(0, 1, {"weight": 0.5, "cost": 3})], True), weight="cost")
        self.assertEqual(problem.edges[0].weight, 3)

    def test_networkx_itself(self):
        try:
            import networkx
        except ImportError:
            raise missing("networkx isn't installed (Debian: python3-networkx)") from None
        given = networkx.MultiDiGraph()
        given.add_edge("a", ("b", 1), weight=4)
        given.add_edge("a", ("b", 1))
        graph = Problem.from_networkx(given, default=1).graphs[0]
        self.assertEqual([e.weight for e in graph.between(graph.node("a"), graph.node(("b", 1)))], [4, 1])


if __name__ == "__main__":
    unittest.main()
