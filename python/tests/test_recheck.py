"""The second checker: what it says of answers to the examples, of altered ones, and beside the program."""

import contextlib
import io
import itertools
import subprocess
import sys
import tempfile
import unittest
from pathlib import Path

from gulfezo.recheck import formats, graphs, judging, main
from helpers import REPOSITORY, program

FIRST = REPOSITORY / "examples" / "first"
ROUTES = FIRST / "routes.gnf"


def said(*words: str | Path) -> tuple[int, str]:
    """The exit code of the command and what it writes."""
    told = io.StringIO()
    with contextlib.redirect_stdout(told):
        status = main.main([str(word) for word in words])
    return status, told.getvalue().strip()


class Command(unittest.TestCase):
    def setUp(self):
        folder = tempfile.TemporaryDirectory()
        self.addCleanup(folder.cleanup)
        self.folder = Path(folder.name)

    def judged(self, answer: str) -> tuple[int, str]:
        path = self.folder / "answer"
        path.write_text(answer)
        return said(ROUTES, path)

    def test_the_examples(self):
        for file in (REPOSITORY / "examples").glob("*/*.answer"):
            self.assertEqual(said(file.with_suffix(".gnf"), file)[0], 0, file)
        self.assertEqual(said(FIRST / "wishes.gnf", FIRST / "wishes.core", "6", "-1", "-2"), (0, "accepted refutation"))

    def test_what_is_wrong_is_named(self):
        for answer, verdict in [
            ("s UNSATISFIABLE\ncut 1 -4 3 2 0 0 1\nchain 0 4 2 3 1\n", (0, "accepted refutation")),
            ("s UNSATISFIABLE\ncut 1 -4 3 0 0 0 1\nchain 0 4 2 3 1\n", (1, "rejected 2 MissingLiteral")),
            ("s UNSATISFIABLE\ncut 1 -4 3 2 0 1\nchain 0 4 2 3 1\n", (1, "rejected 2 WitnessFails")),
            ("s UNSATISFIABLE\ncut 1 -4 3 2 0 0 1\nchain 0 4 2 3\n", (1, "rejected 3 NotCovered")),
            ("s UNSATISFIABLE\ncut 1 -4 3 2 0 0 1\n", (1, "rejected 2 NoEmptyClause")),
            ("s SATISFIABLE\nv 1 2 -3 4 0\n", (1, "rejected 2 ClauseFalse 2")),
            ("", (1, "rejected 1 NotAnswer")),
        ]:
            self.assertEqual(self.judged(answer), verdict)

    def test_words_and_files(self):
        self.assertEqual(said(ROUTES), (2, main.USAGE))
        self.assertEqual(said(ROUTES, ROUTES, "0"), (2, main.USAGE))
        self.assertEqual(said(ROUTES, self.folder / "none"), (4, "read fault"))
        self.assertEqual(said(self.folder / "none", ROUTES), (4, "read fault"))
        wrong = self.folder / "wrong"
        wrong.write_text("edge 0 1 2 3\n")
        self.assertEqual(said(wrong, self.folder / "none"), (3, "refused 1 UnknownGraph"))

    def test_it_says_what_the_program_says(self):
        lines = (FIRST / "routes.refutation").read_text().splitlines()
        found = program()
        for place, token in itertools.product(range(len(lines)), range(6)):
            altered = [line.split() for line in lines]
            if token < len(altered[place]):
                altered[place][token] = "2" if altered[place][token] != "2" else "3"
            path = self.folder / "answer"
            path.write_text("".join(" ".join(row) + "\n" for row in altered))
            run = subprocess.run([found, "check", str(ROUTES), str(path)], capture_output=True, text=True, check=False)
            self.assertEqual(said(ROUTES, path), (run.returncode, run.stdout.strip()))

    def test_it_runs_by_itself(self):
        words = [sys.executable, "-m", "gulfezo.recheck.main", str(ROUTES), str(FIRST / "routes.refutation")]
        run = subprocess.run(words, capture_output=True, text=True, check=False)
        self.assertEqual((run.returncode, run.stdout, run.stderr), (0, "accepted refutation\n", ""))

    def test_it_shares_nothing_with_the_rest(self):
        for path in Path(main.__file__).parent.glob("*.py"):
            lines = path.read_text().splitlines()
            imports = [line for line in lines if line.startswith(("from ..", "import gulfezo", "from gulfezo"))]
            self.assertEqual(imports, [], path)


class Graphs(unittest.TestCase):
    """What is written for speed, against what the words mean."""

    def test_small_graphs(self):
        pairs = [(0, 1), (1, 2), (2, 0), (1, 1), (0, 2)]
        for chosen in itertools.product([0, 1], repeat=len(pairs)):
            edges = [graphs.Edge(0, u, v, k + 1, k) for k, (u, v) in enumerate(pairs) if chosen[k]]
            walks = {(u, v) for u, v in pairs if any((e.start, e.end) == (u, v) for e in edges)}
            for _ in range(3):
                walks |= {(u, w) for u, v in walks for x, w in walks if v == x}
            self.assertEqual(graphs.has_cycle(3, edges), any(u == v for u, v in walks))
            for start in range(3):
                found = graphs.distances(3, edges, "reach", start)
                reached = {u for u in range(3) if u == start or (start, u) in walks}
                self.assertEqual({u for u in range(3) if found[u] is not None}, reached)
            names = graphs.joined(3, edges)
            self.assertEqual(len(set(names)), 3 - len(graphs.lightest_forest(3, dict(enumerate(edges)))))

    def test_bridges_one_by_one_and_all_at_once(self):
        weights = itertools.product([1, 2, 3], repeat=3)
        for first, second, third in weights:
            ends = ((0, 1, first), (1, 2, second), (0, 2, third))
            edges = {n: graphs.Edge(0, u, v, n, w) for n, (u, v, w) in enumerate(ends, 1)}
            for tree in ([1, 2], [1, 3], [2, 3]):
                single = all(graphs.is_bridged(3, edges, tree, edge) for edge in edges.values())
                self.assertEqual(graphs.are_bridged(3, edges, tree, edges), single)

    def test_lines_and_edges(self):
        self.assertEqual(list(formats.lines(b"\nc x\n 1\t2\r\n3")), [(3, [b"1", b"2"]), (4, [b"3"])])
        problem = formats.read(ROUTES.read_bytes())
        edges = problem.edges_of(problem.predicates[0])
        problem.edges.append(problem.edges[0])
        self.assertEqual(len(problem.edges_of(problem.predicates[0])), len(edges) + 1)
        self.assertEqual(judging.outcome("check", b"1 0\n", b"s SATISFIABLE\nv 1 0\n"), (0, "accepted model\n"))


if __name__ == "__main__":
    unittest.main()
