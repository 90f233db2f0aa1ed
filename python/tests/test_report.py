"""Pages about answers: what they hold, and what a real browser makes of them."""

import contextlib
import io
import json
import re
import shutil
import subprocess
import tempfile
import unittest
import unittest.mock
import zlib
from base64 import b64decode
from html.parser import HTMLParser
from pathlib import Path

from gulfezo import Problem, parse_answer, read_answer, read_problem
from gulfezo.report import data, main
from gulfezo.report.page import page
from helpers import REPOSITORY, missing, program

EXAMPLES = REPOSITORY / "examples"
BROWSERS = ("chromium", "chromium-browser", "google-chrome")


def unpacked(text: str) -> str:
    """What a browser unpacks."""
    return zlib.decompress(b64decode(text), -15).decode()


def page_of(name: str) -> str:
    """The page about an example's answer, which isn't judged once more."""
    problem = read_problem(EXAMPLES / f"{name}.gnf")
    answer = read_answer(problem, EXAMPLES / f"{name}.answer")
    return page(name, problem, answer, "accepted, or so the tests of the examples say")


def data_of(text: str) -> dict:
    """What the page's script is given."""
    found = re.search(r"^<script>const DATA = (.*);$", text, re.MULTILINE)
    return json.loads(found[1])


class Pages(unittest.TestCase):
    def test_a_refutation_is_packed_whole(self):
        text = page_of("routing/crossed")
        HTMLParser().feed(text)
        given = data_of(text)
        problem = read_problem(EXAMPLES / "routing" / "crossed.gnf")
        answer = read_answer(problem, EXAMPLES / "routing" / "crossed.answer")
        rows = [row for block in given["blocks"] for row in unpacked(block).split("\n")]
        steps = (EXAMPLES / "routing" / "crossed.answer").read_text().splitlines()[1:]
        self.assertEqual(rows[given["clauses"] :], steps)
        self.assertEqual(rows[0], " ".join(map(str, problem.clauses[0])))
        self.assertEqual(given["kinds"].count("u"), len(answer.lemmas))
        self.assertEqual(given["rested"], [step.number for step in answer.lemmas])
        self.assertIn("net a uses 0,0", unpacked(given["words"]))
        self.assertIsNone(re.search(r"<(?:link|img|iframe)|src=|https?://(?!www\.w3\.org)", text))

    def test_both_versions_give_the_same_rows(self):
        problem = Problem()
        x = problem.add_variable()
        problem.require(x)
        problem.require(~x)
        one = parse_answer(problem, "s UNSATISFIABLE\nchain 0 1 2\n")
        two = parse_answer(problem, "version 2\ns UNSATISFIABLE\nchain 0 2 1\n")
        self.assertEqual(list(data.rows(problem, one)), list(data.rows(problem, two)))

    def test_what_a_last_chain_rests_on(self):
        problem = Problem()
        for clause in ((1, 2), (-1, 2), (1, -2), (-1, -2)):
            problem.add_variables(2 if problem.variables == 0 else 0)
            problem.add_clause([problem.literal(number) for number in clause])
        answer = parse_answer(problem, "s UNSATISFIABLE\nchain 2 0 1 2\npath 1 1 0\npath 1 2 0\nchain 0 5 3 4 6 5\n")
        self.assertEqual(data.roots(problem, answer), ([5, 6, 5], [6]))

    def test_a_model_has_its_picture_and_what_holds(self):
        text = page_of("network/cheapest")
        HTMLParser().feed(text)
        self.assertIn("<svg", text)
        self.assertIn("maximum_flow_geq from harbour@0,1 to market@1,0, 2 of graph sites", text)
        self.assertIn("it holds: a flow of 2", text)
        self.assertNotIn("<script>", text)

    def test_names_of_markup(self):
        problem = Problem()
        graph = problem.add_graph("</script><b>")
        graph.add_nodes(["<i>", "b"])
        problem.require(graph.reach(0, 1))
        answer = parse_answer(problem, "s UNSATISFIABLE\ncut 1 -1 0 0\nchain 0 2 1\n")
        text = page("<script>", problem, answer, "accepted refutation")
        self.assertEqual(text.count("</script>"), 1)
        self.assertNotIn("<b>", text)


class Command(unittest.TestCase):
    def setUp(self):
        folder = tempfile.TemporaryDirectory()
        self.addCleanup(folder.cleanup)
        self.folder = Path(folder.name)

    def run_it(self, *words: str) -> tuple[int, str]:
        told = io.StringIO()
        with contextlib.redirect_stderr(told), unittest.mock.patch.dict("os.environ", {"GULFEZO": program()}):
            return main.main([str(word) for word in words]), told.getvalue()

    def test_only_accepted_answers_have_a_page(self):
        file, answer, out = EXAMPLES / "first" / "routes.gnf", self.folder / "a", self.folder / "page.html"
        answer.write_text((EXAMPLES / "first" / "routes.refutation").read_text())
        self.assertEqual(self.run_it(file, answer, "-o", out)[0], 0)
        self.assertIn("accepted refutation", out.read_text())
        self.assertEqual(self.run_it(file, answer)[0], 0)
        self.assertTrue((self.folder / "a.html").is_file())
        answer.write_text("s SATISFIABLE\nv 1 2 3 4 0\n")
        status, told = self.run_it(file, answer, "-o", self.folder / "none.html")
        self.assertEqual((status, (self.folder / "none.html").exists()), (1, False))
        self.assertIn("rejected 2 ClauseFalse 2", told)
        self.assertEqual(self.run_it(file, self.folder / "missing")[0], 1)

    def test_answers_of_core_and_best(self):
        out = self.folder / "page.html"
        first = EXAMPLES / "first"
        self.assertEqual(self.run_it(first / "wishes.gnf", first / "wishes.core", "-o", out)[0], 0)
        self.assertEqual(data_of(out.read_text())["assumed"], 3)
        best = self.folder / "best"
        with open(best, "wb") as file:
            subprocess.run([program(), "best", str(first / "bridges.gnf"), "1"], stdout=file, check=False)
        status, told = self.run_it(first / "bridges.gnf", best, "--best", "1", "-o", out)
        self.assertEqual(status, 0, told)
        self.assertEqual(data_of(out.read_text())["predicates"][-1][1].split(", ")[-1].split()[0], "8")
        self.assertEqual(self.run_it(first / "bridges.gnf", best, "--best", "2", "-o", out)[0], 1)
        status, told = self.run_it(first / "bridges.gnf", best, "-o", out)
        self.assertEqual(status, 1)
        self.assertIn("--best ATOM", told)


class Browser(unittest.TestCase):
    """The page in a real browser, without a window."""

    def setUp(self):
        self.browser = next(filter(None, map(shutil.which, BROWSERS)), None)
        if self.browser is None:
            raise missing("no browser is installed (Debian: chromium)")
        folder = tempfile.TemporaryDirectory(ignore_cleanup_errors=True)
        self.addCleanup(folder.cleanup)
        self.folder = Path(folder.name)

    def looked_at(self, text: str, fragment: str) -> str:
        """What is in the page once its script has run."""
        path = self.folder / "page.html"
        path.write_text(text)
        words = [self.browser, "--headless", "--no-sandbox", "--disable-gpu", f"--user-data-dir={self.folder / 'user'}"]
        words += ["--virtual-time-budget=10000", "--dump-dom", f"file://{path}#{fragment}"]
        run = subprocess.run(words, capture_output=True, text=True, timeout=600, check=False)
        return run.stdout

    def test_a_lemma(self):
        text = page_of("routing/crossed")
        found = self.looked_at(text, "163")
        self.assertIn("Step 163: cut", found)
        self.assertIn("No edge that may be there leaves the filled nodes.", found)
        self.assertRegex(found, r"<circle [^>]*fill=\"#fde9b8\"")
        self.assertIn("stroke-dasharray=\"7 5\"", found)
        self.assertIn("lemmas that the last chain rests on (15)", found)

    def test_long_lines_go_round_nodes(self):
        problem = Problem()
        graph = problem.add_graph()
        a, b, c = (graph.add_node((x, 0)) for x in range(3))
        near, far = graph.add_edge(a, b), graph.add_edge(a, c)
        way = graph.reach(a, c)
        problem.require(way, ~near, ~far)
        lemma = f"cut 1 -{way.number} {near.number} {far.number} 0 0"
        answer = parse_answer(problem, f"s UNSATISFIABLE\n{lemma}\nchain 0 4 1 2 3\n")
        text = page("round", problem, answer, "accepted refutation")
        self.assertIn("1 graph, 3 nodes, 2 edges, 1 predicate", text)
        bends = re.findall(r'<path d="M[^Q]*Q([^,]*),([^ ]*) ', self.looked_at(text, "4"))
        self.assertEqual([(float(x), float(y)) for x, y in bends], [(45, 0), (90, 68)])

    def test_a_hundred_thousand_steps(self):
        problem = Problem()
        x, y = problem.add_variables(2)
        for clause in ((x, y), (~x, y), (x, ~y), (~x, ~y)):
            problem.add_clause(clause)
        rows = ["chain 2 0 1 2"] * 100_000 + ["chain 0 5 3 4 5"]
        answer = parse_answer(problem, "s UNSATISFIABLE\n" + "\n".join(rows) + "\n")
        text = page("many", problem, answer, "accepted refutation")
        self.assertLess(len(text), 1_000_000)
        found = self.looked_at(text, "100005")
        self.assertIn("Step 100005: chain", found)
        self.assertIn("the empty clause: nothing makes it true", found)
        self.assertIn("all (100,001)", found)
        self.assertLess(found.count('class="row'), 100)


if __name__ == "__main__":
    unittest.main()
