"""Pictures: what is in them, and what is told where there is nothing to draw."""

import contextlib
import io
import itertools
import os
import shutil
import subprocess
import sys
import tempfile
import unittest
import xml.dom.minidom
from pathlib import Path
from unittest import mock

from gulfezo import Model, Problem, draw, layout, marks, panels, parse_answer, parse_problem, svg
from helpers import REPOSITORY, missing

GRAPH = """digraph int 3 3 0
edge 0 0 1 1 5
edge 0 1 2 2 5
edge 0 0 2 3 3
reach 0 0 2 4
weighted_distance_leq 0 0 2 5 8
maximum_flow_geq 0 0 2 6 8
mst_weight_leq 0 7 7
"""
ROUND = """digraph int 3 3 0
edge 0 0 1 1
edge 0 1 2 2
edge 0 2 0 3
acyclic 0 4
"""
LEMMAS = [
    "path 1 -1 -2 4 0 1 2",
    "cut 1 2 3 -4 0 0 1",
    "label 2 3 -5 0 0 0 1 5",
    "flow 3 -1 -2 -3 6 0 1 5 2 5 3 3",
    "flowcut 3 2 -6 0 0 1",
    "split 4 1 3 -7 0 0",
    "least 4 -7 0 1 3",
]


def texts(picture: str) -> list[str]:
    """What a picture says, after a check that it is a well-formed file."""
    document = xml.dom.minidom.parseString(picture)
    return [node.firstChild.data for node in document.getElementsByTagName("text")]


class Drawings(unittest.TestCase):
    def setUp(self):
        self.problem = parse_problem(GRAPH)

    def test_a_model(self):
        model = parse_answer(self.problem, "s SATISFIABLE\nv 1 2 3 4 5 6 -7 0\n")
        found = texts(draw.drawing(self.problem, model))
        self.assertIn("weighted_distance_leq 0 to 2: a walk of weight 3, at most 8", found)
        self.assertIn("5/5", found)
        found = texts(draw.drawing(self.problem, model, predicate=4))
        self.assertIn("mst_weight_leq fails: the lightest tree weighs 8, above 7", found)

    def test_predicates_that_fail(self):
        model = parse_answer(self.problem, "s SATISFIABLE\nv -1 2 -3 -4 -5 -6 -7 0\n")
        for predicate, said in [
            (1, "reach 0 to 2 fails: no edge leaves the filled nodes"),
            (2, "weighted_distance_leq 0 to 2 fails: no edge leaves the filled nodes"),
            (3, "maximum_flow_geq 0 to 2 fails: what leaves the filled nodes can't carry 8"),
            (4, "mst_weight_leq fails: nothing joins the filled nodes with the others"),
        ]:
            self.assertIn(said, texts(draw.drawing(self.problem, model, predicate)))
        far = parse_problem(GRAPH.replace("5 8", "5 2"))
        model = parse_answer(far, "s SATISFIABLE\nv 1 2 3 4 -5 6 -7 0\n")
        found = texts(draw.drawing(far, model, predicate=2))
        self.assertIn("weighted_distance_leq 0 to 2 fails: the shortest walk weighs 3, above 2", found)

    def test_each_word_of_a_lemma(self):
        answer = parse_answer(self.problem, "s UNSATISFIABLE\n" + "\n".join(LEMMAS))
        for step in answer.lemmas:
            found = texts(draw.drawing(self.problem, answer, lemma=step.number))
            self.assertTrue(any(text.startswith(f"{step.word} lemma, clause {step.number}: ") for text in found))
        found = texts(draw.drawing(self.problem, answer, lemma=5))
        self.assertIn("what may still leave the filled nodes carries 3", found)

    def test_cycles_and_orders(self):
        problem = parse_problem(ROUND)
        model = parse_answer(problem, "s SATISFIABLE\nv 1 2 -3 4 0\n")
        found = texts(draw.drawing(problem, model))
        self.assertIn("acyclic: no cycle; each edge leads from a lower place to a higher one", found)
        self.assertLessEqual({"1.", "2.", "3."}, set(found))
        model = parse_answer(problem, "s SATISFIABLE\nv 1 2 3 -4 0\n")
        self.assertIn("acyclic fails: a cycle of 3 edges", texts(draw.drawing(problem, model, predicate=1)))
        answer = parse_answer(problem, "s UNKNOWN\ncycle 1 -1 -2 -3 -4 0 2 3 1\norder 1 3 4 0 0 1 2\n")
        found = texts(draw.drawing(problem, answer, lemma=1))
        self.assertIn("cycle lemma, clause 1: acyclic fails", found)
        self.assertIn("a cycle of 3 edges", found)
        self.assertNotIn("it rests on the absence of the dashed edges", found)
        found = texts(draw.drawing(problem, answer, lemma=2))
        self.assertIn("order lemma, clause 2: acyclic holds", found)
        self.assertIn("it rests on the absence of the dashed edges", found)

    def test_links_loops_and_names_of_markup(self):
        problem = Problem()
        graph = problem.add_graph()
        graph.add_nodes(["<&>", "b@2,1"])
        graph.add_link(0, 1)
        graph.add_edge(0, 0)
        self.assertIn("<&>", texts(draw.drawing(problem, None)))

    def test_what_is_hidden_is_drawn_where_it_is_chosen(self):
        problem = Problem()
        graph = problem.add_graph("streets")
        graph.add_nodes(["a@0,0", "b@1,0", "helper"])
        edges = [graph.add_edge(0, 1), graph.add_edge(1, 2)]
        costs = problem.add_sum([(edge, 5) for edge in edges], "costs")
        costs.at_most(7)
        graph.hide(2)
        again = parse_problem(problem.text())
        for found in (problem, again):
            shown = texts(draw.drawing(found))
            self.assertEqual(shown, ["a", "b"])
            self.assertEqual(texts(draw.drawing(found, graph="sums")), ["costs"] * 3)
            self.assertEqual(texts(draw.drawing(found, graph=0)), texts(draw.drawing(found, graph="streets")))
        self.assertEqual((again.graphs[0].hidden_nodes, again.graphs[1].hidden), ({2}, True))
        with self.assertRaisesRegex(ValueError, "there is no graph towns: the problem has 0 streets, 1 sums"):
            draw.drawing(problem, graph="towns")
        problem.add_graph("streets", nodes=1)
        with self.assertRaisesRegex(ValueError, "choose one by its number"):
            draw.drawing(problem, graph="streets")

    def test_a_lemma_shows_the_hidden_nodes_on_whose_edges_it_rests(self):
        problem = Problem()
        graph = problem.add_graph("site")
        graph.add_nodes(["a@0,0", "b@2,0", "hub", "far"])
        for ends in ((0, 1), (2, 0), (2, 1), (3, 3)):
            graph.add_edge(*ends)
        graph.mst_weight_leq(9)
        graph.hide(2, 3)
        answer = parse_answer(problem, "s UNSATISFIABLE\nsplit 1 2 3 4 -5 0 0 1 3\n")
        self.assertEqual(layout.places(graph)[2:], [(0, 1), (1, 1)])
        self.assertEqual(texts(draw.drawing(problem))[:2], ["a", "b"])
        self.assertEqual(texts(draw.drawing(problem, answer))[:3], ["a", "b", "hub"])

    def test_what_a_link_carries_is_told_beside_walks_and_trees(self):
        problem = Problem()
        graph = problem.add_graph()
        graph.add_nodes(["0,0", "1,0"])
        link = graph.add_link(0, 1, 5)
        ways = [graph.weighted_distance_leq(0, 1, 9), graph.maximum_flow_geq(1, 0, 3), graph.mst_weight_leq(9)]
        values = dict.fromkeys([link.variable, *(way.variable for way in ways)], True)
        found = marks.of_model(Model(problem, values, ""), graph, None, marks.pens())
        (line,) = panels.lines_of(graph, found)
        self.assertEqual((line.edge, line.note, line.arrow), (link.back, "3/5", True))
        self.assertEqual(list(line.pens.values()), [True, False, False])
        for amount in (3, 1):
            found.note(link.back, amount)
        found.note(link.there, 2)
        (line,) = panels.lines_of(graph, found)
        self.assertEqual(line.note, "2/5, 3/5, 1/5")

    def test_a_large_graph_is_laid_out_in_a_ring_at_once(self):
        graph = Problem().add_graph(nodes=layout.MOST_LAID_OUT + 1)
        with mock.patch("gulfezo.layout.by_graphviz") as tool:
            self.assertEqual(layout.places(graph), layout.in_a_ring(len(graph)))
        tool.assert_not_called()

    def test_more_things_than_colours_are_told_apart_by_their_lines(self):
        problem = Problem()
        graph = problem.add_graph(nodes=10)
        edges = [graph.add_edge(place, place + 1) for place in range(9)]
        ways = [graph.reach(place, place + 1) for place in range(9)]
        values = {thing.number: True for thing in (*edges, *ways)}
        picture = draw.drawing(problem, Model(problem, values, ""))
        self.assertEqual(picture.count("stroke-dasharray='14 5'"), 3 + 3)  # the edges, and beside their captions
        self.assertEqual(len(set(itertools.islice(marks.pens(), 24))), 24)

    def test_what_several_walks_share_has_a_line_of_each(self):
        problem = Problem()
        graph = problem.add_graph(nodes=3)
        shared, link, loop = graph.add_edge(0, 1), graph.add_link(1, 2), graph.add_edge(2, 2)
        ways = [graph.reach(0, 2), graph.reach(0, 1), graph.reach(2, 1)]
        values = {thing.number: True for thing in (shared, link, loop, *ways)}
        found = marks.of_model(Model(problem, values, ""), graph, None, marks.pens())
        first, second, third = itertools.islice(marks.pens(), 3)
        lines = {line.edge.edge_number: line for line in panels.lines_of(graph, found)}
        self.assertEqual(list(lines[shared.edge_number].pens), [first, second])
        self.assertEqual(list(lines[link.there.edge_number].pens), [first, third])
        picture = draw.drawing(problem, Model(problem, values, ""))
        strokes = [f"stroke='{pen.colour}' stroke-width='3'" for pen in (first, second, third)]
        self.assertEqual(list(map(picture.count, strokes)), [2, 1, 1])
        found.mark([loop], second)
        found.mark([loop], second)
        found.mark([loop], third)
        shapes = panels.drawn([(graph, found)])
        self.assertEqual([shapes.count(f"r='{radius}'") for radius in (8.5, 13.5)], [1, 1])

    def test_orders_lie_in_layers(self):
        problem = parse_problem(ROUND)
        edges = problem.graphs[0].edges
        self.assertEqual(layout.places(problem.graphs[0], edges[:2]), [(0.0, 0.0), (1.4, 0.35), (2.8, 0.0)])
        self.assertIsNone(layout.in_layers(3, edges))
        self.assertEqual(len(layout.places(problem.graphs[0], edges)), 3)

    def test_long_lines_go_round_nodes(self):
        problem = Problem()
        graph = problem.add_graph()
        graph.add_nodes(["a@0,0", "b@1,0", "c@2,0"])
        for _ in range(2):
            graph.add_edge(0, 2)
        graph.add_edge(2, 0)
        lines = panels.lines_of(graph, marks.bare(graph))
        taken: set = set()
        at = [(0.0, 0.0), (90.0, 0.0), (180.0, 0.0)]
        bent = [panels.around(line, at, [0, 1, 2], taken) for line in lines]
        for line in bent:
            points = svg.along(at[line.edge.start], at[line.edge.end], line.bend)
            self.assertGreater(min(abs(y) for x, y in points if 60 < x < 120), svg.RADIUS)
        self.assertEqual(len(taken), 3)
        self.assertEqual(panels.around(lines[0], at, [0, 2], set()), lines[0])
        self.assertEqual(svg.along((0, 0), (100, 0), 10, 2), [(50, 10)])

    def test_edges_of_a_cut_are_marked(self):
        model = parse_answer(self.problem, "s SATISFIABLE\nv 1 -2 3 4 5 -6 -7 0\n")
        picture = draw.drawing(self.problem, model, predicate=3)
        self.assertIn("maximum_flow_geq 0 to 2 fails: what leaves the filled nodes can't carry 8", texts(picture))
        self.assertEqual(picture.count("stroke-width='4.5'"), 1)
        self.assertIn("3", texts(picture))

    def test_notebooks(self):
        model = parse_answer(self.problem, "s SATISFIABLE\nv 1 2 3 4 5 6 -7 0\n")
        answer = parse_answer(self.problem, "s UNSATISFIABLE\n" + "\n".join(LEMMAS))
        for thing in (model, answer, self.problem.graphs[0]):
            texts(thing._repr_svg_())
        self.assertIsNone(parse_answer(Problem(), "s SATISFIABLE\nv 0\n")._repr_svg_())

    def test_nothing_to_draw(self):
        answer = parse_answer(self.problem, "s UNSATISFIABLE\nchain 0 1\n")
        for wrong in [
            lambda: draw.drawing(Problem(), None),
            lambda: draw.drawing(self.problem, answer),
            lambda: draw.drawing(self.problem, answer, lemma=1),
            lambda: draw.drawing(self.problem, None, graph=5),
            lambda: draw.drawing(parse_problem("digraph 0 0 0\n"), None, graph=0),
        ]:
            with self.assertRaises(ValueError):
                wrong()

    def test_the_first_lemma_of_a_graph(self):
        problem = parse_problem(GRAPH + "digraph 2 1 7\nedge 7 0 1 8\nreach 7 0 1 9\n")
        answer = parse_answer(problem, f"s UNSATISFIABLE\n{LEMMAS[0]}\ncut 5 8 -9 0 0\n")
        self.assertIn("path lemma, clause 1: reach 0 to 2 holds", texts(draw.drawing(problem, answer)))
        self.assertIn("cut lemma, clause 2: reach 0 to 1 fails", texts(draw.drawing(problem, answer, graph=7)))
        with self.assertRaisesRegex(ValueError, "no lemma about graph 7"):
            draw.drawing(problem, parse_answer(problem, f"s UNSATISFIABLE\n{LEMMAS[0]}\n"), graph=7)


class Layouts(unittest.TestCase):
    def test_names_say_where(self):
        graph = Problem().add_graph()
        graph.add_nodes([(0, 0), "hub@2,-1", "x@0.5,1"])
        self.assertEqual(layout.places(graph), [(0, 0), (2, -1), (0.5, 1)])
        self.assertEqual([layout.label(graph, node) for node in range(3)], ["0", "hub", "x"])

    def test_with_and_without_packages(self):
        graph = Problem().add_graph()
        graph.add_nodes(4)
        graph.add_edge(0, 1)
        self.assertEqual(len(layout.places(graph)), 4)
        with mock.patch("shutil.which", lambda _: None):
            self.assertEqual(len(layout.places(graph)), 4)
            for package in ("networkx", "numpy", "scipy"):
                with mock.patch.dict("sys.modules", {package: None}):
                    self.assertEqual(len(layout.places(graph)), 4)
            with mock.patch.dict("sys.modules", {"networkx": None}):
                self.assertEqual(layout.places(graph), layout.in_a_ring(4))

    def test_which_packages_are_there(self):
        graph = Problem().add_graph()
        graph.add_nodes(4)
        layouts = {"Graphviz": layout.by_graphviz, "networkx": layout.by_networkx}
        absent = [name for name, by in layouts.items() if by(graph) is None]
        if absent:
            raise missing(f"layouts by {' and '.join(absent)}: not installed (networkx needs numpy too)")


class Command(unittest.TestCase):
    def test_it_writes_a_picture_or_says_why_not(self):
        with tempfile.TemporaryDirectory() as folder:
            file, answer, out = (Path(folder, name) for name in ("f", "a", "out.svg"))
            file.write_text(GRAPH)
            self.assertEqual(draw.main([str(file), "-o", str(out)]), 0)
            texts(out.read_text())
            answer.write_text("s UNSATISFIABLE\n" + "\n".join(LEMMAS))
            self.assertEqual(draw.main([str(file), str(answer), "-o", str(out), "--unchecked", "--lemma", "2"]), 0)
            self.assertIn("cut lemma, clause 2: reach 0 to 2 fails", texts(out.read_text()))
            told = io.StringIO()
            for text in (
                "s UNSATISFIABLE\ncut 9 1 -4 0 0\n",
                "s UNSATISFIABLE\ncut 0 1 -4 0 0\n",
                "s UNSATISFIABLE\npath 1 -1 4 0 77\n",
                "s SATISFIABLE\nv -1 -2 -3 4 -5 -6 -7 0\n",
            ):
                answer.write_text(text)
                with self.subTest(text), contextlib.redirect_stderr(told):
                    self.assertEqual(draw.main([str(file), str(answer), "-o", str(out), "--unchecked"]), 1)
            self.assertIn("doesn't fit the problem", told.getvalue())
            program = mock.Mock(find=lambda: "x", verdict=lambda *_, **__: "rejected 1 NotAnswer")
            with contextlib.redirect_stderr(told), mock.patch("gulfezo.asked.programs", program):
                self.assertEqual(draw.main([str(file), str(answer), "-o", str(out)]), 1)
            self.assertIn("rejected 1 NotAnswer", told.getvalue())


    def test_the_tools_of_a_checkout(self):
        first = REPOSITORY / "examples" / "first"
        with tempfile.TemporaryDirectory() as folder:
            out = Path(folder, "out.svg")
            for words in (["draw", first / "harbour.gnf", "-o", out], ["lrat", "--help"], ["recheck", "--help"]):
                command = [str(REPOSITORY / "tools" / words[0]), *map(str, words[1:])]
                run = subprocess.run(command, capture_output=True, text=True, check=False)
                self.assertEqual((run.returncode, run.stderr), (0, ""))
            texts(out.read_text())


class Files(unittest.TestCase):
    def setUp(self):
        folder = tempfile.TemporaryDirectory()
        self.addCleanup(folder.cleanup)
        self.folder = Path(folder.name)
        self.file = self.folder / "f"
        self.file.write_text(GRAPH)

    def draw(self, out: Path | str) -> tuple[int, str]:
        told = io.StringIO()
        with contextlib.redirect_stderr(told):
            return draw.main([str(self.file), "-o", str(out)]), told.getvalue()

    def test_the_ending_says_the_format(self):
        for ending, begin in ((".png", b"\x89PNG"), (".pdf", b"%PDF")):
            out = self.folder / f"out{ending}"
            if shutil.which("rsvg-convert") is None:
                raise missing("rsvg-convert isn't installed (Debian: librsvg2-bin)")
            self.assertEqual(self.draw(out), (0, ""))
            self.assertTrue(out.read_bytes().startswith(begin))
        with mock.patch("shutil.which", lambda _: None):
            status, told = self.draw(self.folder / "none.png")
        self.assertEqual((status, (self.folder / "none.png").exists()), (1, False))
        self.assertIn("librsvg2-bin", told)
        status, told = self.draw(self.folder / "out.jpg")
        self.assertEqual(status, 1)
        self.assertIn(".svg, .png or .pdf", told)

    def test_a_full_disk_leaves_nothing_and_an_older_file_stays(self):
        code = (
            "import resource, sys\nfrom gulfezo import draw\n"
            "resource.setrlimit(resource.RLIMIT_FSIZE, (100, 100))\nsys.exit(draw.main(sys.argv[1:]))\n"
        )
        for name in ("new.svg", "old.svg"):
            out = self.folder / name
            if name == "old.svg":
                out.write_text("old")
            run = subprocess.run([sys.executable, "-c", code, str(self.file), "-o", str(out)], capture_output=True)
            self.assertEqual(run.returncode, 1, run.stderr)
            self.assertEqual(out.read_text() if out.exists() else None, "old" if name == "old.svg" else None)
        self.assertEqual(sorted(os.listdir(self.folder)), ["f", "old.svg"])
        self.assertEqual(self.draw("/dev/full"), (1, "gulfezo-draw: [Errno 28] No space left on device: '/dev/full'\n"))
        self.assertIn(f"there is no such folder: '{self.folder}/none'", self.draw(self.folder / "none" / "x.svg")[1])
        self.assertEqual(self.draw("/dev/null")[0], 0)


if __name__ == "__main__":
    unittest.main()
