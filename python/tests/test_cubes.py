"""Cubes: the tree and its cover, runs over local processes and over Dask, wrong and killed workers, judging again."""

import contextlib
import importlib.util
import io
import itertools
import json
import os
import random
import shutil
import signal
import subprocess
import sys
import tempfile
import time
import unittest
from pathlib import Path
from unittest import mock

from gulfezo import Problem
from gulfezo.cubes import main
from gulfezo.cubes.auditing import NotAccepted, judge_folder
from gulfezo.cubes.engines import Local
from gulfezo.cubes.folder import Folder, FolderError
from gulfezo.cubes.judging import checksum, said
from gulfezo.cubes.page import names_of, page
from gulfezo.cubes.run import NotJudged, Plan, Run
from gulfezo.cubes.splitting import Splitting
from gulfezo.cubes.tree import Tree, cover, refutation_of_cover
from helpers import REPOSITORY, assignments, missing, program, satisfies

CROSSED = REPOSITORY / "examples" / "routing" / "crossed.gnf"
BOARD = REPOSITORY / "examples" / "routing" / "board.gnf"


def pigeons(holes: int) -> bytes:
    """One pigeon more than there are holes."""
    problem = Problem()
    rows = [problem.add_variables(holes) for _ in range(holes + 1)]
    for row in rows:
        problem.add_clause(row)
    for hole in range(holes):
        for one, other in itertools.combinations(rows, 2):
            problem.add_clause(~one[hole], ~other[hole])
    return problem.text().encode()


class Trees(unittest.TestCase):
    def test_leaves_cover_all_and_the_refutation_says_so(self):
        """By trying all assignments, and by `check`."""
        rng = random.Random(1)
        found = program()
        for size in range(9):
            tree = Tree()
            for _ in range(size):
                leaf = rng.choice(list(tree.leaves()))
                free = set(range(1, 10)) - {abs(literal) for literal in leaf.literals}
                tree.split(leaf, rng.choice(sorted(free)))
            cubes = [leaf.literals for leaf in tree.leaves()]
            self.assertEqual(len(cubes), size + 1)
            clauses = [tuple(-literal for literal in cube) for cube in cubes]
            self.assertFalse(any(satisfies(values, clauses) for values in assignments(9)))
            with tempfile.TemporaryDirectory() as folder:
                file, answer = Path(folder, "f"), Path(folder, "a")
                file.write_text(cover(cubes))
                answer.write_text(refutation_of_cover(tree))
                self.assertEqual(said(found, "check", file, answer), "accepted refutation")

    def test_a_cube_is_split_once_and_on_what_it_does_not_decide(self):
        tree = Tree()
        root = tree.cube(1)
        for wrong in (0, -3):
            self.assertRaises(ValueError, tree.split, root, wrong)
        tree.split(root, 3)
        self.assertRaises(ValueError, tree.split, root, 4)
        self.assertRaises(ValueError, tree.split, tree.cube(3), 3)
        self.assertRaises(ValueError, tree.cube, 4)
        self.assertRaises(ValueError, tree.cube, 0)

    def test_splitting_uses_only_what_the_problem_has(self):
        tree = Tree()
        by_learned, by_occurrence = (Splitting(b"p cnf 9 2\n1 -2 0 2\n3 0\n", way) for way in ("learned", "occurrence"))
        self.assertEqual(by_occurrence.choice(tree.cube(1), (3,)), 2)
        self.assertEqual(by_learned.choice(tree.cube(1), (99, -1, 0, 9, 3)), 3)
        tree.split(tree.cube(1), 3)
        self.assertEqual(by_learned.choice(tree.cube(2), (3,)), 2)
        tree.split(tree.cube(2), 2)
        tree.split(tree.cube(4), 1)
        self.assertIsNone(by_learned.choice(tree.cube(6), ()))
        self.assertEqual(Splitting(b"--1 0\n-\n1-2 0\n" + b"0" * 5000 + b"1 0\n-3 0\n").frequent, (3,))

    def test_a_page_shows_names_as_text(self):
        tree = Tree()
        tree.split(tree.cube(1), 7)
        tree.split(tree.cube(3), 2)
        shown = page("a <b>", tree, {7: "x & y"})
        for wanted in ("a &lt;b&gt;", "split on x &amp; y", "not x &amp; y", "variable 2", "3 cubes"):
            self.assertIn(wanted, shown)
        self.assertNotIn("<b>", shown)
        self.assertEqual(names_of(b"c variable 7 x & y\r\nc variable " + b"9" * 5000 + b" z\n"), {7: "x & y"})


class Folders(unittest.TestCase):
    """Without the program."""

    def setUp(self):
        folder = tempfile.TemporaryDirectory()
        self.addCleanup(folder.cleanup)
        self.root = Path(folder.name)

    def test_what_is_no_line_of_a_log_is_cut_off(self):
        folder = Folder(self.root, b"1 0\n")
        folder.tree.split(folder.tree.cube(1), 1)
        folder.tell(folder.tree.cube(1), 0.5, on=1)
        folder.close()
        log = self.root / "log"
        told = log.read_bytes()
        for more in (b"\xff\xfe\n", b"\0\0\0", b'{"cube": 9}\n', b'{"cube": 1, "is"', b"[]\n" + told):
            log.write_bytes(told + more)
            folder = Folder(self.root, b"1 0\n")
            self.assertEqual(len(folder.tree.cubes), 3)
            folder.close()
            self.assertEqual(log.read_bytes(), told)

    def test_the_folder_lies_beside_its_file(self):
        file, solver = self.root / "problem.gnf", self.root / "solver"
        file.write_text("1 0\n")
        solver.write_text("#!/bin/sh\nexit 9\n")
        solver.chmod(0o755)
        told = io.StringIO()
        with mock.patch.dict(os.environ, {"GULFEZO": str(solver)}), contextlib.redirect_stderr(told):
            self.assertEqual(main.main([str(file), "--quiet", "--workers", "1"]), 1)
        self.assertIn("has no accepted answer after 5 runs: solve ended with 9", told.getvalue())
        self.assertTrue(Path(f"{file}.cubes", "log").is_file())

    def test_a_run_that_goes_on_does_not_believe_its_log(self):
        file, solver = self.root / "problem.gnf", self.root / "solver"
        file.write_text("1 0\n-1 0\n")
        solver.write_text(
            "#!/bin/sh\ncase $1 in check*) grep -q wrong \"$3\" && echo rejected || echo accepted refutation ;;\n"
            "*) echo s UNSATISFIABLE; echo chain 0 1 2; exit 20 ;; esac\n"
        )
        solver.chmod(0o755)
        log, answer = Path(f"{file}.cubes", "log"), Path(f"{file}.cubes", "answers", "1")
        for wrong, runs in (("", 1), ("", 1), ("wrong", 2)):
            if wrong:
                row = json.loads(log.read_text())
                answer.write_text(wrong)
                log.write_text(json.dumps({**row, "sha256": checksum(answer)}) + "\n")
            with mock.patch.dict(os.environ, {"GULFEZO": str(solver)}), contextlib.redirect_stdout(io.StringIO()):
                self.assertEqual(main.main([str(file), "--quiet", "--workers", "1"]), 20)
            self.assertEqual(answer.read_text(), "s UNSATISFIABLE\nchain 0 1 2\n")
            self.assertEqual(log.read_text().count('"refuted"'), runs)


class Case(unittest.TestCase):
    """What all runs need."""

    def setUp(self):
        self.program = program()
        folder = tempfile.TemporaryDirectory()
        self.addCleanup(folder.cleanup)
        self.root = Path(folder.name)

    def command(self, *words: object) -> tuple[int, str, str]:
        """The status of gulfezo-cubes, and what it writes."""
        out, told = io.StringIO(), io.StringIO()
        with mock.patch.dict(os.environ, {"GULFEZO": self.program}):
            with contextlib.redirect_stdout(out), contextlib.redirect_stderr(told):
                status = main.main(["--quiet", *map(str, words)])
        return status, out.getvalue(), told.getvalue()

    def made(self, text: bytes) -> Path:
        """A file with the text."""
        path = self.root / "problem"
        path.write_bytes(text)
        return path

    def rows(self, folder: Path) -> list[dict]:
        """The log."""
        return [json.loads(line) for line in (folder / "log").read_text().splitlines()]

    def environment(self, **named: str) -> dict[str, str]:
        """Of other processes, which find this package, and leave what they leave in this test's folder."""
        found = {"GULFEZO": self.program, "PYTHONPATH": str(REPOSITORY / "python"), "TMPDIR": str(self.root)}
        return {**os.environ, **found, **named}

    def script(self, text: str) -> str:
        """A program of its own."""
        path = self.root / f"solver-{len(list(self.root.iterdir()))}"
        path.write_text(f"#!/bin/sh\n{text}\n")
        path.chmod(0o755)
        return str(path)


class Runs(Case):
    """Over processes of this machine."""

    def test_cubes_are_refuted_and_judged_again(self):
        folder = self.root / "cubes"
        for file, split in ((self.made(pigeons(6)), "learned"), (CROSSED, "occurrence")):
            words = ("--cubes", 4, "--workers", 2, "--probe", 20, "--split", split)
            status, out, told = self.command(file, *words, "-o", folder)
            self.assertEqual((status, told), (20, ""))
            self.assertIn("accepted refutation; judge it again", out)
            status, out, told = self.command("--judge", folder, file)
            cubes = json.loads((folder / "manifest.json").read_text())["cubes"]
            self.assertGreaterEqual(len(cubes), 2)
            self.assertEqual((status, out, told), (0, f"accepted refutation, by {len(cubes)} cubes\n", ""))
            self.assertIn(f"{len(cubes)} cubes, {len(cubes)} of them refuted", (folder / "tree.html").read_text())
            before = (folder / "log").read_text()
            self.assertEqual(self.command(file, *words, "-o", folder)[0], 20)
            self.assertEqual((folder / "log").read_text(), before)
            shutil.rmtree(folder)

    def test_a_model_ends_the_run(self):
        folder = self.root / "cubes"
        words = (BOARD, "--cubes", 4, "--workers", 1, "--probe", 1, "-o", folder)
        self.assertEqual(self.command(*words)[0], 10)
        self.assertEqual(said(self.program, "check", BOARD, folder / "model"), "accepted model")
        self.assertEqual(self.command("--judge", folder)[:2], (0, "accepted model\n"))
        self.assertEqual(self.command(*words)[0], 10)

    def test_what_is_not_as_it_was_is_not_accepted(self):
        folder, changed = self.root / "cubes", self.root / "changed"
        file = self.made(pigeons(4))
        self.assertEqual(self.command(file, "--cubes", 3, "--workers", 1, "--probe", 2, "-o", folder)[0], 20)
        manifest = json.loads((folder / "manifest.json").read_text())
        first = manifest["cubes"][0]["answer"]

        def without_a_cube():
            manifest["cubes"].pop()

        def another_cover():
            without_a_cube()
            (changed / "cover.gnf").write_text(cover([row["literals"] for row in manifest["cubes"]]))
            name = subprocess.run(["sha256sum", changed / "cover.gnf"], capture_output=True, text=True, check=True)
            manifest["files"]["cover.gnf"] = name.stdout.split()[0]

        def another_answer():
            manifest["cubes"][0] = {**manifest["cubes"][1], "literals": manifest["cubes"][0]["literals"]}

        for change, fault in [
            (lambda: (changed / first).write_text("s UNSATISFIABLE\nchain 0 1\n"), "isn't the file of the manifest"),
            (lambda: (changed / "cover").write_text("s UNSATISFIABLE\n"), "isn't the file of the manifest"),
            (lambda: (changed / "problem.gnf").write_bytes(pigeons(5)), "isn't the file of the manifest"),
            (without_a_cube, "doesn't negate the manifest's cubes"),
            (another_cover, "cover: check says 'rejected "),
            (another_answer, "check says 'rejected "),
            (lambda: manifest["cubes"][0].update(answer="../problem"), "is no name of an answer"),
            (lambda: manifest["files"].update({"../problem": ""}), "isn't the file of the manifest"),
            (lambda: manifest.update(format="x"), "its format is 'x'"),
            (lambda: manifest.clear(), "no folder of a run that has ended"),
        ]:
            with self.subTest(fault):
                shutil.copytree(folder, changed)
                manifest = json.loads((folder / "manifest.json").read_text())
                change()
                (changed / "manifest.json").write_text(json.dumps(manifest))
                with self.assertRaisesRegex(NotAccepted, fault):
                    judge_folder(changed, self.program)
                shutil.rmtree(changed)
        with self.assertRaisesRegex(NotAccepted, "isn't about"):
            judge_folder(folder, self.program, CROSSED)
        self.assertEqual(self.command("--judge", self.root)[0], 1)

    def test_a_killed_run_goes_on(self):
        file, folder = self.made(pigeons(7)), self.root / "cubes"
        words = [str(file), "--cubes", "6", "--workers", "1", "--probe", "20", "-o", str(folder)]
        line = [sys.executable, "-m", "gulfezo.cubes.main", *words]
        with subprocess.Popen(line, env=self.environment(), stderr=subprocess.DEVNULL) as child:
            log = folder / "log"
            while child.poll() is None and not (log.exists() and log.read_text().count("refuted") >= 2):
                time.sleep(0.01)
            child.send_signal(signal.SIGKILL)
        before = log.read_text()
        log.write_text(before + '{"cube": 1, "is"')  # the half of a line
        status, _, told = self.command(*words)
        self.assertEqual((status, told), (20, ""))
        self.assertTrue(log.read_text().startswith(before))
        told = [row["cube"] for row in self.rows(folder) if row["is"] == "refuted"]
        self.assertEqual(len(told), len(set(told)))
        self.assertEqual(self.command("--judge", folder)[0], 0)

    def test_a_run_that_goes_on_has_its_tries_behind_it(self):
        problem = pigeons(4)
        folder = Folder(self.root / "cubes", problem)
        for variable in (1, 2):
            cube = folder.tree.cubes[-1]
            folder.tree.split(cube, variable)
            folder.tell(cube, 0.5, on=variable)
        folder.tell(folder.tree.cubes[-1], 0.5, probed=True)
        folder.close()
        folder = Folder(self.root / "cubes", problem)
        run = Run(Plan(2, 10, 10, self.program, self.program), folder, Local(problem, 1), Splitting(problem))
        self.assertEqual((run.tries, len(run.open), run.are_too_few()), (3, 3, False))
        run = Run(Plan(9, 10, 10, self.program, self.program), folder, Local(problem, 1), Splitting(problem))
        self.assertTrue(run.are_too_few())
        folder.close()

    def test_a_folder_is_of_one_problem_and_one_run(self):
        folder = Folder(self.root / "cubes", b"1 0\n")
        with self.assertRaisesRegex(FolderError, "another run works"):
            Folder(self.root / "cubes", b"1 0\n")
        folder.close()
        status, _, told = self.command(CROSSED, "-o", self.root / "cubes")
        self.assertEqual(status, 1)
        self.assertIn("has cubes of another problem", told)

    def run_with(self, solver: str, text: bytes, **plan: int) -> Folder:
        """A run over local processes of that program, judged by the right one."""
        folder = Folder(self.root / "cubes", text)
        self.addCleanup(folder.close)
        given = Plan(plan.get("cubes", 3), 100_000, plan.get("probe", 20), self.program, solver)
        Run(given, folder, Local(text, 2), Splitting(text)).solve()
        folder.finish()
        return folder

    def first_time(self, answer: str) -> str:
        """A program whose first two runs do something else than to solve."""
        first = f"mkdir {self.root}/$$ && [ $(ls -d {self.root}/[0-9]* | wc -l) -le 2 ] && {{ {answer}; }}"
        return self.script(f'{first}\nexec {self.program} "$@"')

    def test_wrong_answers_are_rejected_and_the_cubes_done_again(self):
        for wrong, fault in [
            ("printf 's UNSATISFIABLE\\nchain 0 1\\n'; exit 20", "is wrong: rejected 2 NotCovered"),
            ("printf 's SATISFIABLE\\nv 1 0\\n'; exit 10", "is wrong: rejected 2 ModelVariables"),
            ("kill -9 $$", "solve ended with -9"),
            ("echo no memory; exit 6", "solve ended with 6 no memory"),
        ]:
            with self.subTest(fault):
                folder = self.run_with(self.first_time(wrong), pigeons(4))
                faults = [row["fault"] for row in self.rows(folder.path) if "fault" in row]
                self.assertEqual(len(faults), 2)
                for found in faults:
                    self.assertIn(fault, found)
                self.assertTrue(judge_folder(folder.path, self.program).startswith("accepted refutation"))
                folder.close()
                for path in [folder.path, *self.root.glob("[0-9]*")]:
                    shutil.rmtree(path)

    def test_a_program_that_is_always_wrong_ends_the_run(self):
        with self.assertRaisesRegex(NotJudged, r"cube 1 \(\) has no accepted answer after 5 runs: .* is wrong"):
            self.run_with(self.script("printf 's SATISFIABLE\\nv 0\\n'; exit 10"), pigeons(3))


def python_with_dask() -> str:
    """A Python that has the package distributed; a test that wants it is skipped where there is none."""
    if importlib.util.find_spec("distributed"):
        return sys.executable
    for path in ("/usr/bin/python3",):
        code = "import sys, distributed; sys.exit(sys.version_info < (3, 11))"
        if os.access(path, os.X_OK) and not subprocess.run([path, "-c", code], capture_output=True).returncode:
            return path
    raise missing("Dask's package distributed isn't installed (Debian: python3-distributed)")


class Workers(Case):
    """Over a scheduler of Dask and two workers on this machine."""

    def start(self, module: str, solver: str = "", *words: str) -> subprocess.Popen:
        """A process of Dask."""
        environment = self.environment(GULFEZO=solver or self.program)
        line = [self.python, "-m", f"distributed.cli.{module}", "--scheduler-file", str(self.place), "--no-dashboard"]
        child = subprocess.Popen([*line, *words], env=environment, stderr=subprocess.DEVNULL, cwd=self.root)
        self.addCleanup(child.wait)
        self.addCleanup(child.kill)
        return child

    def worker(self, solver: str = "") -> subprocess.Popen:
        """A worker with one thread."""
        return self.start("dask_worker", solver, "--nthreads", "1", "--no-nanny", "--host", "127.0.0.1")

    def cubes(self, file: Path, folder: Path) -> subprocess.Popen:
        """A run."""
        words = ["--cubes", "4", "--probe", "20", "--scheduler", self.address, "-o", str(folder), "--quiet"]
        pipes = {"stdout": subprocess.PIPE, "stderr": subprocess.PIPE, "text": True}
        line = [self.python, "-m", "gulfezo.cubes.main", str(file), *words]
        return subprocess.Popen(line, env=self.environment(), **pipes)

    def wait_for(self, path: Path) -> None:
        """Until the file is there."""
        for _ in range(3600):
            if path.exists():
                return
            time.sleep(0.05)
        self.fail(f"{path} never came")

    def test_one_that_is_killed_and_one_that_is_wrong(self):
        self.python, self.place = python_with_dask(), self.root / "scheduler.json"
        self.start("dask_scheduler", "", "--port", "0", "--host", "127.0.0.1")
        self.wait_for(self.place)
        self.address = json.loads(self.place.read_text())["address"]
        file = self.made(pigeons(5))

        # One worker takes a cube and is killed while it works on it.
        slow = self.worker(self.script(f"touch {self.root}/began; exec sleep 60"))
        run = self.cubes(file, self.root / "killed")
        self.wait_for(self.root / "began")
        self.worker()
        slow.kill()
        _, told = run.communicate(timeout=300)
        self.assertEqual(run.returncode, 20, told)
        self.assertEqual(self.command("--judge", self.root / "killed", file)[0], 0)

        # One of two answers wrongly: what it says is rejected, and it gets no more cubes.
        wrong = self.script(f"touch {self.root}/wrong; printf 's UNSATISFIABLE\\nchain 0 1\\n'; exit 20")
        self.worker(wrong)
        deadline = time.monotonic() + 60
        while not (self.root / "wrong").exists() and time.monotonic() < deadline:
            shutil.rmtree(self.root / "lied", ignore_errors=True)
            run = self.cubes(file, self.root / "lied")
            _, told = run.communicate(timeout=300)
            self.assertEqual(run.returncode, 20, told)
        faults = [row["fault"] for row in self.rows(self.root / "lied") if "fault" in row]
        self.assertIn("is wrong: rejected 2 NotCovered", faults[0])
        self.assertEqual(self.command("--judge", self.root / "lied", file)[0], 0)

    def test_without_a_scheduler_at_that_address(self):
        self.python, self.address = python_with_dask(), "tcp://127.0.0.1:9"
        run = self.cubes(CROSSED, self.root / "none")
        self.assertIn("can't be reached", run.communicate(timeout=60)[1])
        self.assertEqual(run.returncode, 1)


if __name__ == "__main__":
    unittest.main()
