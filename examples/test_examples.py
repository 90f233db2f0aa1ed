"""Each example: its files are as its script makes them, `check` accepts its answer, `solve` answers the same way."""

import contextlib
import io
import os
import subprocess
import tempfile
import unittest
import unittest.mock
from pathlib import Path

import kept

BUILT = Path(__file__).resolve().parents[1] / "crates" / "mono_cmd" / "out" / "mono_cmd"
# What the program lacks, by the names of `require`: "acyclic,core".
WITHOUT = {what.strip() for what in os.environ.get("GULFEZO_WITHOUT", "").split(",")}


class Examples(unittest.TestCase):
    def setUp(self):
        self.program = os.environ.get("GULFEZO") or str(BUILT)

    def run_program(self, *words: str | Path) -> str:
        if not os.access(self.program, os.X_OK):
            self.skipTest("the program isn't built, and GULFEZO names none: no answer was checked")
        return subprocess.run([self.program, *words], capture_output=True, text=True, check=False).stdout

    def check(self, problem: Path, answer: Path) -> str:
        return self.run_program("check", problem, answer).strip()

    def require(self, *wanted: str) -> None:
        """Skips the test where GULFEZO_WITHOUT names a kind of lines or a form that is wanted of the program."""
        for what in WITHOUT.intersection(wanted):
            self.skipTest(f"GULFEZO_WITHOUT names {what}")

    def test_files_are_as_their_scripts_make_them(self):
        for example in kept.all_kept():
            with self.subTest(example.folder.name, name=example.name):
                self.assertEqual(example.file("gnf").read_text(), example.problem.text())
                self.assertEqual(example.file("svg").read_text(), example.kept_picture())

    def test_kept_answers_are_accepted(self):
        for example in kept.all_kept():
            with self.subTest(example.folder.name, name=example.name):
                self.require(*KINDS.get(example.folder.name, ()))
                self.assertEqual(self.check(example.file("gnf"), example.file("answer")), example.verdict)

    def test_answers_are_the_same_after_a_migration_there_and_back(self):
        for example in kept.all_kept():
            with self.subTest(example.folder.name, name=example.name), tempfile.TemporaryDirectory() as folder:
                self.require("migrate", *KINDS.get(example.folder.name, ()))
                two = Path(folder, "two")
                two.write_text(self.run_program("migrate", example.file("gnf"), example.file("answer"), "2"))
                self.assertEqual(self.check(example.file("gnf"), two), example.verdict)
                back = self.run_program("migrate", example.file("gnf"), two, "1")
                self.assertEqual(back, example.file("answer").read_text())

    def test_solving_gives_the_expected_answer(self):
        for example in kept.all_kept():
            with self.subTest(example.folder.name, name=example.name), tempfile.TemporaryDirectory() as folder:
                self.check(example.file("gnf"), example.file("answer"))
                self.require(*KINDS.get(example.folder.name, ()))
                example.problem.solve(folder=folder, program=self.program)
                self.assertEqual(self.check(Path(folder, "problem.gnf"), Path(folder, "answer")), example.verdict)

    def test_scripts_run_to_their_end(self):
        for example in kept.EXAMPLES:
            with self.subTest(example):
                self.check(Path("none"), Path("none"))
                self.require(*KINDS.get(example, ()), *FORMS.get(example, ()))
                told = io.StringIO()
                with contextlib.redirect_stdout(told), unittest.mock.patch.dict(os.environ, {"GULFEZO": self.program}):
                    kept.script_of(kept.HERE / example).main()
                self.assertIn(EXPECTED[example], told.getvalue())


# What the examples ask of the program that its first versions lack: kinds of predicates, and the scripts forms too.
KINDS = {"schedule": ["acyclic"]}
FORMS = {"routing": ["core"], "network": ["best"], "schedule": ["core"]}
# The last thing that each script says.
EXPECTED = {
    "routing": "crowded: net a, net b, net c can't all be routed",
    "network": "nothing is cheaper: the refutation has",
    "placement": "tank: column ",
    "backbone": "a budget of 11: ",
    "schedule": "the wishes run in a circle: ",
}

if __name__ == "__main__":
    unittest.main()
