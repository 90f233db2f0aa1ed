"""What documents show, run as a new user would: their Python, and their lines of the shell."""

import contextlib
import importlib.util
import io
import os
import re
import shutil
import subprocess
import tempfile
import unittest
from pathlib import Path
from unittest import mock

from helpers import REPOSITORY, missing, program

PRINTED = {
    "README.md": ["True"],
    "python/README.md": ["True", "18 True", "6 0"],
    "docs/TUTORIAL.md": [
        "True True [1, 2]",
        "4 cut ",
        "5 chain ()",
        "['not edge from ",
        "True [False, False]",
    ],
}
# What a checkout needs for them, beside the program.
PARTS = (".gitignore", "README.md", "crates.txt", "docs", "examples", "gulfezo", "python", "tools")
# How a run of `solve` ends that has found an answer; other lines of the shell end with 0.
ANSWERED = (10, 20)


def blocks(name: str, language: str) -> list[str]:
    """The blocks of that language in a document."""
    text = (REPOSITORY / name).read_text(encoding="utf-8")
    found = re.findall(r"^```(\w*)\n(.*?)^```$", text, re.MULTILINE | re.DOTALL)
    return [block for named, block in found if named == language]


class Documents(unittest.TestCase):
    def test_each_block_of_python(self):
        with mock.patch.dict(os.environ, {"GULFEZO": program()}):
            for name, wanted in PRINTED.items():
                told = io.StringIO()
                with self.subTest(name), contextlib.redirect_stdout(told):
                    exec("".join(blocks(name, "python")), {})
                    found = told.getvalue().splitlines()
                    self.assertEqual(len(found), len(wanted))
                    for line, beginning in zip(found, wanted):
                        self.assertTrue(line.startswith(beginning), line)


class Commands(unittest.TestCase):
    """In a checkout of its own, in which the program is built already; without a network."""

    def setUp(self):
        built = program()
        folder = tempfile.TemporaryDirectory()
        self.addCleanup(folder.cleanup)
        self.folder = Path(folder.name)
        self.root = self.folder / "gulfezo"
        self.root.mkdir()
        skipped = shutil.ignore_patterns("__pycache__", "out", "dist", "venv", "answer")
        for part in PARTS:
            copy = shutil.copytree if (REPOSITORY / part).is_dir() else shutil.copy
            copy(REPOSITORY / part, self.root / part, **({"ignore": skipped} if copy is shutil.copytree else {}))
        out = self.root / "crates" / "mono_cmd" / "out"
        out.mkdir(parents=True)
        shutil.copy(built, out / "mono_cmd")
        who = ["-c", "user.name=a", "-c", "user.email=a@example.org"]
        for words in (["init", "-q"], ["add", "."], [*who, "commit", "-q", "-m", "All"]):
            subprocess.run(["git", *words], cwd=self.root, check=True)

    def run_lines(self, place: Path, lines: list[str]) -> list[tuple[int, str]]:
        """The status and the output of each line, all of them in one shell."""
        kept = {name: value for name, value in os.environ.items() if name not in ("GULFEZO", "PYTHONPATH")}
        here = {**kept, "PIP_CONFIG_FILE": os.devnull, "PIP_NO_INDEX": "1"}
        mark = "--- the end of a line:"
        script = "".join(f'{line}\nprintf "%s %s\\n" "{mark}" $?\n' for line in lines)
        words = ["bash", "-o", "pipefail"]
        run = subprocess.run(words, input=script, cwd=place, env=here, capture_output=True, text=True, check=False)
        found = re.findall(rf"(.*?){mark} (\d+)\n", run.stdout, re.DOTALL)
        self.assertEqual(len(found), len(lines), run.stdout + run.stderr)
        for line, (said, status) in zip(lines, found):
            ends = ANSWERED if line.startswith("./gulfezo solve ") else (0,)
            self.assertIn(int(status), ends, f"{line}: {said}{run.stderr}")
        return [(int(status), said) for said, status in found]

    def require_nothing_new(self) -> None:
        run = subprocess.run(["git", "status", "--short"], cwd=self.root, capture_output=True, text=True, check=True)
        self.assertEqual(run.stdout, "")

    def test_what_the_readme_shows(self):
        shown = blocks("README.md", "")[0]
        parts = re.findall(r"^\$ (.*)\n((?:(?!\$ ).*\n)*)", shown, re.MULTILINE)
        found = self.run_lines(self.root, [line for line, _ in parts])
        self.assertEqual([said for _, said in found], [said for _, said in parts])
        self.require_nothing_new()

    def test_the_lines_of_the_tutorial(self):
        if importlib.util.find_spec("ensurepip") is None:
            raise missing("venv makes no environment with pip (Debian: python3-venv)")
        lines = [line for block in blocks("docs/TUTORIAL.md", "") for line in block.splitlines()]
        written = "".join(blocks("docs/TUTORIAL.md", "python"))
        # The blocks of Python are run where the tutorial's environment is, of which only the lines of the shell know.
        (self.folder / "blocks.py").write_text(written)
        found = self.run_lines(self.folder, [*lines, f"python3 {self.folder / 'blocks.py'}"])
        said = {line: text.splitlines() for line, (_, text) in zip(lines, found)}
        self.assertEqual(next(text[0] for line, text in said.items() if line.startswith("cat answer")), "s SATISFIABLE")
        for line, text in said.items():
            if " check " in line:
                self.assertIn(text, (["accepted model"], ["accepted refutation"]), line)
        for line, beginning in zip(found[-1][1].splitlines(), PRINTED["docs/TUTORIAL.md"], strict=True):
            self.assertTrue(line.startswith(beginning), line)
        pictures = {path.name for path in self.root.glob("examples/*/out/*")}
        named = set(re.findall(r"-o out/(\S+)", "\n".join(lines)))
        self.assertEqual(pictures, named)
        self.require_nothing_new()


if __name__ == "__main__":
    unittest.main()
