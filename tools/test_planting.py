"""Tests of tools/plant-definitions over a small repository and a false prover, which says what a test has it say."""

from __future__ import annotations

import contextlib
import io
import os
import sys
import tempfile
import unittest
from pathlib import Path
from unittest import mock

import plant_definitions
from definitions import Tree, changes
from planting import narrowed, rows_of

FILES = {
    "crates.txt": "low:\nlow_rows: low\n",
    "crates/low/specs/Lib.antt": "pub mod Words\n",
    "crates/low/proofs/Lib.antt": "",
    "crates/low/specs/Words.antt": """-- Numbers.
use Rattle.std.specs.Prelude.{ℕ, ◌<◌, ◌+◌}

-- below ten, and not none
pub record IsSmall (n : ℕ) : Type 0 where
  pub some : 0 < n
  pub low : n < 10

-- no contract cites it
pub record IsOther (n : ℕ) : Type 0 where
  pub some : 0 < n
""",
    "crates/low/src/lib.rt": """ghost use Rattle.low.specs.Words.{IsSmall};

pub fn one() -> u32
    ensures { IsSmall result }
{
    1
}
""",
    "crates/low_rows/specs/Lib.antt": "",
    "crates/low_rows/proofs/Lib.antt": "",
    "crates/low_rows/src/rows.rt": """//! Rows.

ghost use Rattle.low.specs.Words.{IsSmall};

/// One is small.
pub fn one()
    ensures { IsSmall 1 }
{}

/// Nine is small, and ten isn't.
pub fn nine()
    ensures nine { IsSmall 9 }
    ensures ten { IsSmall 10 → ⊥ }
{}
""",
}

ANSWERS = """use Rattle.low_rows.proofs.rows.nine.Goals as goal

pub returns-clause-nine : goal.returns-clause-nine
returns-clause-nine c = record { some = omega arith; low = omega arith }

-- it is too great
pub returns-clause-ten : goal.returns-clause-ten
returns-clause-ten c = λ h. let lt = h.low in omega (arith, lt)
"""

PROVER = """#!{python} -SE
import os, pathlib, re, signal, sys, time
way = os.environ["WAY"]
with open({calls!r}, "a") as file:
    file.write(pathlib.Path.cwd().name + "\\n")
if pathlib.Path.cwd().name != "planted":
    way = os.environ["CRATE_WAY"]
    said = {{"holds": ("fn low::one: proved\\nlogic=proved functions=1", 0),
            "refuses": ("fn low::one: not proved\\nlogic=not-proved", 1),
            "unsure": ("fn low::one: could not tell\\nrattle: no verdict, since antt ran out", 3)}}
    print(said[way][0])
    sys.exit(said[way][1])
rows = [(path.stem, name) for path in sorted(pathlib.Path("src").glob("p*.rt"))
        for name in re.findall(r"pub fn (\\w+)", path.read_text())]
if way == "unread":
    print("./specs/P0LowWords.antt:6:9: error: `Unit` is not in scope")
    sys.exit(1)
if way == "silent":
    sys.exit(1)
for module, name in rows if way == "gone" else ():
    if name == "nine":
        print(f"./proofs/{{module}}/{{name}}/Answers.antt:8:30: error: `x`: record `IsSmall` has no field `low`")
for module, name in rows:
    answers = f"./proofs/{{module}}/{{name}}/Answers.antt"
    missing = f"no proof: expected answers in {{answers}}; `search` did not prove `returns-clause-ten`, `returns`"
    if pathlib.Path(answers).exists():
        missing = f"not proved; it stands on `Rattle.planted.proofs.{{module}}.{{name}}.Answers.x`, which antt refuses"
    said = {{"holds": "no holes", "unsure": "could not tell", "nine": missing if name == "nine" else "no holes"}}
    word = said.get(way, missing)
    if word.startswith("no proof") and way != "lost":
        print(f"note: src/{{module}}.rt:8:1: it is not proved that what the function ensures holds when it returns "
              "(`returns-clause-ten`); the facts known there allow values at which this goal is false")
    print(f"fn planted::{{module}}::{{name}}: {{word}}", flush=True)
if way == "crashes":
    os.kill(os.getpid(), signal.SIGKILL)
if way == "hangs":
    time.sleep(60)
if way == "unsure":
    print("rattle: no verdict, since antt ran out of steps")
    sys.exit(3)
print(f"holes={{0 if way == 'holds' else 1}}")
sys.exit(0 if way == "holds" else 1)
"""


class PlantingTest(unittest.TestCase):
    def setUp(self) -> None:
        room = tempfile.TemporaryDirectory()
        self.addCleanup(room.cleanup)
        self.room = Path(room.name)
        self.root = self.room / "repository"
        for path, text in FILES.items():
            (self.root / path).parent.mkdir(parents=True, exist_ok=True)
            (self.root / path).write_text(text)
        self.calls = self.room / "calls"
        self.prover = self.room / "prover"
        self.prover.write_text(PROVER.format(python=sys.executable, calls=str(self.calls)))
        self.prover.chmod(0o755)
        self.results = self.room / "results"

    def run_tool(self, way: str, *options: str, crate_way: str = "holds") -> int:
        words = ["plant", "low", "--root", self.root, "--rt", self.prover, "--results", self.results, *options]
        with (
            mock.patch.object(sys, "argv", [str(word) for word in words]),
            mock.patch.dict(os.environ, {"WAY": way, "CRATE_WAY": crate_way}),
            contextlib.redirect_stdout(io.StringIO()),
            contextlib.redirect_stderr(io.StringIO()),
        ):
            return plant_definitions.main()

    def lines(self) -> list[list[str]]:
        return [line.split("\t") for line in self.results.read_text().splitlines()] if self.results.exists() else []

    def verdicts(self) -> list[str]:
        return [line[0] for line in self.lines()]

    def called(self) -> int:
        return len(self.calls.read_text().splitlines()) if self.calls.exists() else 0

    def test_what_is_changed(self) -> None:
        tree = Tree(self.root)
        self.assertEqual(list(tree.cited("low")), [("low", "Words", "IsSmall")])
        found = changes(("low", "Words", "IsSmall"), tree.blocks["low", "Words", "IsSmall"])
        told = [change.what.partition(" at ")[0] for change in found]
        self.assertEqual(told, ["some is trivial", "low is trivial", "≤ for <", "≤ for <"])
        self.assertIn("  pub some : 0 ≤ n\n", found[2].block)

    def test_how_cases_are_changed(self) -> None:
        block = "abbrev pub IsBoth : ℕ → Type 0\nIsBoth n =\n    IsSmall n\n    × IsOther n\n\n-- next\n"
        found = [change.block for change in changes(("low", "Words", "IsBoth"), block)]
        for other in ("Unit {0}", "⊥"):
            self.assertIn(f"abbrev pub IsBoth : ℕ → Type 0\nIsBoth n =\n    {other}\n\n-- next\n", found)
        nothing = "abbrev pub IsBoth : ℕ → Type 0\nIsBoth n = Unit\n"
        self.assertEqual([change.what for change in changes(("low", "Words", "IsBoth"), nothing)], ["IsBoth n is ⊥"])
        self.assertEqual(changes(("low", "Words", "Numbers"), "abbrev pub Numbers : Type 0\nNumbers = List ℕ\n"), [])

    def test_each_passes(self) -> None:
        self.assertEqual(self.run_tool("holds"), 1)
        self.assertEqual(self.verdicts(), ["passes"] * 4)

    def test_each_is_refused(self) -> None:
        self.assertEqual(self.run_tool("refuses"), 0)
        self.assertEqual(self.verdicts(), ["refused"] * 4)

    def test_one_row_is_enough(self) -> None:
        self.assertEqual(self.run_tool("nine"), 0)
        self.assertEqual({(line[0], line[3]) for line in self.lines()}, {("refused", "low_rows::rows::nine ten")})

    def test_a_row_with_a_proof(self) -> None:
        answers = self.root / "crates/low_rows/proofs/rows/nine/Answers.antt"
        answers.parent.mkdir(parents=True)
        answers.write_text(ANSWERS)
        row = next(row for row in rows_of(Tree(self.root)) if row.name == "nine")
        name = ("low", "Words", "IsSmall")
        for sense, left, gone in ((1, "ten", "nine"), (-1, "nine", "ten")):
            found = narrowed(row, sense, self.root, name)
            assert found
            for text in (found.text, found.answers(self.root)["Answers.antt"]):
                self.assertRegex(text, rf"\b{left}\b.*IsSmall|clause-{left} ")
                self.assertNotRegex(text, rf"ensures {gone}\b|clause-{gone}\b")
        self.assertEqual(narrowed(row, 0, self.root, name), row)
        self.assertEqual(self.run_tool("nine"), 0)
        self.assertEqual({(line[0], line[3]) for line in self.lines()}, {("answer", "low_rows::rows::nine")})
        self.results.unlink()
        self.assertEqual(self.run_tool("refuses"), 0)
        self.assertEqual({(line[0], line[3]) for line in self.lines()}, {("refused", "low_rows::rows::one ten")})

    def test_a_row_that_calls_another(self) -> None:
        rows = self.root / "crates/low_rows/src/rows.rt"
        more = "\n/// One is {0}.\npub fn {0}()\n    ensures {{ IsSmall 1 }}\n{{\n    {1}();\n}}\n"
        rows.write_text(rows.read_text() + more.format("small", "nine") + more.format("told", "tell"))
        found = {row.name: row for row in rows_of(Tree(self.root))}
        called = {name: [one.name for one in row.called] for name, row in found.items()}
        self.assertEqual(called, {"one": [], "nine": [], "small": ["nine"]})
        for name in ("nine", "small"):
            self.assertIn(f"pub fn {name}()", found["small"].whole(self.root))
        self.assertEqual(self.run_tool("refuses"), 0)
        self.assertEqual(self.verdicts(), ["refused"] * 4)

    def test_what_follows_from_a_definition(self) -> None:
        rows = self.root / "crates/low_rows/src/rows.rt"
        rows.write_text(rows.read_text().replace("IsSmall 10 → ⊥", "(n : ℕ) → IsSmall n → n < 11"))
        answers = self.root / "crates/low_rows/proofs/rows/nine/Answers.antt"
        answers.parent.mkdir(parents=True)
        answers.write_text(ANSWERS)
        row = next(row for row in rows_of(Tree(self.root)) if row.name == "nine")
        found = narrowed(row, 1, self.root, ("low", "Words", "IsSmall"))
        assert found
        self.assertIn("ensures ten", found.text)
        self.assertNotIn("ensures nine", found.text)

    def test_a_proof_that_names_what_is_gone(self) -> None:
        answers = self.root / "crates/low_rows/proofs/rows/nine/Answers.antt"
        answers.parent.mkdir(parents=True)
        answers.write_text(ANSWERS)
        self.assertEqual(self.run_tool("gone"), 0)
        self.assertEqual({(line[0], line[3]) for line in self.lines()}, {("refused", "low_rows::rows::one ten")})
        self.results.unlink()
        rows = self.root / "crates/low_rows/src/rows.rt"
        rows.write_text(rows.read_text().replace("pub fn one()", "fn one()"))
        self.assertEqual(self.run_tool("gone"), 0)
        self.assertEqual({(line[0], line[3]) for line in self.lines()}, {("unread", "low_rows::rows::nine")})

    def test_a_search_that_finds_nothing(self) -> None:
        self.assertEqual(self.run_tool("lost"), 0)
        self.assertEqual({(line[0], line[3]) for line in self.lines()}, {("answer", "low_rows::rows::one")})

    def test_what_breaks_off_is_no_refusal(self) -> None:
        for way in ("crashes", "silent", "unsure"):
            with self.subTest(way):
                self.assertEqual(self.run_tool(way), 1)
                self.assertEqual(self.lines(), [])
        self.assertEqual(self.run_tool("hangs", "--minutes", "0.02"), 1)
        self.assertEqual(self.lines(), [])
        self.assertEqual(self.run_tool("refuses"), 0)
        self.assertEqual(self.verdicts(), ["refused"] * 4)

    def test_one_that_is_not_read_goes_alone(self) -> None:
        self.assertEqual(self.run_tool("unread"), 0)
        self.assertEqual(self.verdicts(), ["unread"] * 4)
        self.assertEqual(self.called(), 4)

    def test_what_is_settled_is_not_tried_again(self) -> None:
        self.run_tool("refuses")
        called = self.called()
        self.assertEqual(self.run_tool("crashes"), 0)
        self.assertEqual(self.called(), called)
        words = self.root / "crates/low/specs/Words.antt"
        words.write_text(words.read_text().replace("n < 10\n", "n < 11\n"))
        self.assertEqual(self.run_tool("refuses"), 0)
        self.assertEqual(self.verdicts(), ["refused"] * 8)

    def test_no_time(self) -> None:
        self.assertEqual(self.run_tool("holds", "--minutes", "0"), 1)
        self.assertEqual((self.lines(), self.called()), ([], 0))

    def test_the_crate_itself(self) -> None:
        self.assertEqual(self.run_tool("holds", "--proofs", crate_way="unsure"), 1)
        self.assertEqual(self.verdicts(), ["passes"] * 4)
        self.assertEqual(self.run_tool("holds", "--proofs", crate_way="refuses"), 0)
        self.assertEqual([line[0] for line in self.lines()[4:]], ["proof"] * 4)
        self.assertEqual({line[3] for line in self.lines()[4:]}, {"low::one"})

    def test_no_row(self) -> None:
        (self.root / "crates/low_rows/src/rows.rt").write_text("//! None.\n")
        self.assertEqual(self.run_tool("holds"), 1)
        self.assertEqual((self.verdicts(), self.called()), (["no-row"] * 4, 0))
        self.assertEqual(self.run_tool("holds", "--proofs", crate_way="refuses"), 0)
        self.assertEqual([line[0] for line in self.lines()[4:]], ["proof"] * 4)
        self.assertEqual(self.run_tool("holds"), 0)
        self.assertEqual(len(self.lines()), 8)


if __name__ == "__main__":
    unittest.main()
