"""The files that each example keeps, and how they are made: python3 examples/kept.py

For each problem of an example: NAME.gnf as its `encode.py` writes it, NAME.answer as the program printed it once, which
`check` accepted, and NAME.svg, drawn from that answer. (Another version of the program may find another answer.)
"""

from __future__ import annotations

import importlib.util
import sys
from collections.abc import Iterator
from dataclasses import dataclass
from pathlib import Path
from types import ModuleType

from gulfezo import Answer, Model, Problem, draw, parse_answer

HERE = Path(__file__).parent

# What `check` says of the answers, example by example, in the order in which they are read best.
EXAMPLES = {
    "routing": {"board": "accepted model", "crossed": "accepted refutation"},
    "network": {"cheapest": "accepted model", "cheaper": "accepted refutation"},
    "placement": {"floor": "accepted model"},
    "backbone": {"budget": "accepted refutation"},
    "schedule": {"shop": "accepted model", "circle": "accepted refutation"},
}


@dataclass
class Kept:
    """A problem of an example, by the script that encodes it, and what `check` says of its answer."""

    script: ModuleType
    folder: Path
    name: str
    problem: Problem
    verdict: str

    def file(self, ending: str) -> Path:
        """One of its three files."""
        return self.folder / f"{self.name}.{ending}"

    def picture(self, answer: Answer) -> str:
        """The example's own picture of a model, or the first lemma of a refutation."""
        if isinstance(answer, Model):
            picture: str = self.script.picture(self.problem, answer)
            return picture
        return draw.drawing(self.problem, answer)

    def kept_picture(self) -> str:
        """The picture of the answer that is kept."""
        return self.picture(parse_answer(self.problem, self.file("answer").read_text()))


def script_of(folder: Path) -> ModuleType:
    """The example's script `encode.py`, loaded."""
    spec = importlib.util.spec_from_file_location(f"encode_{folder.name}", folder / "encode.py")
    assert spec is not None and spec.loader is not None
    script = importlib.util.module_from_spec(spec)
    sys.modules[spec.name] = script  # where data classes look for their module
    spec.loader.exec_module(script)
    return script


def all_kept() -> Iterator[Kept]:
    """The problems of all examples."""
    for example, verdicts in EXAMPLES.items():
        script = script_of(HERE / example)
        problems = script.problems()
        assert list(problems) == list(verdicts), f"{example}: problems {list(problems)}"
        for name, problem in problems.items():
            yield Kept(script, HERE / example, name, problem, verdicts[name])


def main() -> None:
    """Writes all files anew."""
    for kept in all_kept():
        answer = kept.problem.solve()
        kept.file("gnf").write_text(kept.problem.text())
        kept.file("answer").write_text(answer.text)
        kept.file("svg").write_text(kept.picture(answer))
        print(f"{kept.folder.name}/{kept.name}: {'model' if answer else 'refutation'}")


if __name__ == "__main__":
    main()
