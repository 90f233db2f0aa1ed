"""Writes a page about an answer: gulfezo-report FILE ANSWER [-o PAGE.html]

One HTML file with everything in it: what was asked, the verdict of `check`, the picture of a model, or a refutation
step by step: each lemma with its witness on the picture, each chain with the clauses that it resolves and what is left.
Answers of `core` are judged under their assumptions; `--assume LIT..` names those of another answer.
"""

from __future__ import annotations

import argparse
import sys
from collections.abc import Sequence
from pathlib import Path

from ..asked import judged_answer
from ..errors import GulfezoError
from ..files import write_whole
from .page import page


def main(words: Sequence[str] | None = None) -> int:
    """Ends with 0 where the page was written, and with 1, and a message on standard error, where there is none."""
    parser = argparse.ArgumentParser(prog="gulfezo-report", description=(__doc__ or "").split("\n", maxsplit=1)[0])
    parser.add_argument("file", metavar="FILE", help="the problem")
    parser.add_argument("answer", metavar="ANSWER", help="an answer to it that `gulfezo check` accepts")
    parser.add_argument("-o", metavar="PAGE", dest="out", help="the page (ANSWER.html)")
    parser.add_argument("--assume", metavar="LIT", nargs="+", type=int, default=[], help="what the answer assumes")
    parser.add_argument("--best", metavar="ATOM", type=int, help="ANSWER is what `best FILE ATOM` wrote")
    parser.add_argument("--unchecked", action="store_true", help="don't run `gulfezo check` on the answer")
    given = parser.parse_args(words)
    out = given.out or f"{given.answer}.html"
    try:
        found = judged_answer(given.file, given.answer, given.assume, given.best, given.unchecked)
        assert found.answer is not None
        title = f"{Path(given.file).name} and {Path(given.answer).name}"
        write_whole(out, page(title, found.problem, found.answer, found.verdict).encode())
    except (GulfezoError, OSError, ValueError) as fault:
        print(f"gulfezo-report: {fault}", file=sys.stderr)
        return 1
    print(f"gulfezo-report: {out}", file=sys.stderr)
    return 0


if __name__ == "__main__":
    sys.exit(main())
