"""A foreign checker of LRAT proofs, where it is installed: the one that is proved correct in ACL2.

It is by M. Heule, W. Hunt and M. Kaufmann, among the books of ACL2 (Debian: acl2, acl2-books-source). Its theorem says
that a formula with a proof that `refutation-p` accepts has no satisfying assignment. The book is loaded as it is, its
proofs skipped; formula and proof are handed over as data, so its parser isn't needed. Its formulas have no tautologies
and no empty clause.
"""

from __future__ import annotations

import glob
import os
import shutil
import subprocess
import tempfile
from collections.abc import Iterable

from helpers import missing
from lrat_checker import read_cnf

ACCEPTS = "refutation-p accepts proof"

# A proof's steps as the checker wants them, from lists of an index, a clause and hints.
ADD_STEPS = """
(defun add-steps (rows)
  (if (atom rows)
      nil
    (cons (make add-step :index (caar rows) :clause (cadar rows) :rup-indices (caddar rows) :drat-hints nil)
          (add-steps (cdr rows)))))
"""


def book() -> str:
    """The folder of the checker; the test is skipped where it isn't installed."""
    found = glob.glob("/usr/share/acl2-*/books/projects/sat/lrat/list-based/lrat-checker.lisp")
    if not found or shutil.which("acl2") is None:
        raise missing("the LRAT checker of ACL2 isn't installed (Debian: acl2, acl2-books-source)")
    return os.path.dirname(os.path.dirname(found[0]))


def listed(numbers: Iterable[int]) -> str:
    """A list of numbers as Lisp writes it."""
    return "(" + " ".join(map(str, numbers)) + ")"


def question(name: int, cnf: str, proof: str) -> str:
    """The form that asks about one formula and proof, and tells by the name where the proof is accepted."""
    formula = " ".join(f"({n} . {listed(clause)})" for n, clause in reversed(list(enumerate(read_cnf(cnf), 1))))
    steps = []
    for line in proof.splitlines():
        number, *rest = map(int, line.split())
        end = rest.index(0)
        steps.append(f"({number} {listed(rest[:end])} {listed(rest[end + 1 : -1])})")
    asked = "(refutation-p (add-steps '(" + "\n ".join(steps) + ")) formula)"
    return f"(let ((formula (make-fast-alist '({formula})))) (and {asked} (cw \"{ACCEPTS} {name}.~%\")))"


def accepted(pairs: list[tuple[str, str]]) -> list[bool]:
    """Whether each proof is accepted, of formulas and proofs as texts.

    The book isn't compiled, so proofs of many thousand steps are too deep for ACL2's stack.
    """
    folder = book()
    head = [
        "(set-inhibit-output-lst '(proof-tree event summary warning observation prove))",
        "(set-ld-skip-proofsp t state)",
        f'(ld "{folder}/portcullis.acl2")',
        f'(ld "{folder}/list-based/lrat-checker.lisp")',
        '(in-package "LRAT")',
        "(set-slow-alist-action nil)",
        ADD_STEPS,
    ]
    text = "\n".join(head + [question(name, *pair) for name, pair in enumerate(pairs)]) + "\n"
    with tempfile.TemporaryDirectory() as work:
        run = subprocess.run(["acl2"], input=text, cwd=work, capture_output=True, text=True, check=False, timeout=600)
    assert "stack overflow" not in run.stdout, "ACL2 ran out of its stack, which says nothing of the proof"
    return [f"{ACCEPTS} {name}." in run.stdout for name in range(len(pairs))]
