"""Judges the answers of workers by the program of this machine."""

from __future__ import annotations

import hashlib
import subprocess
from collections.abc import Sequence
from pathlib import Path


def said(program: str, *words: str | Path | int) -> str:
    """The line that the program writes."""
    run = subprocess.run([program, *map(str, words)], stdin=subprocess.DEVNULL, stdout=subprocess.PIPE, check=False)
    return run.stdout[:1000].decode("utf-8", "replace").strip()


def verdict(program: str, problem: Path, answer: Path, literals: Sequence[int] = ()) -> str:
    """What `check`, or `check-with` where there are literals, says of an answer to the problem under them."""
    if not literals:
        return said(program, "check", problem, answer)
    return said(program, "check-with", problem, answer, *literals)


def checksum(path: Path) -> str:
    """The sha256 of a file."""
    with open(path, "rb") as file:
        return hashlib.file_digest(file, "sha256").hexdigest()
