"""Judges the folder of a run again, by its manifest and nothing else: gulfezo-cubes --judge FOLDER"""

from __future__ import annotations

import json
import re
from collections.abc import Callable
from concurrent.futures import ThreadPoolExecutor
from pathlib import Path
from typing import Any

from .folder import FORMAT
from .judging import checksum, said, verdict
from .tree import cover

ANSWER = re.compile(r"answers/[0-9]+")


class NotAccepted(Exception):
    """The folder shows nothing; the message says which file and why."""


def judge_folder(folder: Path, program: str, problem: Path | None = None, workers: int = 1) -> str:
    """What the folder shows of its problem: `accepted model`, or `accepted refutation` with the number of cubes.

    Each file has to be the one that the manifest names by its checksum; each cube's answer is judged by `check`, and
    that the cubes cover everything by `check` on the clauses that negate them, which are made anew. Where a problem is
    given, that of the folder has to be the same, byte by byte. `NotAccepted`: something isn't so.
    """
    try:
        manifest = json.loads((folder / "manifest.json").read_text(encoding="utf-8"))
        return judged(folder, manifest, program, problem, workers)
    except (OSError, ValueError, KeyError, TypeError) as fault:
        raise NotAccepted(f"{folder} is no folder of a run that has ended: {fault}") from fault


def judged(folder: Path, manifest: dict[str, Any], program: str, problem: Path | None, workers: int) -> str:
    """See `judge_folder`. `ValueError`, `KeyError`, `TypeError`: the manifest isn't of its format."""
    if manifest["format"] != FORMAT:
        raise ValueError(f"its format is {manifest['format']!r}, and not {FORMAT!r}")
    for name, wanted in manifest["files"].items():
        require(Path(name).name == name and checksum(folder / name) == wanted, f"{name} isn't the file of the manifest")
    own = folder / "problem.gnf"
    if problem is not None:
        require(problem.read_bytes() == own.read_bytes(), f"the folder isn't about {problem}")
    if manifest["result"] == "model":
        require_said("accepted model", "model", lambda: said(program, "check", own, folder / "model"))
        return "accepted model"
    cubes = [tuple(map(int, row["literals"])) for row in manifest["cubes"]]
    require((folder / "cover.gnf").read_text() == cover(cubes), "cover.gnf doesn't negate the manifest's cubes")
    clauses, refutation = folder / "cover.gnf", folder / "cover"
    require_said("accepted refutation", "cover", lambda: said(program, "check", clauses, refutation))

    def judge(row: dict[str, Any], literals: tuple[int, ...]) -> None:
        name = row["answer"]
        require(ANSWER.fullmatch(name) is not None, f"{name} is no name of an answer")
        require(checksum(folder / name) == row["sha256"], f"{name} isn't the file of the manifest")
        require_said("accepted refutation", name, lambda: verdict(program, own, folder / name, literals))

    with ThreadPoolExecutor(workers) as pool:
        list(pool.map(judge, manifest["cubes"], cubes))
    return f"accepted refutation, by {len(cubes)} cubes"


def require(holds: bool, fault: str) -> None:
    """`NotAccepted`: it doesn't hold."""
    if not holds:
        raise NotAccepted(fault)


def require_said(wanted: str, name: str, asked: Callable[[], str]) -> None:
    """`NotAccepted`: the program says something else of that file."""
    found = asked()
    require(found == wanted, f"{name}: check says '{found}'")
