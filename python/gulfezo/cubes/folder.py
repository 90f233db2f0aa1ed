"""The folder of a run: the problem, what happened to each cube, answers, and at the end the manifest.

    problem.gnf            the problem, byte by byte
    log                    a line of JSON for each thing that happened, in order
    answers/N              the refutation of cube N
    model                  a model of the problem, where one was found
    cover.gnf, cover       the clauses that say that no cube holds, and their refutation
    manifest.json          the cubes and the checksums of all these files; what `judge_folder` reads
    tree.html              the tree of cubes with their times

The log is written line by line, so a run that is killed goes on where it stands. It isn't believed: what it says is
refuted is judged again.
"""

from __future__ import annotations

import fcntl
import json
import os
import time
from concurrent.futures import ThreadPoolExecutor
from pathlib import Path
from typing import Any

from ..errors import GulfezoError
from .judging import checksum, verdict
from .tree import Cube, State, Tree, cover, refutation_of_cover

FORMAT = "gulfezo-cubes 1"


class FolderError(GulfezoError):
    """The folder can't be used for this run."""


class Folder:
    """A folder of one problem, held by one process at a time. `tree` is as far as its log goes."""

    def __init__(self, path: Path, problem: bytes) -> None:
        self.path = path
        self.problem = path / "problem.gnf"
        (path / "answers").mkdir(parents=True, exist_ok=True)
        self.log = open(path / "log", "a+", encoding="utf-8")
        try:
            self.lock()
            if self.problem.exists() and self.problem.read_bytes() != problem:
                raise FolderError(f"{path} has cubes of another problem; name another folder by -o")
        except FolderError:
            self.log.close()
            raise
        if not self.problem.exists():
            self.place("problem.gnf", problem)
        self.tree = self.replayed()

    def lock(self) -> None:
        """Keeps other processes out of the folder. `FolderError`: one is in it.

        What a run that was killed had just started may hold the log for a moment longer.
        """
        for left in range(20, -1, -1):
            try:
                fcntl.flock(self.log, fcntl.LOCK_EX | fcntl.LOCK_NB)
                return
            except OSError:
                if not left:
                    raise FolderError(f"another run works in {self.path}") from None
                time.sleep(0.1)

    def place(self, name: str, content: bytes) -> Path:
        """Writes a file, which is there as a whole or not at all."""
        path = self.path / name
        part = self.path / f"{name}.part"
        part.write_bytes(content)
        os.replace(part, path)
        return path

    def replayed(self) -> Tree:
        """The tree as the log tells it. What is no line of it, as the half of one, is cut off with what follows."""
        tree, kept = Tree(), 0
        for line in (self.path / "log").read_bytes().splitlines(keepends=True):
            try:
                if not line.endswith(b"\n"):
                    break
                self.replay(tree, json.loads(line))
            except (ValueError, KeyError, TypeError):
                break
            kept += len(line)
        os.ftruncate(self.log.fileno(), kept)
        return tree

    def replay(self, tree: Tree, row: dict[str, Any]) -> None:
        """Does what a line of the log tells. An answer that isn't there as it was is as if it had never been."""
        cube = tree.cube(row["cube"])
        cube.seconds += row["seconds"]
        cube.worker = row["worker"]
        if row["is"] == State.SPLIT.value:
            tree.split(cube, row["on"])
        elif row["is"] == State.REFUTED.value:
            answer = self.path / cube.answer
            if answer.is_file() and checksum(answer) == row["sha256"]:
                cube.state, cube.sha256 = State.REFUTED, row["sha256"]
        else:
            cube.is_probed = bool(row.get("probed"))

    def judge(self, program: str, workers: int) -> None:
        """Has the answers judged that a log tells of. A cube whose answer isn't accepted is open again."""
        told = [cube for cube in self.tree.leaves() if cube.state is State.REFUTED]

        def said(cube: Cube) -> str:
            return verdict(program, self.problem, self.path / cube.answer, cube.literals)

        with ThreadPoolExecutor(workers) as pool:
            for cube, found in zip(told, pool.map(said, told)):
                if found != "accepted refutation":
                    cube.state, cube.sha256 = State.OPEN, ""

    def tell(self, cube: Cube, seconds: float, **more: Any) -> None:
        """Writes a line of the log about a cube, whose state has just changed."""
        row = {"cube": cube.number, "is": cube.state.value, "seconds": round(seconds, 3), "worker": cube.worker, **more}
        print(json.dumps(row), file=self.log, flush=True)

    def finish(self) -> list[tuple[int, ...]]:
        """Writes the cover, its refutation and the manifest, once all leaves are refuted: the cubes."""
        leaves = list(self.tree.leaves())
        cubes = [cube.literals for cube in leaves]
        self.place("cover.gnf", cover(cubes).encode())
        self.place("cover", refutation_of_cover(self.tree).encode())
        rows = [{"literals": list(c.literals), "answer": c.answer, "sha256": c.sha256} for c in leaves]
        self.write_manifest(result="refuted", cubes=rows, files=self.checksums("problem.gnf", "cover.gnf", "cover"))
        return cubes

    def finish_with_model(self) -> None:
        """Writes the manifest, once the model is there."""
        self.write_manifest(result="model", cubes=[], files=self.checksums("problem.gnf", "model"))

    def checksums(self, *names: str) -> dict[str, str]:
        """The checksum of each of these files."""
        return {name: checksum(self.path / name) for name in names}

    def write_manifest(self, **facts: Any) -> None:
        """Writes manifest.json."""
        self.place("manifest.json", (json.dumps({"format": FORMAT, **facts}, indent=1) + "\n").encode())

    def close(self) -> None:
        """Lets another process have the folder."""
        self.log.close()
