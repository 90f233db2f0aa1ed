"""Runs the cubes of a problem: hands them out, judges what comes back, and splits what takes too long."""

from __future__ import annotations

import queue
import zlib
from collections import deque
from concurrent.futures import ThreadPoolExecutor
from dataclasses import dataclass
from functools import partial
from typing import Any

from ..errors import GulfezoError
from .engines import Engine
from .folder import Folder
from .judging import checksum, verdict
from .splitting import Splitting
from .tree import Cube, State
from .working import Job, Result

ATTEMPTS = 5  # of one cube, whose answers are rejected or whose runs fail
TRIES = 2  # runs with the small budget, for each cube that is wanted
WANTED = {10: "accepted model", 20: "accepted refutation"}


class NotJudged(GulfezoError):
    """A cube has no accepted answer after several attempts."""


@dataclass(frozen=True)
class Plan:
    """How many cubes are made, and what they may take.

    The problem is split until `cubes` cubes are open, or twice as many runs have tried to get there: a cube is first
    tried with a budget of `probe` learned clauses, and that run says on which variable it is split. Then each is solved
    with `budget`, and split further where that is spent.
    `program` is the one that judges; `solver` the one that is run on the workers (None: each finds its own).
    """

    cubes: int
    budget: int
    probe: int
    program: str
    solver: str | None


@dataclass(frozen=True)
class Judged:
    """An answer with what `check` says of it."""

    cube: Cube
    result: Result
    verdict: str


def told(answer: bytes) -> str:
    """The beginning of what a run of `solve` wrote where it is no answer."""
    try:
        return zlib.decompress(answer)[:100].decode("utf-8", "replace").strip()
    except zlib.error:
        return ""


class Run:
    """One run over a folder. `open` are the cubes that no worker has, in the order in which they are handed out, and
    `at_work` the others by their numbers, with whether they are only tried.
    """

    def __init__(self, plan: Plan, folder: Folder, engine: Engine, splitting: Splitting) -> None:
        self.plan = plan
        self.folder = folder
        self.engine = engine
        self.splitting = splitting
        self.open = deque(cube for cube in folder.tree.leaves() if cube.state is State.OPEN)
        self.at_work: dict[int, bool] = {}
        # A run that goes on has those behind it that its folder tells of.
        self.tries = sum(cube.is_probed or cube.state is not State.OPEN for cube in folder.tree.cubes)
        self.refuted = sum(cube.state is State.REFUTED for cube in folder.tree.leaves())
        self.longest = max((cube.seconds for cube in folder.tree.cubes), default=0.0)
        self.last_fault = ""
        self.events: queue.Queue[tuple[Cube, Any]] = queue.Queue()
        self.judges = ThreadPoolExecutor(2)

    def note(self) -> str:
        """The progress line."""
        counts = f"{len(self.open)} open, {len(self.at_work)} running, {self.refuted} refuted"
        fault = f", {self.last_fault}" if self.last_fault else ""
        return f"cubes: {counts}, longest {self.longest:.1f} s{fault}"

    def solve(self) -> bool:
        """Whether a model was found; else all cubes are refuted. `NotJudged` and others: neither came about."""
        try:
            while self.open or self.at_work:
                self.hand_out()
                cube, event = self.events.get()
                if self.take(cube, event):
                    return True
            return False
        finally:
            self.engine.close()
            self.judges.shutdown(wait=True, cancel_futures=True)

    def hand_out(self) -> None:
        """Gives the workers as much as they can do."""
        slots = self.engine.slots()
        while self.open and len(self.at_work) < slots:
            cube = self.open.popleft()
            is_tried = not cube.is_probed and self.are_too_few()
            self.tries += is_tried
            cube.state, self.at_work[cube.number] = State.RUNNING, is_tried
            budget = self.plan.probe if is_tried else self.plan.budget
            job = Job(self.engine.run, cube.literals, budget, self.plan.solver)
            self.engine.submit(job, partial(self.put, cube))

    def are_too_few(self) -> bool:
        """Whether there are fewer cubes than are wanted, one not counted that is about to be open or at work."""
        open_cubes = len(self.open) + len(self.at_work) + 1
        return open_cubes < self.plan.cubes and self.tries < TRIES * self.plan.cubes

    def put(self, cube: Cube, future: Any) -> None:
        """Called from another thread, once something has come of the cube."""
        try:
            self.events.put((cube, future.result()))
        except BaseException as fault:  # whatever it is, it is told, and the cube is done again
            self.events.put((cube, fault))

    def take(self, cube: Cube, event: Any) -> bool:
        """Does what follows from an event. Whether it is an accepted model."""
        if isinstance(event, Result):
            cube.seconds += event.seconds
            cube.worker = event.worker
            self.longest = max(self.longest, cube.seconds)
            if event.status in WANTED:
                self.judges.submit(self.judged, cube, event).add_done_callback(partial(self.put, cube))
                return False
            is_tried = self.at_work.pop(cube.number)
            if event.status == 0:
                self.spent(cube, event, is_tried)
            else:
                self.again(cube, event.seconds, f"solve ended with {event.status} {told(event.answer)}")
            return False
        del self.at_work[cube.number]
        if isinstance(event, Judged):
            return self.decide(event)
        self.again(cube, 0.0, f"{type(event).__name__}: {event}")
        return False

    def judged(self, cube: Cube, result: Result) -> Judged:
        """What `check` says of an answer, whose file is then where it belongs."""
        name = "model" if result.status == 10 else cube.answer
        try:
            text = zlib.decompress(result.answer)
        except zlib.error as fault:
            return Judged(cube, result, str(fault))
        path = self.folder.place(f"answers/{cube.number}.new", text)
        found = verdict(self.plan.program, self.folder.problem, path, () if result.status == 10 else cube.literals)
        if found == WANTED[result.status]:
            path.replace(self.folder.path / name)
        else:
            path.unlink()
        return Judged(cube, result, found)

    def decide(self, judged: Judged) -> bool:
        """Takes a judged answer. Whether it is an accepted model."""
        cube, seconds = judged.cube, judged.result.seconds
        if judged.verdict != WANTED[judged.result.status]:
            self.engine.leave_out(judged.result.worker)
            self.again(cube, seconds, f"an answer of {judged.result.worker} is wrong: {judged.verdict}")
            return False
        if judged.result.status == 10:
            cube.state = State.MODEL
            self.folder.tell(cube, seconds)
            return True
        cube.state, cube.sha256 = State.REFUTED, checksum(self.folder.path / cube.answer)
        self.folder.tell(cube, seconds, sha256=cube.sha256)
        self.refuted += 1
        return False

    def spent(self, cube: Cube, result: Result, is_tried: bool) -> None:
        """Splits a cube whose budget is spent; one that was only tried is solved where there are enough by now."""
        cube.is_probed = True
        if is_tried and not self.are_too_few():
            cube.state = State.OPEN
            self.folder.tell(cube, result.seconds, probed=True)
            self.open.append(cube)
            return
        variable = self.splitting.choice(cube, result.branches)
        if variable is None:
            self.again(cube, result.seconds, "its budget is spent, and no variable is left on which it can be split")
            return
        self.folder.tree.split(cube, variable)
        self.folder.tell(cube, result.seconds, on=variable)
        self.open.extend(cube.children)

    def again(self, cube: Cube, seconds: float, fault: str) -> None:
        """Puts a cube back. `NotJudged`: too often already."""
        cube.state = State.OPEN
        cube.rejected += 1
        self.last_fault = f"done again: cube {cube.number} ({fault})"
        self.folder.tell(cube, seconds, probed=cube.is_probed, fault=fault)
        if cube.rejected == ATTEMPTS:
            literals = " ".join(map(str, cube.literals))
            raise NotJudged(f"cube {cube.number} ({literals}) has no accepted answer after {ATTEMPTS} runs: {fault}")
        self.open.appendleft(cube)
