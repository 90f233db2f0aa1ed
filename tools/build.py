"""Proves and builds the program, and the libraries below it side by side: build.py LOG (what `./gulfezo build` runs)

`rt` works on one crate of a checkout at a time, so each processor has a copy of the sources, in which the crate is
proved next that has the longest chain of others above it. A library that is done joins the other copies and the
checkout at once, where a later build, and `rt` itself, finds it: a build that is cut off goes on from there. The
program is proved, compiled and linked in the checkout at last, by `rt run`. What `rt` says goes to the file LOG; a line
for each crate is written to standard error.
"""

from __future__ import annotations

import os
import shutil
import signal
import subprocess
import sys
import time
from pathlib import Path

TOP = Path(__file__).resolve().parents[1]
PROGRAM = "mono_cmd"
# Processor seconds of each crate's proof, some half of those that docs/PROVING.md has: they order what is ready, and
# tell what is left.
COSTS = {
    "mono_theory": 328,
    "mono_forms": 250,
    "mono_check": 217,
    "mono_search": 195,
    "mono_dynamic": 188,
    "mono_steps": 165,
    "mono_distance": 159,
    "mono_flows": 151,
    "mono_any": 144,
    "mono_portfolio": 143,
    "mono_reach": 135,
    "mono_flow": 124,
    "mono_best": 110,
    "mono_answer": 108,
    "mono_cmd": 100,
    "mono_gnf": 100,
    "mono_trees": 97,
    "mono_core": 96,
    "mono_acyclic": 93,
    "mono_learn": 89,
    "mono_base": 88,
    "mono_io": 88,
    "mono_problem": 88,
    "mono_paths": 85,
    "mono_clauses": 79,
    "mono_cycles": 75,
    "mono_mend": 75,
    "mono_trail": 71,
    "mono_words": 66,
    "mono_graph": 65,
    "mono_kinds": 64,
    "mono_text": 56,
}
LESS = 45  # of each other crate
GB = 10**9
# Memory that a proof is given room for: of the crates that cost most, and of the others.
MOST, USUAL, DEAR = 6 * GB, 4 * GB, 190
MOST_JOBS = 4


def cost(crate: str) -> int:
    """What the table says of a crate."""
    return COSTS.get(crate, LESS)


def need(crate: str) -> int:
    """Bytes of memory to keep free for one job of a crate's proof."""
    return MOST if cost(crate) >= DEAR else USUAL


def jobs_within(memory: float, first: int) -> int:
    """How many jobs a proof may have, of which the first takes so much memory, and each further one 0.6 of it."""
    return max(1, min(MOST_JOBS, 1 + int((memory / first - 1) / 0.6)))


def listed() -> dict[str, list[str]]:
    """The crates that the program stands on, and it, each with the crates directly below it."""
    lines = (line.partition("#")[0].partition(":") for line in (TOP / "crates.txt").read_text().splitlines())
    every = {name.split()[0]: uses.split() for name, colon, uses in lines if colon}
    found: dict[str, list[str]] = {}
    left = [PROGRAM]
    while left:
        name = left.pop()
        if name not in found:
            found[name] = [it for it in every[name] if it in every]
            left += found[name]
    return found


def chains(crates: dict[str, list[str]]) -> dict[str, int]:
    """What the longest chain costs from each crate up to the program, both included."""
    above: dict[str, int] = {}

    def chain(name: str) -> int:
        if name not in above:
            above[name] = cost(name) + max((chain(it) for it, uses in crates.items() if name in uses), default=0)
        return above[name]

    for name in crates:
        chain(name)
    return above


def free() -> int:
    """The bytes of memory that are free, or as many as anything needs where the machine doesn't say."""
    try:
        text = Path("/proc/meminfo").read_text()
        return int(text.split("MemAvailable:")[1].split()[0]) * 1024
    except (OSError, IndexError, ValueError):
        return MOST


def linked(source: Path, to: Path) -> None:
    """The folder once more, of the same files where the disk is the same; whole, or not at all."""

    def link(one: str, other: str) -> None:
        try:
            os.link(one, other)
        except OSError:
            shutil.copy2(one, other)

    made = to.with_name(f"{to.name}.new")
    shutil.rmtree(made, ignore_errors=True)
    shutil.copytree(source, made, copy_function=link)
    shutil.rmtree(to, ignore_errors=True)
    made.rename(to)


class Copies:
    """Copies of the sources, one for each run that works beside others."""

    def __init__(self, room: Path, crates: dict[str, list[str]], count: int) -> None:
        shutil.rmtree(room, ignore_errors=True)
        self.room, self.idle = room, [room / str(n) for n in range(count)]
        self.every = list(self.idle)
        for copy in self.every:
            copy.mkdir(parents=True)
            kept = [line for line in (TOP / "crates.txt").read_text().splitlines() if line.split(":")[0] in crates]
            (copy / "crates.txt").write_text("".join(f"{line}\n" for line in kept))
            for name in crates:
                skipped = shutil.ignore_patterns("out")
                shutil.copytree(TOP / "crates" / name, copy / "crates" / name, ignore=skipped)
                self.give(name, TOP, copy)

    def give(self, name: str, source: Path, to: Path) -> None:
        """Hands the built library of a crate on; `rt` tells itself whether it is that of the sources."""
        made = source / "crates" / name / "out" / "rlib"
        if (made / "stamp").is_file():
            linked(made, to / "crates" / name / "out" / "rlib")

    def share(self, name: str, source: Path) -> None:
        """The other copies and the checkout get a library that one copy built."""
        for to in [TOP, *self.every]:
            if to != source:
                self.give(name, source, to)


class Build:
    """What is built, what runs, and what is left."""

    def __init__(self, log: str, room: Path) -> None:
        self.crates = listed()
        self.above = chains(self.crates)
        self.processors = len(os.sched_getaffinity(0))
        self.memory = free()
        self.done: list[str] = []
        self.running: dict[subprocess.Popen[bytes], tuple[str, Path, int, float]] = {}
        self.tried: set[str] = set()
        self.began = time.monotonic()
        self.spent = self.planned = 0.0  # seconds that what is done took, and those of the table
        self.log = open(log, "wb")
        self.copies = Copies(room, self.crates, max(1, min(self.processors, self.memory // USUAL)))

    def ready(self) -> list[str]:
        """The libraries whose own are done, that with the longest chain above it first."""
        begun = [*self.done, *(name for name, *_ in self.running.values()), PROGRAM]
        found = [it for it in self.crates if it not in begun and all(below in self.done for below in self.crates[it])]
        return sorted(found, key=lambda it: -self.above[it])

    def begin(self) -> None:
        """Begins what is ready, as far as processors and memory go."""
        ready = self.ready()
        for place, name in enumerate(ready):
            idle = self.processors - sum(jobs for _, _, jobs, _ in self.running.values())
            taken = sum(need(it) * (1 + 0.6 * (jobs - 1)) for it, _, jobs, _ in self.running.values())
            room = self.memory - taken
            if not self.copies.idle or idle < 1 or (self.running and room < need(name)):
                return
            jobs = max(idle // (len(ready) - place), 2 if place == 0 and self.waits_for(name) else 1)
            self.start(name, min(idle, jobs, jobs_within(room, need(name))))

    def waits_for(self, name: str) -> bool:
        """Whether the chain above a library, and not the number of processors, says how long the rest takes."""
        rest = sum(cost(it) for it in self.crates if it not in self.done)
        return self.above[name] * self.processors >= rest

    def start(self, name: str, jobs: int) -> None:
        """Begins a library's proof."""
        copy = self.copies.idle.pop()
        words, null = ["rt", "lib", "--jobs", str(jobs)], subprocess.DEVNULL
        folder = copy / "crates" / name
        child = subprocess.Popen(words, cwd=folder, stdin=null, stdout=self.log, stderr=self.log)
        self.running[child] = name, copy, jobs, time.monotonic()

    def end(self, child: subprocess.Popen[bytes]) -> bool:
        """A run has ended: hands its library on, and returns whether it is there."""
        name, copy, _, began = self.running.pop(child)
        self.copies.idle.append(copy)
        if child.returncode:
            # One that was killed, most likely for want of memory, is tried once more, beside less.
            was_killed = child.returncode in (-signal.SIGKILL, 128 + signal.SIGKILL, 256 - signal.SIGKILL)
            again = was_killed and name not in self.tried
            self.tried.add(name)
            self.memory -= MOST * again
            return again
        self.done.append(name)
        took = time.monotonic() - began
        # A library that was there takes seconds, and tells nothing of the speed.
        if took > cost(name) / 5:
            self.spent += took
            self.planned += cost(name)
        self.copies.share(name, copy)
        self.tell(name, began)
        return True

    def tell(self, name: str, began: float) -> None:
        """The line of a crate that is done."""
        took = f"{time.monotonic() - began:.0f} s"
        count = f"{len(self.done)} of {len(self.crates)} crates, {(time.monotonic() - self.began) / 60:.1f} min"
        left = f"; about {self.left() / 60:.0f} min are left" if len(self.done) < len(self.crates) else ""
        say(f"{name} is proved and built in {took} ({count}{left})")

    def left(self) -> float:
        """Seconds that the rest may take, at the speed so far: its longest chain, or its share of each processor."""
        rest = [name for name in self.crates if name not in self.done]
        chain = max((self.above[name] for name in rest), default=0)
        speed = self.spent / self.planned if self.planned else 1
        return max(chain, sum(map(cost, rest)) / len(self.copies.every)) * speed

    def libraries(self) -> str | None:
        """Builds the libraries: the name of one that failed, or None."""
        while len(self.done) < len(self.crates) - 1:
            self.begin()
            time.sleep(0.1)
            for child in [it for it in self.running if it.poll() is not None]:
                name = self.running[child][0]
                if not self.end(child):
                    return name
        return None

    def program(self) -> None:
        """Proves, compiles, links and runs the program in the checkout; without words it ends with its usage line."""
        say(f"{PROGRAM}, the program, comes last (about {self.left() / 60:.0f} min)")
        folder, null = TOP / "crates" / PROGRAM, subprocess.DEVNULL
        # `rt` itself gives a crate over so many libraries one job.
        jobs = min(self.processors, jobs_within(self.memory, need(PROGRAM)))
        words = ["rt", "run", "--jobs", str(jobs)]
        child = subprocess.Popen(words, cwd=folder, stdin=null, stdout=self.log, stderr=self.log)
        began = time.monotonic()
        self.running[child] = PROGRAM, folder, 1, began
        child.wait()
        # (its own status says nothing: what ran last is the program)
        if (folder / "out" / PROGRAM).is_file():
            self.done.append(PROGRAM)
            self.tell(PROGRAM, began)

    def stop(self) -> None:
        """Ends what still runs."""
        for child in self.running:
            child.terminate()
        for child in self.running:
            child.wait()


def say(text: str) -> None:
    """A line for whoever waits."""
    print(f"gulfezo: {text}", file=sys.stderr, flush=True)


def main(log: str) -> int:
    # In .git the copies are in nobody's way: rt ci reads every other folder of the checkout.
    room = (TOP / ".git" if (TOP / ".git").is_dir() else TOP / "out") / "gulfezo-build"
    signal.signal(signal.SIGTERM, lambda *_: sys.exit(143))
    build = None
    try:
        build = Build(log, room)
        failed = build.libraries()
        if failed:
            say(f"{failed} was not proved")
            return 1
        build.program()
        return 0
    except KeyboardInterrupt:
        return 130
    finally:
        if build:
            build.stop()
        shutil.rmtree(room, ignore_errors=True)


if __name__ == "__main__":
    sys.exit(main(sys.argv[1]))
