"""Runs of the program over files in one folder, each within a limit of time."""

from __future__ import annotations

import collections
import os
import signal
import subprocess
from pathlib import Path


class Wrong(Exception):
    """What is wrong with a run."""


class Stopped(Wrong):
    """A run that hadn't ended within its limit."""


MOST_STOPPED = 2  # a script that has met so many goes no further


class Program:
    """The program, the folder in which it runs, and how many seconds a run may take."""

    def __init__(self, path: str, folder: str, limit: float) -> None:
        self.path, self.folder, self.limit = path, folder, limit
        self.begun: collections.Counter[str] = collections.Counter()  # how many runs of each first word

    def put(self, name: str, text: bytes) -> None:
        """A file of the folder with this text."""
        Path(self.folder, name).write_bytes(text)

    def run(self, *words: str, preloaded: dict[str, str] | None = None) -> subprocess.CompletedProcess[bytes]:
        """The run of these words, whatever it ends with. `Stopped`: it takes longer than the limit."""
        self.begun[" ".join(words[:1])] += 1
        return ended([self.path, *words], self.folder, self.limit, preloaded)

    def count(self) -> str:
        """How many runs were begun, and of which forms."""
        return f"{sum(self.begun.values())} runs: " + ", ".join(f"{n} {form}" for form, n in sorted(self.begun.items()))


def ended(
    words: list[str], folder: str, limit: float, more: dict[str, str] | None = None
) -> subprocess.CompletedProcess[bytes]:
    """A run in a folder, with more words of the environment. `Stopped`: it takes longer than so many seconds."""
    environment = {**os.environ, **more} if more else None
    pipe, null = subprocess.PIPE, subprocess.DEVNULL
    # A session of its own, so that what it began is stopped with it.
    with subprocess.Popen(
        words, cwd=folder, env=environment, stdin=null, stdout=pipe, stderr=pipe, start_new_session=True
    ) as child:
        try:
            out, err = child.communicate(timeout=limit)
        except subprocess.TimeoutExpired as why:
            os.killpg(child.pid, signal.SIGKILL)
            raise Stopped(f"it was stopped after {limit:g} s") from why
    return subprocess.CompletedProcess(words, child.returncode, out, err)
