"""Finds the program and runs it: its words, its exit codes, and how its runs are ended."""

from __future__ import annotations

import contextlib
import importlib.metadata
import json
import logging
import os
import shutil
import signal
import subprocess
import tempfile
import threading
import time
import urllib.parse
from collections.abc import Iterator, Sequence
from pathlib import Path
from types import FrameType
from typing import IO

from .errors import ProgramMissing, TimeSpent

LOG = logging.getLogger("gulfezo")

# What an exit code of `solve` means where it is no answer, and what to do about it.
NO_ANSWER = {
    2: "the program doesn't know the words of the command: is it of another version than this package?",
    3: "the program refuses the problem's file and names the line and its fault",
    4: "the program couldn't read the problem's file",
    5: "the program couldn't write its answer: is the disk full?",
    6: "the program found no memory; try on a machine with more of it",
    7: "the problem's file is longer than the format allows (docs/FORMATS.md, limits)",
    126: "the program could not be built; see crates/mono_cmd/out/build.log",
    127: "the Rattle toolchain, which builds the program, is not on the PATH",
}


def meaning(status: int) -> str:
    """What an exit code means where it is no answer, and what to do about it. A negative one is that of a signal."""
    if status == -signal.SIGKILL:
        return "the program was killed, as a system does that is short of memory"
    if status < 0:
        return f"the program was ended by signal {-status}"
    return NO_ANSWER.get(status, "this isn't an exit code that such a run of the program has")


def find(program: str | None = None) -> str:
    """The program's path: the one that is given, that of the environment variable GULFEZO, the script `gulfezo` of the
    checkout in which this package lies or from which it was installed, the program that was installed with this
    package, or `gulfezo` on the PATH, in this order.

    `ProgramMissing`: there is none.
    """
    named = program or os.environ.get("GULFEZO")
    if named:
        found = shutil.which(named)
        if found is None:
            raise ProgramMissing(f"{named} is no program that can be run; set GULFEZO to the program's path")
        return os.path.abspath(found)
    found = of_checkout(Path(__file__).resolve().parents[1]) or installed() or shutil.which("gulfezo")
    if found is None:
        raise ProgramMissing(
            "the program gulfezo isn't there: set the environment variable GULFEZO to the script `gulfezo` of a "
            "checkout, or to crates/mono_cmd/out/mono_cmd in it, or put a link to it on the PATH, or install a wheel "
            "that holds it (tools/wheel makes one)"
        )
    return found


def of_checkout(python: Path) -> str | None:
    """The script `gulfezo` beside a folder `python` that has this package's sources."""
    script = python.parent / "gulfezo"
    is_one = (python / "pyproject.toml").is_file() and script.is_file() and os.access(script, os.X_OK)
    return str(script) if is_one else None


def installed() -> str | None:
    """The program that was installed with this package, or that of the checkout from which it was installed.

    pip has written down where it put things, and from which folder they came.
    """
    try:
        package = importlib.metadata.distribution("gulfezo")
    except importlib.metadata.PackageNotFoundError:
        return None
    for part in package.files or []:
        if part.name == "gulfezo" and part.parent.name == "bin":
            return shutil.which(os.path.abspath(part.locate()))
    origin = json.loads(package.read_text("direct_url.json") or "{}").get("url", "")
    if not origin.startswith("file://"):
        return None
    return of_checkout(Path(urllib.parse.unquote(origin.removeprefix("file://"))))


# Signals that end a process, and that a terminal sends when it is closed.
ENDING = (signal.SIGTERM, signal.SIGHUP)


class Terminated(BaseException):
    """A signal came: raised where a run is waited for, so that all is put away before the process ends."""

    def __init__(self, number: int) -> None:
        super().__init__(number)
        self.number = number


@contextlib.contextmanager
def tidy_on_signals() -> Iterator[None]:
    """Within it, SIGTERM and SIGHUP end this process as always, but only after everything that unwinds was put away.

    Where the process has a handler of its own, or this isn't its main thread, nothing is changed.
    """
    is_main = threading.current_thread() is threading.main_thread()
    own = [number for number in ENDING if is_main and signal.getsignal(number) is signal.SIG_DFL]

    def unwind(number: int, frame: FrameType | None) -> None:
        raise Terminated(number)

    for number in own:
        signal.signal(number, unwind)
    try:
        yield
    except Terminated as ended:
        if ended.number in own:
            signal.signal(ended.number, signal.SIG_DFL)
            os.kill(os.getpid(), ended.number)
        raise
    finally:
        for number in own:
            signal.signal(number, signal.SIG_DFL)


def run(words: list[str], out: IO[bytes] | int, deadline: float | None = None) -> int:
    """Runs the words, writes what they print to `out`, and gives their exit code.

    `TimeSpent`: the deadline, a value of `time.monotonic`, came first. However this ends, the run has ended with it.
    """
    LOG.debug("runs %s", " ".join(words))
    try:
        process = subprocess.Popen(words, stdin=subprocess.DEVNULL, stdout=out)
    except OSError as fault:
        raise ProgramMissing(f"{words[0]} could not be started: {fault.strerror}") from fault
    with process:
        try:
            return process.wait(None if deadline is None else max(0.0, deadline - time.monotonic()))
        except subprocess.TimeoutExpired:
            end(process)
            raise TimeSpent("the time that was given is over, and the program was ended") from None
        except BaseException:
            end(process)
            raise


def end(process: subprocess.Popen[bytes]) -> None:
    """Ends a process: it is asked to, which a script passes on to what it started, and after a moment it is killed."""
    process.terminate()
    try:
        process.wait(2)
    except subprocess.TimeoutExpired:
        process.kill()


def verdict(
    program: str, problem: Path, answer: Path, deadline: float | None = None, literals: Sequence[int] = ()
) -> str:
    """The line that `check` prints about an answer: `accepted ..`, `rejected ..` or another. `TimeSpent`: see `run`.

    With literals it is `check-with`, which judges as if each of them were a further clause behind the problem's.
    """
    words = [program, "check-with" if literals else "check", str(problem), str(answer), *map(str, literals)]
    with tempfile.TemporaryFile() as said:  # a pipe that nobody reads would hold up a program that writes much
        run(words, said, deadline)
        said.seek(0)
        return said.read(1000).decode("utf-8", "replace").strip()
