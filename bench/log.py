#!/usr/bin/env python3
"""Checks a log of 1 GB that comes through a pipe: log.py [--bytes N] [--numbers N]

The input is a chain of implications over some variables, and each step of the log names as many clauses. Nothing of the
log stands in a file. It prints the processor time and the peak of resident memory of `check` and of `wc` on the same
bytes, and what `check` says. No time is tested: a machine's load moves both. The status is 1 where `check` doesn't
accept the log with the number of its steps, or takes longer than the limit by the clock.
"""

from __future__ import annotations

import os
import signal
import subprocess
import tempfile
import threading
from collections.abc import Iterator

import flags
from runs import Wrong, about, shown


def problem(numbers: int) -> str:
    """1, and 1 -> 2, .., up to the number."""
    return "1 0\n" + "".join(f"-{x} {x + 1} 0\n" for x in range(1, numbers))


def log(numbers: int, size: int) -> Iterator[bytes]:
    """A status line, and steps that each derive the last variable."""
    yield b"s UNKNOWN\n"
    piece = step(numbers) * steps_at_once(numbers)
    for _ in range(pieces_of(numbers, size)):
        yield piece


def step(numbers: int) -> bytes:
    """The line of a step."""
    return f"chain {numbers} 0 {' '.join(str(n) for n in range(1, numbers + 1))}\n".encode()


def steps_at_once(numbers: int) -> int:
    """How many steps are written at once."""
    return max(1, (1 << 20) // len(step(numbers)))


def pieces_of(numbers: int, size: int) -> int:
    """How many times so many steps are written."""
    return -(-size // (steps_at_once(numbers) * len(step(numbers))))


def measure(words: list[str], pieces: Iterator[bytes], limit: int) -> tuple[float, int, str]:
    """The processor time in seconds, the peak in kB, and the text of a run over these bytes. `Wrong`: it fails."""
    child = subprocess.Popen(words, stdin=subprocess.PIPE, stdout=subprocess.PIPE, start_new_session=True)
    assert child.stdin is not None and child.stdout is not None
    timer = threading.Timer(limit, os.killpg, [child.pid, signal.SIGKILL])
    timer.start()
    try:
        for piece in pieces:
            child.stdin.write(piece)
        child.stdin.close()
    except BrokenPipeError:
        pass  # it ended before the log did: its text tells
    text = child.stdout.read().decode("latin1")
    _, status, usage = os.wait4(child.pid, 0)
    timer.cancel()
    child.returncode = os.waitstatus_to_exitcode(status)
    if child.returncode:
        raise Wrong(f"{shown(words)}: ended with {child.returncode} and wrote {text!r}")
    return usage.ru_utime + usage.ru_stime, usage.ru_maxrss, text


def main() -> None:
    parser = flags.parser(__doc__, limit=600)
    parser.add_argument("--bytes", metavar="N", type=int, default=1 << 30, help="the log's size (%(default)s)")
    parser.add_argument("--numbers", metavar="N", type=int, default=1000, help="of clauses a step names (%(default)s)")
    options = parser.parse_args()
    command = flags.again(options, "--bytes", options.bytes, "--numbers", options.numbers)
    with tempfile.NamedTemporaryFile("w", suffix=".gnf") as file, about("the log", command):
        file.write(problem(options.numbers))
        file.flush()
        runs = {
            "wc": ["wc", "-"],
            "check": [options.program, "check", file.name, "/dev/stdin"],
        }
        for name, words in runs.items():
            seconds, peak, text = measure(words, log(options.numbers, options.bytes), options.limit)
            steps = steps_at_once(options.numbers) * pieces_of(options.numbers, options.bytes)
            if name == "check" and text != f"accepted progress {steps}\n":
                raise Wrong(f"{shown(words)}: it says {text!r} of {steps} steps")
            print(f"{name:6} {seconds:7.2f} s {peak:9} kB   {text.strip()}")


if __name__ == "__main__":
    main()
