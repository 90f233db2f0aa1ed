"""Runs the program on hostile files, and tests how each run ends and how much memory it takes: hostile.py [--large]

Texts that are long in one direction (a line, a token, a clause, a chain, lines of graphs), bytes that belong to no
text, and what isn't a file: a directory, a FIFO, a name without a file, an output that is full. A run has to end with
the status and the text that docs/FORMATS.md says, and its peak of resident memory has to be at most 3 times the bytes
of its files and 4 MB, where no other factor is given here. --large makes the texts 50 times as long, up to 300 MB in
one line, and prints a row for each run; --only NAME runs those of one name. The status is 0 exactly where every run
ended as it should.
"""

from __future__ import annotations

import argparse
import ctypes
import itertools
import os
import signal
import subprocess
import sys
import tempfile
import threading
from collections.abc import Iterable, Iterator
from dataclasses import dataclass
from pathlib import Path

import flags
from runs import MOST_STOPPED

BASE = 4_000  # kB that a run takes without a file
MOST_BYTES = 2**28  # of an input
PR_SET_THP_DISABLE = 41  # Linux: no huge pages for a process and those that it begins
FORMATS = Path(__file__).resolve().parents[1] / "docs" / "FORMATS.md"

# Clauses 2 and 3 turn {1} into {2} and back, as often as a chain names them.
CIRCLE = b"1 0\n-1 2 0\n-2 1 0\n-1 0\n"
MODEL = b"s SATISFIABLE\nv 1 0\n"
REFUTATION = b"s UNSATISFIABLE\nchain 0 1 4\n"
ACCEPTED = b"accepted refutation\n"


# The pieces of a text, or so many NULs, which take no room on most disks.
Text = Iterable[bytes] | int


@dataclass
class Case:
    """The texts of the files `f` and `a`, the words of a run over them, and the status and the text that are due."""

    name: str
    files: list[Text]
    words: tuple[str | bytes, ...]
    status: int
    text: bytes
    factor: float = 3  # of memory to the files' bytes
    fed: bytes = b""  # what is written into the file `fifo` while the run reads it
    out: str = ""  # the output's file, where it is none of this script's


@dataclass
class Found:
    """How a run ended, and its peak of resident memory in kB."""

    status: int
    text: bytes
    seconds: float
    peak: int


CHECK = ("check", "f", "a")
PRINT = ("print", "f")


def long(begin: bytes, piece: bytes, count: int, end: bytes = b"") -> Iterator[bytes]:
    """A text with a piece that is repeated; it is never held whole here, where it would count to the runs' memory."""
    yield begin
    most = max(1, 2**16 // len(piece))
    for at in range(0, count, most):
        yield piece * min(most, count - at)
    yield end


def inputs(n: int) -> Iterator[Case]:
    """Inputs of about n bytes, most of them in one line."""
    one = b"p gnf 1 1\n1 0\n"
    yield Case("a comment", [long(b"c ", b"x", n, b"\n1 0\n")], PRINT, 0, one)
    yield Case("blanks", [long(b"", b" ", n)], PRINT, 0, b"p gnf 0 0\n")
    yield Case("zeros before a 1", [long(b"", b"0", n, b"1 0")], PRINT, 0, one)
    yield Case("nines", [long(b"", b"9", n, b" 0")], PRINT, 3, b"refused 1 TooLarge\n")
    yield Case("a word", [long(b"", b"x", n)], PRINT, 3, b"refused 1 UnknownWord\n")
    yield Case("NULs", [n], PRINT, 3, b"refused 1 UnknownWord\n")
    yield Case("a byte too many", [MOST_BYTES + 1], PRINT, 7, b"too long\n")


def counted(n: int) -> Iterator[Case]:
    """Inputs of about n bytes with many literals, clauses, edges or graphs: too many of them where n is large."""
    literals = min(n // 2, 16_000_001)
    yield within("a clause", long(b"", b"1 ", literals, b"0"), literals <= 16_000_000, 1, MODEL, 5)
    clauses = min(n // 4, 8_000_001)
    yield within("clauses", long(b"", b"1 0\n", clauses), clauses <= 8_000_000, 8_000_001, MODEL, 3)
    edges = min(n // 13, 1_000_001)
    text = long(b"digraph int 2 0 0\n", b"edge 0 0 1 1\n", edges)
    yield within("edges", text, edges <= 1_000_000, 1_000_002, b"s SATISFIABLE\nv -1 0\n", 7)
    graphs = (f"digraph int 1 0 {g}\n".encode() for g in range(min(n // 22, 1_000_000)))
    yield Case("graphs", [graphs], PRINT, 3, b"refused 1025 TooMany\n")


def within(name: str, text: Text, fits: bool, line: int, model: bytes, factor: float) -> Case:
    """A check of a model for an input that fits into the limits, or passes them at a line."""
    due = b"accepted model\n" if fits else f"refused {line} TooMany\n".encode()
    return Case(name, [text, [model]], CHECK, 0 if fits else 3, due, factor)


def answers(n: int) -> Iterator[Case]:
    """Answers of about n bytes, most of them in one line. A number of two bytes takes 8 in memory in a chain."""
    begun = b"s UNSATISFIABLE\nchain 0 "

    def chain(end: bytes) -> list[Text]:
        """An input, and a long chain for it that ends so."""
        return [[CIRCLE], long(begun + b"1", b" 2 3", n // 4, end)]

    yield Case("a chain", chain(b" 4\n"), CHECK, 0, ACCEPTED, 6)
    yield Case("a chain without a line feed", chain(b" 4"), CHECK, 0, ACCEPTED, 6)
    yield Case("a chain that is stuck", chain(b" 4 4\n"), CHECK, 1, b"rejected 2 ChainStuck\n", 6)
    yield Case("nines in a chain", [[CIRCLE], long(begun, b"9", n)], CHECK, 1, b"rejected 2 BadLine\n")
    yield Case("a comment in an answer", [[CIRCLE], long(b"c ", b"x", n, b"\n" + REFUTATION)], CHECK, 0, ACCEPTED)
    yield Case("an answer of NULs", [[CIRCLE], n], CHECK, 1, b"rejected 1 NotAnswer\n")
    yield Case("line feeds", [[CIRCLE], long(b"", b"\n", n)], CHECK, 1, b"rejected 1 NotAnswer\n")
    values = long(b"s SATISFIABLE\nv", b" 1", n // 2, b" 0\n")
    yield Case("a model's line", [[CIRCLE], values], CHECK, 1, b"rejected 2 ModelVariables\n", 4)


def strange_bytes() -> Iterator[Case]:
    """Bytes that belong to no text."""
    for name, text, status, due in (
        ("bytes in a comment", b"c \0\xff\xfe\n1 0\n", 0, b"p gnf 1 1\n1 0\n"),
        ("NUL in a number", b"1\0 0\n", 3, b"refused 1 NotNumber\n"),
        ("NUL behind a word", b"reach\0 0 0 1 1\n", 3, b"refused 1 UnknownWord\n"),
        ("a byte order mark", b"\xef\xbb\xbfp cnf 1 0\n", 3, b"refused 1 UnknownWord\n"),
        ("a vertical tab", b"1\v0\n", 3, b"refused 1 NotNumber\n"),
        ("carriage returns", b"1 0\r2\r0", 0, b"p gnf 2 2\n1 0\n2 0\n"),
    ):
        yield Case(name, [[text]], PRINT, status, due)
    yield Case("NUL in an answer", [[CIRCLE], [b"s UNSATISFIABLE\0\n"]], CHECK, 1, b"rejected 1 NotAnswer\n")
    yield Case("a byte in a step", [[CIRCLE], [b"s UNKNOWN\nchain 0 \xff\n"]], CHECK, 1, b"rejected 2 BadLine\n")
    yield Case("a name that is no text", [[CIRCLE]], ("print", b"f\xff"), 2, usage())


def usage() -> bytes:
    """The usage line, as the formats show it."""
    (line,) = [line for line in FORMATS.read_bytes().splitlines(keepends=True) if line.startswith(b"usage: ")]
    return line


def no_files(folder: Path) -> Iterator[Case]:
    """What isn't a file, as an input, an answer or the output."""
    fault = b"read fault\n"
    (folder / "place").mkdir()
    (folder / "circle").symlink_to("circle")
    for name in ("place", "circle", "f/", "nothing", "n" * 5_000):
        yield Case(f"the input {name[:9]}", [[CIRCLE]], ("print", name), 4, fault)
        yield Case(f"the answer {name[:9]}", [[CIRCLE]], ("check", "f", name), 4, fault)
    yield Case("an empty device", [], ("print", "/dev/null"), 0, b"p gnf 0 0\n")
    os.mkfifo(folder / "fifo")
    yield Case("a FIFO", [], ("print", "fifo"), 0, b"p gnf 1 1\n1 0\n", fed=b"1 0\n")
    yield Case("a FIFO that ends", [], ("print", "fifo"), 3, b"refused 1 UnfinishedClause\n", fed=b"1")
    yield Case("a FIFO with an answer", [[CIRCLE]], ("check", "f", "fifo"), 0, ACCEPTED, fed=REFUTATION)
    for words in (PRINT, ("solve", "f"), ("core", "f", "1"), ("print",)):
        yield Case(f"a full output of {words[0]}", [[CIRCLE]], words, 5, b"", out="/dev/full")


class Runs:
    """Runs of the program in a folder, each within so many seconds."""

    def __init__(self, args: argparse.Namespace, folder: str) -> None:
        self.args, self.folder = args, Path(folder)
        self.wrong = self.count = self.stopped = 0
        # What a run is said to take is at least what this script took where it began the run.
        self.least = self.run(("print", "/dev/null"), "").peak

    def put(self, case: Case) -> int:
        """Writes the case's files: how many bytes they have."""
        size = 0
        for name, text in zip("fa", case.files):
            with open(self.folder / name, "wb") as file:
                if isinstance(text, int):
                    file.truncate(text)
                else:
                    file.writelines(text)
            size += (self.folder / name).stat().st_size
        return size

    def run(self, words: tuple[str | bytes, ...], out: str) -> Found:
        """A run, whose output goes to the file of this name where there is one."""
        path = out or str(self.folder / "out")
        with open(path, "wb") as written:
            line = [self.args.program, *words]
            run = subprocess.Popen(line, cwd=self.folder, stdout=written, start_new_session=True)
            timer = threading.Timer(self.args.limit, self.stop, [run.pid])
            timer.start()
            _, status, used = os.wait4(run.pid, 0)
            timer.cancel()
        run.returncode = os.waitstatus_to_exitcode(status)
        text = b"" if out else Path(path).read_bytes()
        return Found(run.returncode, text, used.ru_utime + used.ru_stime, used.ru_maxrss)

    def stop(self, process: int) -> None:
        """Ends a run that takes too long, with all that it began."""
        self.stopped += 1
        os.killpg(process, signal.SIGKILL)

    def judge(self, case: Case) -> None:
        """Runs a case, and says what is wrong with its end."""
        size = self.put(case)
        if case.fed:
            threading.Thread(target=(self.folder / "fifo").write_bytes, args=(case.fed,), daemon=True).start()
        found = self.run(case.words, case.out)
        most = max(self.least + 1_000, BASE + case.factor * size / 1_000)
        ended = (found.status, found.text) == (case.status, case.text)
        row = f"{case.name}: {size} bytes, {found.status} {found.text[:60]!r}, {found.seconds:.2f} s, {found.peak} kB"
        self.count += 1
        if not ended or found.peak > most:
            self.wrong += 1
            print(f"WRONG {row}; due are {case.status} {case.text!r} and at most {most:.0f} kB")
            command = flags.again(self.args, *["--large"] * self.args.large, "--only", case.name)
            print(f"  again: {command}", flush=True)
        elif self.args.large:
            print(f"{row}, {1_000 * (found.peak - BASE) / size:.1f} times" if size > 1_000_000 else row, flush=True)


def use_small_pages() -> None:
    """Has runs take memory in small pages: some machines hand out huge ones, of which all counts for one byte."""
    ctypes.CDLL(None).prctl(PR_SET_THP_DISABLE, 1, 0, 0, 0)


def main() -> None:
    parser = flags.parser(__doc__, limit=600)
    parser.add_argument("--large", action="store_true", help="texts 50 times as long, and a row for each")
    parser.add_argument("--only", metavar="NAME", help="the files of this name alone, as a row has it")
    args = parser.parse_args()
    use_small_pages()
    long_answer = 300_000_000 if args.large else 6_000_000
    long_input = min(long_answer, MOST_BYTES - 100)
    with tempfile.TemporaryDirectory() as folder:
        runs = Runs(args, folder)
        few = (strange_bytes(), no_files(Path(folder)))
        every = itertools.chain(inputs(long_input), counted(long_input), answers(long_answer), *few)
        for case in (it for it in every if args.only in (None, it.name)):
            runs.judge(case)
            if runs.stopped >= MOST_STOPPED:
                print(f"so many were stopped after {args.limit:g} s that no further one is tried")
                break
    if not runs.count:
        sys.exit(f"no files have the name {args.only}")
    print(f"{runs.count} hostile files, {runs.wrong} wrong")
    sys.exit(1 if runs.wrong else 0)


if __name__ == "__main__":
    main()
