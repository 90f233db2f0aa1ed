"""What the scripts ask of a program: each kind of predicate, wide weights and the form `migrate`.

A program of an earlier version may lack some. That is said by `--without WHAT`; what isn't left out so has to be there.
"""

from __future__ import annotations

import argparse
import sys
import tempfile

import graphs
import reference
from runs import Program, Wrong

# A line of each kind over a graph of two nodes.
LINES = {
    "reach": b"reach 0 0 1 1",
    "steps": b"distance_leq 0 0 1 1 0",
    "weight": b"weighted_distance_leq 0 0 1 1 0",
    "flow": b"maximum_flow_geq 0 0 1 1 0",
    "tree": b"mst_weight_leq 0 1 0",
    "acyclic": b"acyclic 0 1",
    "wide weights": b"edge 0 0 1 1 4294967296",
}
MIGRATE = "migrate"


def add_flag(parser: argparse.ArgumentParser) -> None:
    """The flag `--without`."""
    what = [*LINES, MIGRATE]
    told = "what this program lacks and isn't asked for: " + ", ".join(what)
    parser.add_argument("--without", metavar="WHAT", choices=what, action="append", default=[], help=told)


def ask(args: argparse.Namespace) -> None:
    """Takes what the flags leave out from the reference, and ends the script where the program lacks something else."""
    for what in set(args.without) - {MIGRATE}:
        forget(what)
    with tempfile.TemporaryDirectory() as folder:
        program = Program(args.program, folder, args.limit)
        for what, line in LINES.items():
            if what not in args.without and not is_read(program, line):
                sys.exit(f"the program refuses a line of the kind {what}: {line.decode()}")


def is_read(program: Program, line: bytes) -> bool:
    """Whether the program reads a line about a graph of two nodes, or does what other runs will tell better."""
    program.put("f", b"digraph int 2 0 0\n" + line + b"\n")
    try:
        return program.run("print", "f").returncode != 3
    except Wrong as wrong:
        sys.exit(f"print of a file with the line {line.decode()}: {wrong}")


def forget(what: str) -> None:
    """Takes a kind out of the reference, with the words that serve it alone, or weights above 32 bits."""
    if what not in graphs.WORDS:
        reference.MOST_WEIGHT = reference.MOST_32_BITS
        return
    reference.PREDICATES.pop(LINES[what].split()[0])
    words = graphs.WORDS.pop(what)
    for word in set(words) - {word for others in graphs.WORDS.values() for word in others}:
        reference.LEMMAS.pop(word)
    reference.read.cache_clear()
