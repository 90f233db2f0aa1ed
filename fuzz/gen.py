#!/usr/bin/env python3
"""Compares generated inputs, byte for byte, with those of a second generator: gen.py [--rounds N] [--first SEED]

Sizes from 2 to 12, and 100, each with seven seeds; then boards that are drawn, one for each seed, which are solved too
(`--solve`). Their summary has to count what fuzz/reference.py reads, and to say that a grid has a model and a wall has
none. The status is 0 exactly where nothing differs.
"""

from __future__ import annotations

import random
import sys
from collections.abc import Iterable, Iterator

import flags
import reference
from generator import generated
from runs import Program, Stopped

SEEDS = [0, 1, 7, 42, 2**32, 2**63, 2**64 - 1]
RESULTS = {"grid": (10, "satisfiable", "model"), "wall": (20, "unsatisfiable", "refutation")}

MOST_WRONG = 3  # boards that are told; a script that has met so many goes no further

Board = tuple[str, int, int]  # a kind, a size and a seed


def drawn_board(seed: int) -> Board:
    """The board of a seed of this script."""
    drawn = random.Random(seed)
    return drawn.choice(list(RESULTS)), drawn.choice([*range(2, 13), 20]), drawn.getrandbits(drawn.choice([8, 32, 64]))


def summary(kind: str, text: str) -> tuple[int, str]:
    """The status and the six lines that are due for the text of a board."""
    problem = reference.read(text.encode())
    status, result, answer = RESULTS[kind]
    rows = [("variables", problem.variables), ("clauses", len(problem.clauses)), ("edges", len(problem.edges))]
    rows.append(("predicates", len(problem.predicates)))
    counts = "".join(f"{name} {count}\n" for name, count in rows)
    return status, f"{counts}result {result}\nverdict accepted {answer}\n"


def differences(program: Program, board: Board, solved: bool) -> Iterator[str]:
    """The words of each run over the board that doesn't end as it should."""
    text = generated(*board)
    due: list[tuple[list[str], tuple[int, str]]] = [([], (0, text))]
    if solved:
        due.append((["--solve"], summary(board[0], text)))
    for more, ending in due:
        words = ["gen", *map(str, board), *more]
        try:
            run = program.run(*words)
        except Stopped as stopped:
            yield f"{program.path} {' '.join(words)}: {stopped}"
            continue
        if (run.returncode, run.stdout.decode("latin1")) != ending or run.stderr:
            yield f"{program.path} {' '.join(words)}: another text, or ended with {run.returncode}"


def judged(program: Program, boards: Iterable[tuple[Board, bool]]) -> int:
    """How many runs over these boards, each solved or not, are different; prints a line for each."""
    wrong = 0
    for board, solved in boards:
        for row in differences(program, board, solved):
            wrong += 1
            print(row, flush=True)
        if wrong >= MOST_WRONG:
            print("so many are different that no further one is tried")
            break
    return wrong


def main() -> None:
    args = flags.parser(__doc__, "boards", 50).parse_args()
    program = Program(args.program, ".", args.limit)
    fixed = [(kind, size, seed) for kind in RESULTS for size in [*range(2, 13), 100] for seed in SEEDS]
    drawn = [drawn_board(seed) for seed in range(args.first, args.first + args.rounds)]
    boards = [(board, False) for board in fixed] + [(board, True) for board in drawn]
    wrong = judged(program, boards)
    print(program.count())
    print(f"{len(boards)} generated inputs, {wrong} different")
    sys.exit(1 if wrong else 0)


if __name__ == "__main__":
    main()
