"""The flags that all scripts of this folder have."""

from __future__ import annotations

import argparse
import os
import shlex
import sys
from pathlib import Path

BUILT = Path(__file__).resolve().parents[1] / "crates" / "mono_cmd" / "out" / "mono_cmd"


def program(path: str) -> str:
    """The absolute path of a program, which runs in any folder can name."""
    if not os.path.isfile(path) or not os.access(path, os.X_OK):
        raise argparse.ArgumentTypeError(f"there is no program {path}")
    return os.path.abspath(path)


def positive(text: str) -> int:
    """A number of rounds: with none nothing would be compared."""
    number = int(text)
    if number < 1:
        raise argparse.ArgumentTypeError("at least 1 is wanted")
    return number


def parser(doc: str | None, drawn: str = "", rounds: int = 0, limit: float = 60) -> argparse.ArgumentParser:
    """`--program` and `--limit` for each script; `--rounds` and `--first` where things are drawn by seeds."""
    text, _, rest = (doc or "").partition("\n")
    made = argparse.ArgumentParser(description=text, epilog=rest, formatter_class=argparse.RawDescriptionHelpFormatter)
    add = made.add_argument
    # (the default is looked at as a word of the command would be, so that none that lacks is run)
    add("--program", metavar="PATH", type=program, default=str(BUILT), help="the program (%(default)s)")
    add("--limit", metavar="S", type=float, default=limit, help="seconds that a run may take (%(default)s)")
    if drawn:
        add("--rounds", metavar="N", type=positive, default=rounds, help=f"how many {drawn} (%(default)s)")
        add("--first", metavar="SEED", type=int, default=1, help="the first seed (%(default)s)")
    return made


def again(args: argparse.Namespace, *more: str | int) -> str:
    """The command of this script, with these words in place of what it draws or tries in all."""
    words = ["python3", f"fuzz/{Path(sys.argv[0]).name}", "--program", args.program, "--limit", f"{args.limit:g}"]
    for what in getattr(args, "without", []):
        words += ["--without", what]
    return shlex.join([*words, *map(str, more)])
