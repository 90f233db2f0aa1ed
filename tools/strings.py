"""Names each string that isn't of the one form: tools/strings.py PATH..

Strings stand in double quotes where they have none inside, and none is filled by `%`. The paths are files, and folders
with all that ends in `.py`, of which there has to be one; each file has to compile. The status is 0 exactly where
nothing is named. (ruff's rules Q000 and UP031 say the same, and no package of Debian 12 has ruff.)
"""

from __future__ import annotations

import ast
import sys
import tokenize
from collections.abc import Iterator
from pathlib import Path


def quotes(path: Path) -> Iterator[tuple[int, str]]:
    """The lines with a string in single quotes that could have double ones."""
    inside = 0  # how many f-strings are open, where a version of Python gives their parts apart
    with open(path, "rb") as file:
        for token in tokenize.tokenize(file.readline):
            kind = tokenize.tok_name[token.type]
            inside += {"FSTRING_START": 1, "FSTRING_END": -1}.get(kind, 0)
            text = token.string.lstrip("bBfFrRuU")
            if kind == "STRING" and not inside and text.startswith("'") and '"' not in text:
                yield token.start[0], "a string in single quotes"


def fillings(path: Path) -> Iterator[tuple[int, str]]:
    """The lines with a string that is filled by `%`."""
    for node in ast.walk(ast.parse(path.read_bytes())):
        if isinstance(node, ast.BinOp) and isinstance(node.op, ast.Mod):
            left = node.left.value if isinstance(node.left, ast.Constant) else node.left
            if isinstance(left, (str, bytes, ast.JoinedStr)):
                yield node.lineno, "a string that is filled by %"


def main() -> int:
    found = False
    for place in map(Path, sys.argv[1:]):
        paths = [place] if place.is_file() else sorted(place.rglob("*.py"))
        if not paths:
            found = True
            print(f"{place}: there is no file of Python")
        for path in paths:
            compile(path.read_bytes(), str(path), "exec")
            for line, fault in [*quotes(path), *fillings(path)]:
                found = True
                print(f"{path}:{line}: {fault}")
    return int(found)


if __name__ == "__main__":
    sys.exit(main())
