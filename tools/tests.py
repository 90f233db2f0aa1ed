"""Runs the tests of a folder, each with a line: tests.py FOLDER [MODULE]

As `python3 -m unittest discover -v`, but a folder without a test is an error, and a last line counts what was skipped,
and names why. Tests that want what no package of Debian 12 has are named in lines before it, and not counted. The
status is 0 where each test passed or was skipped; with CHECK_ALL=1, where each but those passed.
"""

from __future__ import annotations

import os
import sys
import unittest

# How the reasons of such tests end.
NOT_TO_BE_HAD = "(no package of Debian has it)"


def main(folder: str, module: str = "") -> int:
    if not os.path.isdir(folder):
        print(f"there is no folder {folder}")
        return 1
    os.chdir(folder)
    sys.path.insert(0, os.getcwd())
    loader = unittest.defaultTestLoader
    suite = loader.loadTestsFromName(module) if module else loader.discover(".")
    if not suite.countTestCases():
        print(f"no test was found in {folder}")
        return 1
    result = unittest.TextTestRunner(verbosity=2).run(suite)
    reasons = [why for _, why in result.skipped]
    skipped = [why for why in reasons if not why.endswith(NOT_TO_BE_HAD)]
    for why in sorted({*reasons} - {*skipped}):
        print(f"not to be had: {why.removesuffix(NOT_TO_BE_HAD).strip()}")
    named = "".join(f"; {why}" for why in sorted({*skipped}))
    print(f"{result.testsRun} tests of {folder}, skipped: {len(skipped)}{named}")
    return int(not result.wasSuccessful() or (bool(skipped) and os.environ.get("CHECK_ALL") == "1"))


if __name__ == "__main__":
    sys.exit(main(*sys.argv[1:]))
