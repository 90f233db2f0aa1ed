"""Says which program this package runs, and what is known of it: python3 -m gulfezo"""

from __future__ import annotations

import hashlib
import importlib.metadata
import json
import sys
from pathlib import Path

from . import program
from .errors import ProgramMissing


def known() -> dict[str, str]:
    """What the wheel says of the program that it brought: its checksum, the toolchain and the commit; or nothing."""
    try:
        text = importlib.metadata.distribution("gulfezo").read_text("program.json")
    except importlib.metadata.PackageNotFoundError:
        return {}
    found: dict[str, str] = json.loads(text or "{}")
    return found


def itself(path: str) -> Path:
    """The program that runs: of a checkout's script the one that was built there, once it is."""
    built = Path(path).resolve().parent / "crates" / "mono_cmd" / "out" / "mono_cmd"
    return built if built.is_file() else Path(path)


def main() -> int:
    """Ends with 0 where there is a program, and its checksum is what the wheel says of it, if it says anything."""
    try:
        path = itself(program.find())
    except ProgramMissing as fault:
        print(fault, file=sys.stderr)
        return 1
    print(f"program   {path}")
    checksum = hashlib.sha256(path.read_bytes()).hexdigest()
    print(f"sha256    {checksum}")
    said = known()
    if not said:
        return 0
    if checksum != said["sha256"]:
        print(f"this isn't the program that came with the package, whose sha256 is {said['sha256']}", file=sys.stderr)
        return 1
    print(f"commit    {said['commit']}\ntoolchain {said['toolchain']}")
    return 0


if __name__ == "__main__":
    sys.exit(main())
