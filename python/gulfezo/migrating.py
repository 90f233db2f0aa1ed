"""Turns answers into other versions of their format, by the program's `migrate`."""

from __future__ import annotations

import shutil
import tempfile
from collections.abc import Sequence
from pathlib import Path
from typing import TYPE_CHECKING

from . import program as programs
from .errors import RejectedAnswer, UnexpectedStatus
from .reasons import explained

if TYPE_CHECKING:
    from .model import Model
    from .steps import Derivation

VERSIONS = (1, 2)


def migrated(
    answer: Model | Derivation, version: int, program: str | None, assumed: Sequence[int]
) -> tuple[Path, Path]:
    """A file of the problem, with what was assumed as clauses behind its own, and one of the answer in that version.

    Both are in a new folder of their own. Errors are those of `Model.migrate`; those that name files leave the folder.
    """
    from .solving import assume

    if version not in VERSIONS or isinstance(version, bool):
        raise ValueError(f"answers have the versions 1 and 2, and not {version!r}")
    found = programs.find(program)
    with programs.tidy_on_signals():
        place = Path(tempfile.mkdtemp(prefix="gulfezo-"))
        file, old, new = place / "problem.gnf", place / "answer", place / "migrated"
        try:
            answer.problem.write(file)
            assume(file, assumed)
            old.write_text(answer.text, encoding="utf-8")
            with open(new, "wb") as out:
                status = programs.run([found, "migrate", str(file), str(old), str(version)], out)
        except BaseException:
            shutil.rmtree(place)
            raise
    if status != 0:
        said = new.read_bytes()[:1000].decode("utf-8", "replace").strip()
        if status == 1:
            raise RejectedAnswer(f"migrate says '{said}'{explained(said, old)}", file, old)
        reason = programs.meaning(status)
        raise UnexpectedStatus(f"migrate ended with {status}: {reason}{explained(said, file)}", file, old)
    return file, new
