"""Writes files whole or not at all, and pictures in the format that their names say."""

from __future__ import annotations

import contextlib
import errno
import os
import shutil
import subprocess
import tempfile
from pathlib import Path

from .errors import PackageMissing

# Formats that a Debian tool makes of SVG, by the endings of names.
BY_TOOL = {".png": "png", ".pdf": "pdf"}


def write_whole(path: str | os.PathLike[str], content: bytes) -> None:
    """Writes a file. `OSError`, which names it: it couldn't, as on a full disk; nothing of it is left, and an older
    file stays.

    What isn't a file, a device or a pipe, is written as it is.
    """
    target = Path(path)
    is_file = target.is_file() or not target.exists()
    folder = target.resolve().parent
    if is_file and not folder.is_dir():
        raise FileNotFoundError(errno.ENOENT, "there is no such folder", str(folder))
    try:
        if is_file:
            replace(target.resolve(), content)
        else:
            target.write_bytes(content)
    except OSError as fault:
        raise OSError(fault.errno, fault.strerror, str(path)) from fault


def replace(target: Path, content: bytes) -> None:
    """Writes a file beside that one, and then gives it its name."""
    handle, beside = tempfile.mkstemp(prefix=f".{target.name}.", dir=target.parent)
    try:
        with os.fdopen(handle, "wb") as out:
            out.write(content)
        mode = target.stat().st_mode & 0o777 if target.exists() else 0o666 & ~umask()
        os.chmod(beside, mode)
        os.replace(beside, target)
    except BaseException:
        with contextlib.suppress(FileNotFoundError):
            os.unlink(beside)
        raise


def umask() -> int:
    """The mask of this process for new files."""
    mask = os.umask(0)
    os.umask(mask)
    return mask


def write_picture(path: str | os.PathLike[str], picture: str) -> None:
    """Writes an SVG picture, or makes a PNG or PDF file of it where the name ends so.

    `ValueError`: the name has another ending; `PackageMissing`: the tool isn't there.
    """
    ending = Path(path).suffix.lower()
    if ending in BY_TOOL:
        write_whole(path, converted(picture, BY_TOOL[ending]))
    elif ending in ("", ".svg") or Path(path).is_char_device():
        write_whole(path, picture.encode("utf-8"))
    else:
        raise ValueError(f"pictures are .svg, .png or .pdf files, and {path} would be none")


def converted(picture: str, form: str) -> bytes:
    """The picture in that form, by librsvg's tool."""
    tool = shutil.which("rsvg-convert")
    if tool is None:
        raise PackageMissing(f"a .{form} file is made by rsvg-convert (Debian: librsvg2-bin); write an .svg file")
    words = [tool, "--format", form] + (["--zoom", "2"] if form == "png" else [])
    run = subprocess.run(words, input=picture.encode("utf-8"), capture_output=True, check=False)
    if run.returncode or not run.stdout:
        said = run.stderr.decode("utf-8", "replace").strip()
        raise PackageMissing(f"rsvg-convert made no .{form} file of the picture: {said}")
    return run.stdout
