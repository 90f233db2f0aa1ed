"""Builds the package by the standard library alone (PEP 517 and 660): `pip install ./python` needs no network.

A wheel is a zip archive of the package's files and of four that describe it (the "Binary distribution format" of the
Python packaging guide). What `pyproject.toml` says about the project is written into them. `wheel_with_program` adds
the built program, which pip puts where commands are, and what is known of it.
"""

from __future__ import annotations

import base64
import hashlib
import io
import json
import platform
import re
import sys
import tarfile
import tomllib
import zipfile
from pathlib import Path
from typing import Any

ANYWHERE = "py3-none-any"  # the tag of a wheel that any machine may install

ROOT = Path(__file__).resolve().parents[1]


def project() -> dict[str, Any]:
    """The table `project` of pyproject.toml: strings, and tables of strings."""
    with open(ROOT / "pyproject.toml", "rb") as file:
        table: dict[str, Any] = tomllib.load(file)["project"]
    return table


def metadata(description: str = "") -> str:
    """The text of METADATA, with a description behind it where there is one."""
    about = project()
    rows = ["Metadata-Version: 2.1", f"Name: {about['name']}", f"Version: {about['version']}"]
    rows += [f"Summary: {about['description']}", f"Requires-Python: {about['requires-python']}"]
    rows += [f"License: {about['license']['text']}"]
    for extra, packages in about["optional-dependencies"].items():
        rows.append(f"Provides-Extra: {extra}")
        rows += [f'Requires-Dist: {package}; extra == "{extra}"' for package in packages]
    return "\n".join(rows) + "\n" + (f"\n{description}" if description else "")


def scripts() -> str:
    """The text of entry_points.txt."""
    return "[console_scripts]\n" + "".join(f"{name} = {at}\n" for name, at in project()["scripts"].items())


def stem() -> str:
    """The name and the version, with which the names of a wheel and of its folders begin."""
    about = project()
    return f"{about['name']}-{about['version']}"


def write_wheel(folder: str, files: dict[str, bytes], tag: str = ANYWHERE, description: str = "") -> str:
    """Writes a wheel of these files and those that describe it; its name."""
    described = f"{stem()}.dist-info"
    is_pure = str(tag == ANYWHERE).lower()
    files = dict(files)
    files[f"{described}/METADATA"] = metadata(description).encode()
    files[f"{described}/WHEEL"] = (
        f"Wheel-Version: 1.0\nGenerator: wheel_backend\nRoot-Is-Purelib: {is_pure}\nTag: {tag}\n".encode()
    )
    files[f"{described}/entry_points.txt"] = scripts().encode()
    rows = []
    for name, content in files.items():
        digest = base64.urlsafe_b64encode(hashlib.sha256(content).digest()).rstrip(b"=").decode()
        rows.append(f"{name},sha256={digest},{len(content)}\n")
    files[f"{described}/RECORD"] = ("".join(rows) + f"{described}/RECORD,,\n").encode()
    wheel = f"{stem()}-{tag}.whl"
    with zipfile.ZipFile(Path(folder) / wheel, "w", zipfile.ZIP_DEFLATED) as archive:
        for name, content in files.items():
            entry = zipfile.ZipInfo(name, (2020, 1, 1, 0, 0, 0))  # the same files make the same wheel, whenever it is
            entry.compress_type = zipfile.ZIP_DEFLATED
            entry.external_attr = (0o100755 if "/scripts/" in name else 0o100644) << 16
            archive.writestr(entry, content)
    return wheel


def modules() -> dict[str, bytes]:
    """The package's files."""
    package = ROOT / "gulfezo"
    kinds = (".py", ".js", ".css")
    found = [path for path in sorted(package.rglob("*")) if path.suffix in kinds or path.name == "py.typed"]
    return {str(path.relative_to(ROOT)): path.read_bytes() for path in found}


def build_wheel(wheel_directory: str, config_settings: Any = None, metadata_directory: Any = None) -> str:
    """The package itself."""
    return write_wheel(wheel_directory, modules())


def wheel_with_program(folder: str, program: bytes, toolchain: str, commit: str) -> str:
    """A wheel of the package and the program, for machines of this one's kind: its name.

    `toolchain` is the line by which the toolchain that proved and built the program names itself, and `commit` that of
    the sources. They and the program's checksum stand in METADATA as words, and as JSON in the file `program.json`
    beside it.
    """
    known = {"sha256": hashlib.sha256(program).hexdigest(), "toolchain": toolchain, "commit": commit}
    files = modules()
    files[f"{stem()}.data/scripts/gulfezo"] = program
    files[f"{stem()}.dist-info/program.json"] = (json.dumps(known, indent=1) + "\n").encode()
    description = (
        f"The wheel holds the program `gulfezo`.\nIts sha256: {known['sha256']}\n"
        f"The commit of its sources: {commit}\nProved and built by: {toolchain}\n"
    )
    return write_wheel(folder, files, f"py3-none-{kind_of_machine(program)}", description)


def kind_of_machine(program: bytes) -> str:
    """The tag of machines that can run it: this one's kind, with at least the version of glibc that it names."""
    named = [tuple(map(int, version)) for version in re.findall(rb"GLIBC_([0-9]+)\.([0-9]+)", program)]
    system = "manylinux_{}_{}".format(*max(named)) if named else "linux"
    return f"{system}_{platform.machine()}"


def build_editable(wheel_directory: str, config_settings: Any = None, metadata_directory: Any = None) -> str:
    """A pointer to this folder, so that changes of the package are seen at once."""
    return write_wheel(wheel_directory, {"gulfezo.pth": f"{ROOT}\n".encode()})


def build_sdist(sdist_directory: str, config_settings: Any = None) -> str:
    """The sources as an archive."""
    with tarfile.open(Path(sdist_directory) / f"{stem()}.tar.gz", "w:gz") as archive:
        for part in ("pyproject.toml", "README.md", "backend", "gulfezo"):
            archive.add(ROOT / part, f"{stem()}/{part}", filter=lambda at: None if "__pycache__" in at.name else at)
        description = tarfile.TarInfo(f"{stem()}/PKG-INFO")
        content = metadata().encode()
        description.size = len(content)
        archive.addfile(description, io.BytesIO(content))
    return f"{stem()}.tar.gz"


def main() -> None:
    """A wheel with a program: wheel_backend.py PROGRAM FOLDER TOOLCHAIN COMMIT prints its path."""
    program, folder, toolchain, commit = sys.argv[1:]
    print(Path(folder, wheel_with_program(folder, Path(program).read_bytes(), toolchain, commit)))


if __name__ == "__main__":
    main()
