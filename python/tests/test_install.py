"""Installing: the wheels that the backend builds, with the program and without it, and pip, without a network."""

import base64
import hashlib
import importlib.util
import json
import os
import shutil
import subprocess
import sys
import tempfile
import tomllib
import unittest
import zipfile
from pathlib import Path

from helpers import REPOSITORY, missing, program

PYTHON = Path(__file__).resolve().parents[1]
# A stand-in for the toolchain's command: it says which it is, and builds a program that says what it was asked.
RT = """#!/bin/sh
[ "$1" = version ] && echo "a toolchain 1" && exit
mkdir -p out && printf '#!/bin/sh\\necho ran "$@"\\n' >out/mono_cmd && chmod +x out/mono_cmd
"""
# What a new user writes: the program is found without a word about where it is.
USE = """
from gulfezo import Problem
problem = Problem()
graph = problem.add_graph(nodes=2)
problem.require(graph.reach(0, 1))
graph.add_edge(0, 1)
print(problem.solve().edges(graph) == graph.edges)
"""


def alone(**named: str) -> dict[str, str]:
    """The environment without what would lead to this checkout or to another program."""
    kept = {name: value for name, value in os.environ.items() if name not in ("GULFEZO", "PYTHONPATH")}
    return {**kept, "PIP_CONFIG_FILE": os.devnull, **named}


def pip(*words: str) -> None:
    """Runs pip without a network; the test is skipped where it isn't there, or is too old for the option --python."""
    run = subprocess.run([sys.executable, "-m", "pip", *words], capture_output=True, text=True, env=alone())
    if "No module named pip" in run.stderr or "no such option" in run.stderr:
        raise missing("pip isn't installed, or older than 22.3")
    if run.returncode:
        raise AssertionError(run.stderr)


class Install(unittest.TestCase):
    def setUp(self):
        folder = tempfile.TemporaryDirectory()
        self.addCleanup(folder.cleanup)
        self.folder = folder.name
        spec = importlib.util.spec_from_file_location("wheel_backend", PYTHON / "backend" / "wheel_backend.py")
        self.backend = importlib.util.module_from_spec(spec)
        spec.loader.exec_module(self.backend)

    def require_records(self, path: Path) -> list[str]:
        """The names of a wheel's files, once the last of them, RECORD, has the checksum and the size of each."""
        with zipfile.ZipFile(path) as wheel:
            names = wheel.namelist()
            rows = [row.split(",") for row in wheel.read(names[-1]).decode().splitlines()]
            self.assertEqual([name for name, _, _ in rows], names)
            for name, digest, size in rows[:-1]:
                content = wheel.read(name)
                found = base64.urlsafe_b64encode(hashlib.sha256(content).digest()).rstrip(b"=").decode()
                self.assertEqual((digest, size), (f"sha256={found}", str(len(content))))
        modules = {f"gulfezo/{module.name}" for module in (PYTHON / "gulfezo").glob("*.py")}
        self.assertLessEqual(modules | {"gulfezo/py.typed"}, set(names))
        return names

    def test_a_wheel_records_what_it_has(self):
        names = self.require_records(Path(self.folder) / self.backend.build_wheel(self.folder))
        self.assertFalse([name for name in names if "scripts" in name])

    def test_a_wheel_with_a_program_says_which(self):
        wheel = Path(self.folder) / self.backend.wheel_with_program(self.folder, b"the program", "a toolchain 1", "abc")
        names = self.require_records(wheel)
        self.assertRegex(wheel.name, r"^gulfezo-[0-9.]+-py3-none-linux_\w+\.whl$")
        with zipfile.ZipFile(wheel) as archive:
            script = archive.getinfo(next(name for name in names if name.endswith(".data/scripts/gulfezo")))
            self.assertEqual((archive.read(script), script.external_attr >> 16 & 0o111), (b"the program", 0o111))
            known = json.loads(archive.read(next(name for name in names if name.endswith("program.json"))))
            described = archive.read(next(name for name in names if name.endswith("METADATA"))).decode()
            kind = archive.read(next(name for name in names if name.endswith("/WHEEL"))).decode()
        checksum = hashlib.sha256(b"the program").hexdigest()
        self.assertRegex(self.backend.kind_of_machine(b"x\0GLIBC_2.4\0GLIBC_2.34\0"), r"^manylinux_2_34_\w+$")
        self.assertEqual(known, {"sha256": checksum, "toolchain": "a toolchain 1", "commit": "abc"})
        for fact in known.values():
            self.assertIn(fact, described)
        self.assertIn("Root-Is-Purelib: false\nTag: py3-none-linux_", kind)

    def test_a_clean_environment_gets_the_program_and_the_module(self):
        built = Path(program()).read_bytes()
        if built.startswith(b"#!"):
            self.skipTest("GULFEZO names a script, and no built program")
        wheel = self.backend.wheel_with_program(self.folder, built, "a toolchain 1", "abc")
        place = Path(self.folder, "venv")
        subprocess.run([sys.executable, "-m", "venv", "--without-pip", place], check=True)
        pip("--python", str(place / "bin" / "python"), "install", "--no-index", str(Path(self.folder, wheel)))
        self.assertEqual((place / "bin" / "gulfezo").read_bytes(), built)
        python = str(place / "bin" / "python")  # by its path: the environment isn't activated

        def said(*words: str) -> str:
            return subprocess.run(words, capture_output=True, text=True, check=True, env=alone(), cwd=place).stdout

        self.assertEqual(said(python, "-c", USE), "True\n")
        first = REPOSITORY / "examples" / "first"
        answered = said(str(place / "bin" / "gulfezo"), "check", str(first / "rota.gnf"), str(first / "rota.model"))
        self.assertEqual(answered, "accepted model\n")
        checksum = hashlib.sha256(built).hexdigest()
        told = said(python, "-m", "gulfezo")
        facts = [row.split(None, 1)[1] for row in told.splitlines()]
        self.assertEqual(facts, [str(place / "bin" / "gulfezo"), checksum, "abc", "a toolchain 1"])
        (place / "bin" / "gulfezo").write_bytes(built + b" ")
        other = subprocess.run([python, "-m", "gulfezo"], capture_output=True, text=True, env=alone(), cwd=place)
        self.assertEqual(other.returncode, 1)
        self.assertIn("isn't the program that came with the package", other.stderr)

    def test_a_checkout_tells_of_the_program_that_was_built(self):
        script = Path(self.folder, "gulfezo")
        script.write_text("#!/bin/sh\n")
        script.chmod(0o755)
        built = Path(self.folder, "crates", "mono_cmd", "out", "mono_cmd")
        built.parent.mkdir(parents=True)
        words = [sys.executable, "-m", "gulfezo"]
        here = alone(GULFEZO=str(script), PYTHONPATH=str(PYTHON))
        for path, content in ((script, b"#!/bin/sh\n"), (built, b"the program")):
            if path == built:
                built.write_bytes(content)
            told = subprocess.run(words, capture_output=True, text=True, check=True, env=here, cwd=self.folder).stdout
            facts = [row.split(None, 1)[1] for row in told.splitlines()[:2]]
            self.assertEqual(facts, [str(path.resolve()), hashlib.sha256(content).hexdigest()])

    def test_the_tool_names_the_commit_that_was_built(self):
        root = Path(self.folder, "checkout")
        skipped = shutil.ignore_patterns("__pycache__", "build", "dist", "*.egg-info")
        shutil.copytree(PYTHON, root / "python", ignore=skipped)
        for name in ("gulfezo", "tools/build.py", "tools/stamp", "tools/wheel", ".gitignore"):
            (root / name).parent.mkdir(exist_ok=True)
            shutil.copy(REPOSITORY / name, root / name)
        (root / "crates" / "mono_cmd").mkdir(parents=True)
        (root / "crates" / "mono_cmd" / "lib.rt").write_text("")
        (root / "crates.txt").write_text("mono_cmd:\n")
        rt = Path(self.folder, "bin", "rt")
        rt.parent.mkdir()
        rt.write_text(RT)
        rt.chmod(0o755)
        who = ["-c", "user.name=a", "-c", "user.email=a@example.org"]
        for words in (["init", "-q"], ["add", "."], [*who, "commit", "-q", "-m", "All"]):
            subprocess.run(["git", "-C", str(root), *words], check=True)
        head = ["git", "-C", str(root), "rev-parse", "HEAD"]
        commit = subprocess.run(head, capture_output=True, text=True, check=True)
        here = alone(PATH=f"{rt.parent}:{os.environ['PATH']}")
        words = [str(root / "tools" / "wheel"), self.folder]
        made = subprocess.run(words, capture_output=True, text=True, env=here)
        self.assertEqual(made.returncode, 0, made.stderr)
        wheel = Path(made.stdout.strip())
        with zipfile.ZipFile(wheel) as archive:
            text = archive.read(f"{self.backend.stem()}.dist-info/program.json")
            self.assertEqual(json.loads(text)["commit"], commit.stdout.strip())
            self.assertEqual(json.loads(text)["toolchain"], "a toolchain 1")
        self.assertIn("proved and built in a folder of its own", made.stderr)
        self.require_stamp(root, words, here)
        (root / "python" / "pyproject.toml").write_text("changed")
        refused = subprocess.run(words, capture_output=True, text=True, env=here)
        self.assertEqual(refused.returncode, 1)
        self.assertIn("aren't committed", refused.stderr)

    def require_stamp(self, root: Path, words: list[str], here: dict[str, str]) -> None:
        """A program is taken as it is where the stamp of its build says that it is of these sources, and else not."""
        stamp, built = str(root / "tools" / "stamp"), root / "crates" / "mono_cmd" / "out" / "mono_cmd"
        subprocess.run([str(root / "gulfezo"), "build"], check=True, capture_output=True, env=here)
        subprocess.run([stamp, "write"], check=True, env=here)
        again = subprocess.run(words, capture_output=True, text=True, env=here)
        self.assertEqual((again.returncode, again.stderr.count("folder of its own")), (0, 0), again.stderr)
        built.write_bytes(Path("/bin/true").read_bytes())
        told = subprocess.run([stamp, "check"], capture_output=True, text=True, env=here)
        self.assertEqual(told.returncode, 1)
        self.assertIn("isn't the one that was built", told.stderr)
        wheel = Path(subprocess.run(words, capture_output=True, text=True, env=here).stdout.strip())
        with zipfile.ZipFile(wheel) as archive:
            script = next(name for name in archive.namelist() if name.endswith(".data/scripts/gulfezo"))
            self.assertNotEqual(archive.read(script), Path("/bin/true").read_bytes())

    def test_commands_are_there(self):
        scripts = tomllib.loads((PYTHON / "pyproject.toml").read_text())["project"]["scripts"]
        for name, at in scripts.items():
            module, function = at.split(":")
            self.assertTrue(callable(getattr(importlib.import_module(module), function)), name)

    def test_pip_installs_without_a_network(self):
        pip("install", "--no-index", "--target", self.folder, str(PYTHON))
        self.assertTrue(Path(self.folder, "gulfezo", "draw.py").is_file())
        for part in ("page.js", "page.css"):
            self.assertTrue(Path(self.folder, "gulfezo", "report", part).is_file())
        words = [sys.executable, "-c", "from gulfezo import program; print(program.find(), program.__file__)"]
        here = alone(PYTHONPATH=self.folder)
        told = subprocess.run(words, capture_output=True, text=True, check=True, env=here, cwd=self.folder).stdout
        # It is that of the checkout from which it was installed, and the module is the one that was installed.
        self.assertEqual(told.split(), [str(REPOSITORY / "gulfezo"), str(Path(self.folder, "gulfezo", "program.py"))])


if __name__ == "__main__":
    unittest.main()
