"""The script `gulfezo`: when it builds, and what it says, with a stand-in for the toolchain's command."""

import os
import shutil
import signal
import subprocess
import tempfile
import time
import unittest
from pathlib import Path

from helpers import REPOSITORY, heeds_signals

RT = """#!/usr/bin/env bash
echo $$ >"$(dirname "$0")/../rt.pid"
sleep ${RT_SLEEP:-0.1}
mkdir -p out
if [ "$1" = lib ]; then
    [ "${RT_FAIL-}" != lib ] || exit 1
    [ -e out/rlib/stamp ] || echo "$(basename "$PWD")" >>"$(dirname "$0")/../proved"
    mkdir -p out/rlib && touch out/rlib/stamp
    exit
fi
[ -e ../mono_base/out/rlib/stamp ] || exit 1
[ -z "${RT_FAIL-}" ] || exit 1
printf '#!/bin/sh\\necho ran "$@"\\n' >out/mono_cmd
chmod +x out/mono_cmd
"""


class Wrapper(unittest.TestCase):
    def setUp(self):
        folder = tempfile.TemporaryDirectory()
        self.addCleanup(folder.cleanup)
        self.root = Path(folder.name)
        for name in ("mono_base", "mono_cmd"):
            (self.root / "crates" / name / "src").mkdir(parents=True)
        self.source = self.root / "crates" / "mono_base" / "src" / "lib.rt"
        self.source.write_text("")
        (self.root / "crates.txt").write_text("mono_base:\nmono_cmd: mono_base\n")
        shutil.copy(REPOSITORY / "gulfezo", self.root / "gulfezo")
        for name in ("tools/build.py", "docs/FORMATS.md"):
            (self.root / name).parent.mkdir()
            shutil.copy(REPOSITORY / name, self.root / name)
        (self.root / "bin").mkdir()
        rt = self.root / "bin" / "rt"
        rt.write_text(RT)
        rt.chmod(0o755)

    def start(self, *words: str, **named: str) -> subprocess.Popen:
        path = os.environ["PATH"]
        environment = {**os.environ, "PATH": f"{self.root / 'bin'}:{path}", **named}
        pipes = {"stdout": subprocess.PIPE, "stderr": subprocess.PIPE, "text": True}
        line = [str(self.root / "gulfezo"), *words]
        return subprocess.Popen(line, env=environment, preexec_fn=heeds_signals, **pipes)

    def run_it(self, *words: str, **named: str) -> tuple[int, str, str]:
        """The status and what is written."""
        child = self.start(*words, **named)
        out, told = child.communicate(timeout=60)
        return child.returncode, out, told

    def make_older(self) -> None:
        """As if a source had been touched after the program was built."""
        later = time.time() + 5
        os.utime(self.source, (later, later))

    def test_it_builds_once_where_there_is_no_program(self):
        pair = [self.start("check", word) for word in "ab"]
        told = []
        for child, word in zip(pair, "ab"):
            out, said = child.communicate(timeout=60)
            self.assertEqual((child.returncode, out), (0, f"ran check {word}\n"))
            told.append(said)
        self.assertEqual("".join(told).count("this can take many minutes"), 1)
        self.assertEqual("".join(told).count("another run is building the program"), 1)
        done = r"mono_base is proved and built in \d+ s \(1 of 2 crates, 0.\d min; about \d+ min are left\)\n"
        self.assertRegex("".join(told), done)
        self.assertRegex("".join(told), r"mono_cmd is proved and built in \d+ s \(2 of 2 crates, 0.\d min\)\n")
        self.assertEqual(self.run_it("check", "c"), (0, "ran check c\n", ""))

    def test_newer_sources_are_said_and_built_when_asked(self):
        self.run_it("build")
        self.make_older()
        code, out, told = self.run_it("check", "d")
        self.assertEqual((code, out), (0, "ran check d\n"))
        self.assertIn("'./gulfezo build' makes it anew", told)
        code, out, told = self.run_it("build", RT_FAIL="1")
        self.assertEqual((code, out), (126, ""))
        self.assertIn("the build failed; see crates/mono_cmd/out/build.log", told)
        self.assertEqual(self.run_it("check", "e")[:2], (0, "ran check e\n"))
        os.utime(self.source, (0, 0))
        code, out, told = self.run_it("build")
        self.assertEqual((code, told.count("many minutes")), (0, 0))

    def test_without_the_toolchain(self):
        (self.root / "bin" / "rt").unlink()
        alone = self.root / "alone"
        alone.mkdir()
        for name in ("bash", "dirname", "readlink", "find", "sed", "grep", "mkdir", "sh"):
            os.symlink(shutil.which(name), alone / name)
        code, _, told = self.run_it("check", "a", PATH=str(alone))
        self.assertEqual(code, 127)
        self.assertIn("rt of the Rattle toolchain is not on the PATH", told)
        program = self.root / "crates" / "mono_cmd" / "out" / "mono_cmd"
        program.parent.mkdir(exist_ok=True)
        program.write_text('#!/bin/sh\necho ran "$@"\n')
        program.chmod(0o755)
        self.make_older()
        self.assertEqual(self.run_it("check", "b", PATH=str(alone))[:2], (0, "ran check b\n"))

    def test_a_build_ends_with_it(self):
        for number, code in ((signal.SIGTERM, 143), (signal.SIGHUP, 143), (signal.SIGINT, 130)):
            with self.subTest(number):
                self.end_a_build(number, code)
                self.assertFalse((self.root / "crates" / "mono_cmd" / "out" / "mono_cmd").exists())

    def test_an_earlier_program_stays_where_a_build_is_ended(self):
        self.run_it("build")
        self.make_older()
        for number, code in ((signal.SIGTERM, 143), (signal.SIGINT, 130)):
            with self.subTest(number):
                self.end_a_build(number, code)
                ended, out, told = self.run_it("check", "a")
                self.assertEqual((ended, out), (0, "ran check a\n"))
                self.assertIn("'./gulfezo build' makes it anew", told)

    def end_a_build(self, number: int, code: int) -> None:
        """A build that is ended by this signal ends with this status, and with the prover that it began."""
        pid = self.root / "rt.pid"
        pid.unlink(missing_ok=True)
        child = self.start("build", RT_SLEEP="30")
        for _ in range(200):
            if pid.is_file() and pid.read_text().strip():
                break
            time.sleep(0.05)
        child.send_signal(number)
        child.communicate(timeout=20)
        self.assertEqual(child.returncode, code)
        for _ in range(100):
            state = subprocess.run(["ps", "-o", "stat=", "-p", pid.read_text().strip()], capture_output=True, text=True)
            if state.stdout.strip()[:1] in ("", "Z"):
                break
            time.sleep(0.05)
        self.assertIn(state.stdout.strip()[:1], ("", "Z"))

    def test_a_build_goes_on_where_an_earlier_one_ended(self):
        code, _, told = self.run_it("build", RT_FAIL="run")
        self.assertEqual(code, 126)
        self.assertIn("mono_base is proved and built", told)
        self.assertEqual(self.run_it("build")[0], 0)
        self.assertEqual((self.root / "proved").read_text(), "mono_base\n")
        self.assertFalse((self.root / "out" / "gulfezo-build").exists())

    def test_a_library_that_fails_is_named(self):
        code, _, told = self.run_it("check", "a", RT_FAIL="lib")
        self.assertEqual(code, 126)
        self.assertIn("mono_base was not proved", told)
        self.assertIn("the build failed; see crates/mono_cmd/out/build.log", told)

    def test_other_words_build_nothing(self):
        for words in ((), ("",), ("slove", "f"), ("build", "now"), ("FILE", "f")):
            code, out, told = self.run_it(*words)
            self.assertEqual((code, told), (2, ""))
            self.assertRegex(out, r"\Ausage: solve FILE .*\n\Z")
        for word in ("help", "-h", "--help"):
            code, out, told = self.run_it(word)
            self.assertEqual((code, told), (0, ""))
            self.assertRegex(out, r"(?s)gulfezo build +proves and builds .*\nusage: solve FILE .*\n\Z")
        self.assertFalse((self.root / "proved").exists())

    def test_a_link_to_it(self):
        self.run_it("build")
        os.symlink(self.root / "gulfezo", self.root / "bin" / "gulfezo")
        run = subprocess.run([str(self.root / "bin" / "gulfezo"), "check", "x"], capture_output=True, text=True)
        self.assertEqual(run.stdout, "ran check x\n")


if __name__ == "__main__":
    unittest.main()
