"""Tries each script of fuzz/ and bench/ against programs that are wrong: false_programs.py [--program PATH] [SCRIPT..]

Each script has to end with 0 over the true program, and with another status, and without a traceback, over one that
says the wrong verdict, writes nothing, hangs, spins, crashes, refuses each kind of predicates in turn, or writes more
than is due. What a script needs (a C compiler, clasp) and isn't there is named, and is an error with --all; something
stands in for picomus, and for the two programs that bench/propagation/run compares. tools/strings.py has to notice
paths that aren't there, and tools/check-python a program that isn't, that writes nothing or that refuses a kind.
"""

from __future__ import annotations

import argparse
import contextlib
import importlib.util
import os
import shutil
import signal
import subprocess
import sys
import tempfile
from collections.abc import Iterator
from concurrent.futures import ThreadPoolExecutor
from dataclasses import dataclass
from pathlib import Path

TOP = Path(__file__).resolve().parents[1]
BUILT = TOP / "crates" / "mono_cmd" / "out" / "mono_cmd"
SECONDS = 900  # that a script may take: one that a false program stops hasn't noticed it

# What the wrong programs do; each runs the true one, if any, by `true()`, which gives its status and its text.
BEGINNING = """#!{python} -SE
import os, signal, subprocess, sys, time
def true():
    run = subprocess.run([{true!r}, *sys.argv[1:]], stdout=subprocess.PIPE)
    return run.returncode, run.stdout
def end(status, text):
    try:
        os.write(1, text) if len(text) < 4096 else sys.stdout.buffer.write(text)
        sys.stdout.flush()
    except OSError:
        os._exit(5)
    os._exit(status if status >= 0 else 99)
"""
WRONG = {
    "wrong verdict": """
status, text = true()
for one, other in ((b"model", b"refutation"), (b"s SATISFIABLE", b"s UNSATISFIABLE"), (b"given 1", b"given 2")):
    text = text.replace(one, b"\\0").replace(other, one).replace(b"\\0", other)
end(status, text.replace(b"progress", b"model"))
""",
    "nothing": "end(0, b'')\n",
    # (longer than anything here takes, and not for ever, so that one that is left behind ends)
    "a hang": f"time.sleep({SECONDS + 100})\n",
    "a spin": f"last = time.monotonic() + {SECONDS + 100}\nwhile time.monotonic() < last:\n    pass\n",
    "a crash": "os.kill(os.getpid(), signal.SIGSEGV)\n",
    "trailing bytes": """
status, text = true()
end(status, text + b"x\\n")
""",
}
REFUSING = """
for place in sys.argv[2:3]:
    if os.path.isfile(place) and any(line.startswith({word!r}) for line in open(place, "rb")):
        end(3, b"refused 1 UnknownWord\\n")
if sys.argv[1:2] == ["gen"] and {word!r} == b"reach":
    end(3, b"refused 1 UnknownWord\\n")
end(*true())
"""
KINDS = ["reach", "distance_leq", "weighted_distance_leq", "maximum_flow_geq", "mst_weight_leq", "acyclic"]

# What the yardstick of propagation writes of a kind of clauses and so many rounds.
PROPAGATES = """#!/bin/sh
echo given "$((100 + $1 * $2))" decisions 1 conflicts 1 full 1 sum 1
"""
# What stands in for tools, in front of those that are there. `c++ .. -o PATH ..` makes a copy of that yardstick.
TOOLS = {
    "c++": """#!/bin/sh
while [ "$1" != -o ]; do
    shift
done
cp "${0%c++}yardstick" "$2"
""",
    "picomus": "#!/bin/sh\nexit 20\n",
    "yardstick": PROPAGATES,
}


@dataclass
class Script:
    """A script's words for a small trial, the kinds of predicates that it meets then, and the tools that it needs."""

    words: list[str]  # where PROGRAM and TRUE stand for paths; the flag `--program PROGRAM` is put behind the first
    kinds: list[str]
    needs: tuple[str, ...] = ()
    limit: int = 3  # seconds of a run, over the programs that hang and spin
    over: str = "solver"  # or what stands in for the true program: "yardstick"

    @property
    def name(self) -> str:
        """Its path."""
        return self.words[0]

    @property
    def title(self) -> str:
        """Its words, since a script may be tried in several ways."""
        return " ".join(self.words)


SCRIPTS = [
    Script(["fuzz/run.py", "--rounds", "100"], KINDS),
    Script(["fuzz/answers.py", "--rounds", "20"], KINDS),
    Script(["fuzz/solve.py", "--rounds", "60"], KINDS),
    Script(["fuzz/cores.py", "--rounds", "20"], KINDS),
    Script(["fuzz/bounds.py", "--rounds", "20"], KINDS),
    Script(["fuzz/teams.py", "--rounds", "20"], KINDS),
    Script(["fuzz/gen.py", "--rounds", "3"], ["reach"]),
    Script(["fuzz/networks.py", "--rounds", "20"], KINDS, ("networkx",)),
    Script(["fuzz/worked.py"], KINDS),
    Script(["fuzz/faults.py", "--kind", "write"], KINDS, ("cc",)),
    Script(["fuzz/faults.py", "--kind", "open", "--kind", "read"], KINDS, ("cc",)),
    Script(["fuzz/faults.py", "--kind", "memory", "--only", "2"], ["reach"], ("cc",)),
    Script(["fuzz/hostile.py"], []),
    Script(["bench/run", "pigeons"], [], ("cc", "wc"), 1),
    Script(["bench/solve.py", "--seeds", "1", "reaching"], ["reach"], (), 1),
    Script(["bench/solve.py", "--old", "TRUE", "--new", "PROGRAM", "--only", "1", "reaching"], ["reach"], (), 1),
    Script(["bench/solve.py", "--old", "PROGRAM", "--new", "TRUE", "--only", "1", "reaching"], ["reach"], (), 1),
    Script(["bench/clasp.py", "--seeds", "1", "--limit", "5", "reaching"], ["reach"], ("clasp",), 1),
    Script(["bench/cores.py", "--seeds", "1", "12"], ["reach"], (), 1),
    Script(["bench/cores.py", "--clauses", "--seeds", "1", "20"], [], (), 1),
    Script(["bench/cubes.py", "--cubes", "4", "--probe", "5", "trial"], ["reach"], (), 1),
    Script(["bench/front.py", "--side", "6", "--clauses", "60", "--terms", "8"], ["weighted_distance_leq"], (), 1),
    Script(["bench/growth.py", "edge"], ["reach"], (), 1),
    Script(["bench/log.py", "--bytes", "1000000", "--numbers", "100"], [], ("wc",)),
    Script(["bench/propagation/run", "2"], [], (), 1, "yardstick"),
    Script(["bench/team.py", "--seeds", "1", "8"], ["reach"], (), 1),
]


@dataclass
class Trial:
    """A run of a script, and whether it has to end with 0."""

    what: str
    words: list[str]
    passes: bool
    says: str = ""  # what it has to say where it doesn't; else it says something, and that without a traceback

    @property
    def script(self) -> str:
        """The script's path."""
        return self.what.split(":")[0].split()[0]


@dataclass
class Programs:
    """The path of a true program, and those of wrong ones by what is wrong with them."""

    true: str
    wrong: dict[str, str]


def written(path: Path, text: str) -> str:
    """The path of a script with this text."""
    path.write_text(text)
    path.chmod(0o755)
    return str(path)


def programs(folder: Path, true: str) -> Programs:
    """The wrong programs over a true one, in a folder of their own."""
    folder.mkdir()
    texts = dict(WRONG)
    for kind in KINDS:
        texts[f"without {kind}"] = REFUSING.replace("{word!r}", repr(kind.encode()))
    begun = BEGINNING.format(python=sys.executable, true=true)
    return Programs(true, {it: written(folder / it.replace(" ", "_"), begun + text) for it, text in texts.items()})


def line(script: Script, program: str, true: str, tools: Path) -> list[str]:
    """The words of a script over a program."""
    named = [{"PROGRAM": program, "TRUE": true}.get(word, word) for word in script.words[1:]]
    path = f"PATH={tools}:{os.environ['PATH']}"
    return ["env", path, sys.executable, script.name, "--program", program, *named]


def trials(script: Script, over: Programs, tools: Path) -> Iterator[Trial]:
    """The runs of a script."""
    yield Trial(f"{script.title}: the true program", line(script, over.true, over.true, tools), True)
    for name, program in over.wrong.items():
        limit = ["--limit", str(script.limit)] if name in ("a hang", "a spin") else []
        if name in WRONG or name.removeprefix("without ") in script.kinds:
            yield Trial(f"{script.title}: {name}", line(script, program, over.true, tools) + limit, False)


def checks(over: Programs) -> Iterator[Trial]:
    """Runs of a part of tools/check-python, which has no limit, and whose tests that fail show where by tracebacks."""
    said = "check-python: failed"
    for name, program in {"the true program": over.true, **over.wrong}.items():
        words = ["env", f"GULFEZO={program}", str(TOP / "tools" / "check-python"), "test_solving.Solving"]
        if name in ("the true program", "nothing", "without acyclic"):
            yield Trial(f"tools/check-python: {name}", words, program == over.true, said)


def without_program(folder: Path) -> Iterator[Trial]:
    """Runs of scripts for which something isn't there."""
    absent, empty = str(folder / "absent"), folder / "empty"
    empty.mkdir()
    strings = str(TOP / "tools" / "strings.py")
    yield Trial("tools/strings.py: an absent folder", [sys.executable, strings, absent], False)
    yield Trial("tools/strings.py: an empty folder", [sys.executable, strings, str(empty)], False)
    tests = str(TOP / "tools" / "tests.py")
    yield Trial("tools/tests.py: an absent folder", [sys.executable, tests, absent], False)
    yield Trial("tools/tests.py: an empty folder", [sys.executable, tests, str(empty)], False)
    check = ["env", f"GULFEZO={absent}", str(TOP / "tools" / "check-python")]
    yield Trial("tools/check-python: an absent program", check, False)
    for name in dict.fromkeys(script.name for script in SCRIPTS):
        yield Trial(f"{name}: an absent program", [sys.executable, name, "--program", absent], False)


# The sessions of the scripts that run now, which end with this one.
RUNNING: set[int] = set()


def stop(*_: object) -> None:
    """Ends this script and what it runs."""
    for session in list(RUNNING):
        with contextlib.suppress(OSError):
            os.killpg(session, signal.SIGKILL)
    os._exit(143)


def fault(trial: Trial) -> str | None:
    """What is wrong with how the run ended, or None."""
    pipe, joined = subprocess.PIPE, subprocess.STDOUT
    with subprocess.Popen(trial.words, cwd=TOP, stdout=pipe, stderr=joined, start_new_session=True) as child:
        RUNNING.add(child.pid)
        try:
            out, _ = child.communicate(timeout=SECONDS)
        except subprocess.TimeoutExpired:
            os.killpg(child.pid, signal.SIGKILL)
            return f"it hadn't ended after {SECONDS} s"
        finally:
            RUNNING.discard(child.pid)
    text = out.decode("latin1")
    if trial.passes:
        return None if child.returncode == 0 else f"it ended with {child.returncode}: {text[-2000:]}"
    if child.returncode == 0:
        return f"it ended with 0: {text[-500:]}"
    if trial.says:
        return None if trial.says in text else f"it doesn't say {trial.says!r}: {text[-500:]}"
    return f"it fell over: {text[-500:]}" if "Traceback" in text or not text.strip() else None


def is_there(tool: str) -> bool:
    """Whether there is a command or a module of Python of this name."""
    return shutil.which(tool) is not None or importlib.util.find_spec(tool) is not None


def judged(tried: list[Trial], rows: bool) -> int:
    """How many of the runs end otherwise than they should; prints a line for each of those, or for all."""
    wrong = 0
    with ThreadPoolExecutor(len(os.sched_getaffinity(0))) as pool:
        for trial, what in zip(tried, pool.map(fault, tried)):
            wrong += what is not None
            if what or rows:
                print(f"{trial.what}: {what or ('ended with 0' if trial.passes else 'noticed')}", flush=True)
    return wrong


def drawn_up(folder: Path, true: str, scripts: list[Script]) -> Iterator[Trial]:
    """The trials of these scripts; what they run is written to the folder."""
    tools = folder / "tools"
    tools.mkdir()
    for tool, text in TOOLS.items():
        written(tools / tool, text)
    over = {"solver": programs(folder / "solver", true)}
    over["yardstick"] = programs(folder / "yardstick", str(tools / "yardstick"))
    for script in scripts:
        yield from trials(script, over[script.over], tools)
    yield from checks(over["solver"])
    yield from without_program(folder)


def main() -> None:
    parser = argparse.ArgumentParser(description=__doc__, formatter_class=argparse.RawDescriptionHelpFormatter)
    parser.add_argument("--program", metavar="PATH", default=str(BUILT), help="the true program (%(default)s)")
    parser.add_argument("--all", action="store_true", help="fail where a tool lacks that a script needs")
    parser.add_argument("--rows", action="store_true", help="print a row for each run")
    parser.add_argument("scripts", metavar="SCRIPT", nargs="*", help="these alone, as fuzz/run.py")
    args = parser.parse_args()
    signal.signal(signal.SIGTERM, stop)
    signal.signal(signal.SIGINT, stop)
    known = [script for script in SCRIPTS if not args.scripts or script.name in args.scripts]
    lacking = {script.title: [it for it in script.needs if not is_there(it)] for script in known}
    with tempfile.TemporaryDirectory() as folder:
        ready = [script for script in known if not lacking[script.title]]
        every = drawn_up(Path(folder), os.path.abspath(args.program), ready)
        tried = [trial for trial in every if not args.scripts or trial.script in args.scripts]
        count = judged(tried, args.rows)
    left_out = [f"{title} (no {', '.join(tools)})" for title, tools in lacking.items() if tools]
    more = f"; not tried: {', '.join(left_out)}" if left_out else ""
    scripts = {trial.script for trial in tried}
    print(f"{len(tried)} runs of {len(scripts)} scripts, {count} not as they should be{more}")
    sys.exit(1 if count or not tried or (args.all and left_out) else 0)


if __name__ == "__main__":
    main()
