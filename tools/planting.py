"""Rows over changed definitions: copies of modules in a crate made for them, one check, and what each row says."""

from __future__ import annotations

import os
import re
import shutil
import signal
import subprocess
from collections.abc import Iterator
from contextlib import suppress
from dataclasses import dataclass, field, replace
from functools import cache
from pathlib import Path

from definitions import MODULE, WORD, Change, Module, Name, Tree, distances, imports

CRATE = "planted"
CHANGE = "the change itself"
ROW = re.compile(
    r"(?ms)^((?:(?:///|#\[)[^\n]*\n)*pub fn (\w+)\(\)\n(?:    ensures(?:(?!^\{).)*)?^\{\n?((?:    \w+\(\);\n)*)\}\n)"
)
DENIES = re.compile(r"(?:→ ⊥|≡ false) \}\s*$|\{ ¬")
USE = re.compile(r"(?m)^(ghost use|use) ([^\n;]*);")
# What the prover says of a function, with holes and without. All else, as that it could not tell, is no verdict.
SAID = re.compile(r"(?m)^fn ([\w:]+): (.*)$")
HOLDS = re.compile(r"no holes|proved|proved where its callers give what it asks")
REFUSED = re.compile(
    r"not proved.*|depends on a hole in .*|no proof: expected answers in [^;]*; `search` did not prove .*"
)
# What it says of a clause for which it has found, and checked, values that break it.
FALSE = re.compile(
    r"(?m)^note: src/(p\d+r\d+)\.rt:.*\(`returns(?:-clause-(\w+))?`\); the facts known there allow values at which "
    r"this goal is false$"
)
# What its last line says where it came to its end, with holes and without.
HOLES = re.compile(r"(?m)^holes=\d+")
LOGIC = re.compile(r"(?m)^logic=(proved|not-proved)\b")
# What it says of a text that it can't read, or that names what is gone.
UNREAD = re.compile(
    r"has no field|is not in scope|has no `|is no name|operand is missing|expected the end|cannot continue"
    r"|expected an expression|is not a data type|not a constructor|write a variable or"
)
ERROR = re.compile(r"(?m)^(?:\./)?((?:specs|proofs|src)/[^:\s]*):\d+:\d+: error: (.*)$")


@dataclass(frozen=True)
class Row:
    """A function whose clauses are rows: its crate, its module, its name, its text, the head of its file, and the rows
    of this file that it calls."""

    crate: str
    module: str
    name: str
    text: str
    head: str
    called: tuple[Row, ...] = ()
    dropped: frozenset[str] = frozenset()

    @cache
    def uses(self) -> set[Name]:
        imported = imports(self.head, "ghost use")
        return {imported[word] for word in set(WORD.findall(self.text)) & imported.keys()}

    @cache
    def modules(self, tree: Tree) -> set[Module]:
        return tree.modules(self.whole(tree.root))

    def answers(self, root: Path) -> dict[str, str]:
        folder = root / "crates" / self.crate / "proofs" / self.module / self.name
        texts = {path.name: path.read_text() for path in sorted(folder.glob("*.antt"))}
        return {file: "\n\n".join(filter(self.stays, text.split("\n\n"))) for file, text in texts.items()}

    def stays(self, paragraph: str) -> bool:
        """Whether a paragraph of answers is none for a clause that was dropped."""
        answers = re.search(r"(?m)^pub returns-clause-(\w+) :", paragraph)
        return not answers or answers[1] not in self.dropped

    def full_text(self) -> str:
        """Its text behind those of the rows that it calls."""
        return "\n".join([*(row.text for row in self.called), self.text])

    def whole(self, root: Path) -> str:
        answers = (text for row in (*self.called, self) for text in row.answers(root).values())
        return "".join([needed_head(self), self.full_text(), *answers])


@dataclass(eq=False)
class Plant:
    """A change, the rows that reach it, those near it first, and what came of those that were tried."""

    change: Change
    rows: list[Row]
    said: dict[str, str] = field(default_factory=dict)
    clause: dict[str, str] = field(default_factory=dict)

    def verdict(self) -> str:
        """What the rows that were tried come to. A check that broke off says nothing of them."""
        kinds = set(self.said.values())
        if "refused" in kinds:
            return "refused"
        if CHANGE in self.said:
            return "unread"
        if len(self.said) < len(self.rows):
            return "open"
        for kind in ("answer", "unread"):
            if kind in kinds:
                return kind
        return "passes" if self.rows else "no-row"

    def refusing(self) -> str:
        """The first row that decided, and its first clause that is false."""
        row = next((row for row, kind in self.said.items() if kind == self.verdict()), "")
        return f"{row} {self.clause.get(row, '')}".strip()

    def next_rows(self, most: int) -> list[Row]:
        return [row for row in self.rows if label(row) not in self.said][: most if self.verdict() == "open" else 0]


def called_by(name: str, calls: dict[str, set[str]]) -> set[str]:
    """What a row calls, and what these call."""
    found = set(calls[name])
    waiting = sorted(found)
    for other in waiting:
        more = calls.get(other, set()) - found
        found |= more
        waiting += sorted(more)
    return found


def label(row: Row) -> str:
    return f"{row.crate}::{row.module}::{row.name}"


def rows_of(tree: Tree) -> Iterator[Row]:
    """The rows of a repository: functions of crates of rows, of `worked` modules, and of that name, that call at most
    other rows of their file."""
    for crate in tree.below:
        for path in sorted((tree.root / "crates" / crate / "src").glob("*.rt")):
            text = path.read_text()
            first = re.search(r"(?m)^(///|#\[|pub fn)", text)
            head = text[: first.start()] if first else ""
            rows = {found[2]: Row(crate, path.stem, found[2], found[1], head) for found in ROW.finditer(text)}
            calls = {found[2]: set(re.findall(r"\w+", found[3])) for found in ROW.finditer(text)}
            for name, row in rows.items():
                below = called_by(name, calls)
                if ("worked" in path.stem + name or crate.endswith("_rows")) and below <= rows.keys() - {name}:
                    yield replace(row, called=tuple(rows[other] for other in rows if other in below))


def nearest(tree: Tree, rows: list[Row], name: Name) -> list[tuple[int, Row]]:
    """The rows that reach the definition, with how far above it they begin: those first that are near, and for which
    few modules have to be copied."""
    far = distances({name}, tree.citing)
    changed: Module = (name[0], "specs", name[1])
    found = []
    for row in rows:
        steps = [far[one] for one in row.uses() & far.keys()]
        if steps:
            copies = sum(changed in tree.below_module(one) for one in row.modules(tree))
            found.append((min(steps) + copies, len(row.text), label(row), min(steps), row))
    return [entry[-2:] for entry in sorted(found, key=lambda entry: entry[:3])]


def rows_for(tree: Tree, near: list[tuple[int, Row]], change: Change, most: int) -> list[Row]:
    """So many of these rows, those that cite the changed definition itself with the clauses that matter."""
    rows = (row if far else narrowed(row, change.sense, tree.root, change.name) for far, row in near[: 3 * most])
    return [row for row in rows if row][:most]


def narrowed(row: Row, sense: int, root: Path, name: Name) -> Row | None:
    """The row with those of its clauses alone that a change in this sense may break, where each has a proof of its own.

    A proof that something holds doesn't fit any more where a field of it is trivial: that is no refusal. A clause in
    which something follows from what is changed breaks as one that denies it does.
    """
    answers = "".join(row.answers(root).values())
    first, *clauses = re.split(r"(?m)^(?=    ensures |\{)", row.text)
    labels = [re.match(r"    ensures (\w+) \{", clause) for clause in clauses[:-1]]
    if not sense or not answers or "pub returns :" in answers or not all(labels):
        return row
    words = [re.escape(word) for word, cited in imports(row.head, "ghost use").items() if cited == name]
    premise = re.compile(rf"(?<![\w'-])(?:{'|'.join(words)})(?![\w'])[^→]*→") if words else DENIES
    kept = [clause for clause in clauses[:-1] if bool(DENIES.search(clause) or premise.search(clause)) == (sense > 0)]
    dropped = frozenset(label[1] for label, clause in zip(labels, clauses) if label and clause not in kept)
    text = "".join([first, *kept, "    ensures nothing { Unit {0} }\n" if dropped else "", clauses[-1]])
    return replace(row, text=text, dropped=dropped) if kept else None


class Copy:
    """A crate of rows over changed definitions, beside copies of the crates on which it stands."""

    def __init__(self, tree: Tree, folder: Path) -> None:
        self.tree, self.folder = tree, folder / "crates" / CRATE
        self.mods: dict[str, list[str]] = {"specs": [], "proofs": []}
        self.src: list[str] = []
        self.at: dict[str, tuple[Plant, Row]] = {}
        self.copies: dict[str, tuple[Plant, Module]] = {}
        self.needed: set[str] = set()
        shutil.rmtree(self.folder, ignore_errors=True)
        for part in ("src", "specs", "proofs"):
            (self.folder / part).mkdir(parents=True)

    def put(self, path: str, text: str) -> None:
        place = self.folder / path
        place.parent.mkdir(parents=True, exist_ok=True)
        place.write_text(text)

    def plant(self, number: int, plant: Plant, rows: list[Row]) -> None:
        """Puts rows over a change into the crate, with copies of what stands between the definition and them."""
        crate, module, _ = plant.change.name
        changed: Module = (crate, "specs", module)
        reached = {module for row in rows for module in row.modules(self.tree)}
        copied = {one for one in reached if changed in self.tree.below_module(one)} | {changed}
        copied |= {one for one in reached if not self.tree.is_handed_on(one)}
        self.needed |= {one[0] for one in reached | copied} | {row.crate for row in rows}

        def place_of(found: re.Match[str]) -> str:
            there = f"Rattle.{CRATE}.{found[2]}.P{number}{camel(found[1])}{found[3]}"
            return there if found.groups() in copied else found[0]

        def moved(text: str) -> str:
            return MODULE.sub(place_of, text)

        for one in sorted(copied):
            named = f"P{number}{camel(one[0])}{one[2]}"
            self.copies[f"{one[1]}/{named}.antt"] = (plant, one)
            self.mods[one[1]].append(named)
            text = changed_module(self.tree, plant.change) if one == changed else self.tree.texts[one]
            self.put(f"{one[1]}/{named}.antt", moved(text))
        for place, row in enumerate(rows):
            name = f"p{number}r{place}"
            self.src.append(name)
            self.at[f"{CRATE}::{name}::{row.name}"] = (plant, row)
            self.put(f"src/{name}.rt", f"//! Rows.\n\n{moved(needed_head(row))}\n\n{row.full_text()}")
            for met in (*row.called, row):
                for file, answers in met.answers(self.tree.root).items():
                    own = answers.replace(f"Rattle.{row.crate}.proofs.{row.module}.", f"Rattle.{CRATE}.proofs.{name}.")
                    self.put(f"proofs/{name}/{met.name}/{file}", moved(own))

    def finish(self) -> None:
        """Writes what names the modules, and copies the crates below with what is proved of them."""
        self.put("specs/Lib.antt", "".join(f"pub mod {name}\n" for name in sorted(self.mods["specs"])))
        self.put("proofs/Lib.antt", "".join(f"mod {name}\n" for name in sorted(self.mods["proofs"])))
        mods = "".join(f"/// Rows.\npub mod {name};\n" for name in self.src)
        self.put("src/lib.rt", f"//! Rows over changed definitions.\n#![tactic(auto)]\n\n{mods}")
        crates = {crate for crate in self.needed if not crate.endswith("_rows")}
        copy_crates(self.tree, self.folder.parent.parent, crates, CRATE)

    def check(self, command: list[str], seconds: float) -> str:
        """One check of the crate, past what isn't proved. Where it came to its end, the plants have what it says."""
        status, said = run([*command, "check", "--allow-holes"], self.folder, seconds)
        errors = ERROR.findall(said)
        for path, why in errors:
            if path in self.copies and UNREAD.search(why):
                self.unread(*self.copies[path])
        if status in (0, 1) and HOLES.search(said):
            self.read(said, errors)
        return said

    def unread(self, plant: Plant, module: Module) -> None:
        """The prover can't read a copy: of the changed module itself, or of one that some rows of the change need."""
        if module == (plant.change.name[0], "specs", plant.change.name[1]):
            plant.said[CHANGE] = "unread"
        for other, row in self.at.values():
            if other is plant and module in row.modules(self.tree):
                plant.said[label(row)] = "unread"

    def read(self, said: str, errors: list[tuple[str, str]]) -> None:
        """What the prover said of each row. One is refused where values are known at which a clause of it is false."""
        unread = {f"`Rattle.{CRATE}.{path[:-5].replace('/', '.')}." for path, why in errors if UNREAD.search(why)}
        false: dict[str, str] = {}
        for module, clause in FALSE.findall(said):
            false.setdefault(f"{CRATE}::{module}", clause)
        for function, text in SAID.findall(said):
            if function in self.at and (HOLDS.fullmatch(text) or REFUSED.fullmatch(text)):
                plant, row = self.at[function]
                module = function.rpartition("::")[0]
                if plant.said.get(label(row)) == "unread":
                    continue
                if HOLDS.fullmatch(text):
                    kind = "holds"
                elif any(name in text for name in unread):
                    kind = "unread"
                else:
                    kind = "refused" if module in false else "answer"
                plant.said[label(row)] = kind
                plant.clause[label(row)] = false.get(module, "")


def copy_crates(tree: Tree, folder: Path, crates: set[str], top: str = "") -> None:
    """Copies these crates and those below, with what is proved of them, and lists them, and one on top."""
    waiting = sorted(crates)
    for crate in waiting:
        waiting += [below for below in tree.below.get(crate, []) if below not in waiting]
    for crate in waiting:
        there = folder / "crates" / crate
        if (tree.root / "crates" / crate).is_dir() and not there.is_dir():
            shutil.copytree(tree.root / "crates" / crate, there, symlinks=True)
    lines = [f"{crate}: {' '.join(tree.below[crate])}" for crate in waiting if crate in tree.below]
    lines += [f"{top}: {' '.join(waiting)}"] if top else []
    (folder / "crates.txt").write_text("\n".join([*lines, ""]))
    if (tree.root / "HANDLES").is_file():
        shutil.copy(tree.root / "HANDLES", folder)


def check_crate(tree: Tree, folder: Path, change: Change, command: list[str], seconds: float) -> tuple[str, str]:
    """Checks the change's own crate with it: whether it is still proved, and the first function that isn't."""
    crate, module, _ = change.name
    copy_crates(tree, folder, {crate})
    place = folder / "crates" / crate / "specs" / f"{module}.antt"
    place.write_text(changed_module(tree, change))
    status, said = run([*command, "check"], place.parent.parent, seconds)
    place.write_text(tree.texts[crate, "specs", module])
    if (status, LOGIC.findall(said)[-1:]) not in ((0, ["proved"]), (1, ["not-proved"])):
        return "open", ""
    if any(path == f"specs/{module}.antt" and UNREAD.search(why) for path, why in ERROR.findall(said)):
        return "unread", ""
    refused = next((name for name, text in SAID.findall(said) if REFUSED.fullmatch(text)), "")
    return ("passes", "") if status == 0 else ("proof", refused)


def changed_module(tree: Tree, change: Change) -> str:
    """The text of the definition's module with the change, and with the import that it wants."""
    crate, module, _ = change.name
    text = tree.texts[crate, "specs", module].replace(tree.blocks[change.name], change.block, 1)
    wanted = change.wanted
    if wanted and not re.search(rf"(?m)^use [^\n]*[{{ ]{re.escape(wanted)}[,}}]", text):
        text = re.sub(r"(?m)^use ", f"use Rattle.std.specs.Prelude.{{{wanted}}}\nuse ", text, count=1)
    return text


def run(words: list[str], folder: Path, seconds: float) -> tuple[int, str]:
    """Runs a command, and ends it with all that it began where the time is up: its status, and what it said."""
    pipe, out = subprocess.PIPE, subprocess.STDOUT
    with subprocess.Popen(words, cwd=folder, stdout=pipe, stderr=out, text=True, start_new_session=True) as process:
        try:
            said, _ = process.communicate(timeout=max(seconds, 1))
        except subprocess.TimeoutExpired:
            with suppress(ProcessLookupError):
                os.killpg(process.pid, signal.SIGKILL)
            said, _ = process.communicate()
        return process.returncode, said


def needed_head(row: Row) -> str:
    """The imports of the row's file that the row's own text needs."""
    kept = []
    for keyword, path in USE.findall(row.head):
        group = re.fullmatch(r"(.*?)(\.|::)\{(.*)\}", path)
        if group:
            names = [name.strip() for name in group[3].split(",")]
            names = [name for name in names if stands(name.split(" as ")[-1], row.full_text())]
            if names:
                kept.append(f"{keyword} {group[1]}{group[2]}{{{', '.join(names)}}};")
        elif stands(re.split(r" as |\.|::", path)[-1], row.full_text()):
            kept.append(f"{keyword} {path};")
    return "\n".join(kept).replace("use crate::", f"use {row.crate}::")


def camel(crate: str) -> str:
    return "".join(word.capitalize() for word in crate.split("_")[1:]) or crate.capitalize()


def stands(name: str, text: str) -> bool:
    """Whether a name, or each sign of an operator, stands in the text."""
    if "◌" in name:
        return all(sign in text for sign in re.split(r"◌|if|then|else", name) if sign)
    return re.search(rf"(?<![\w'-]){re.escape(name)}(?![\w'])", text) is not None
