"""Definitions of `specs/`, which of them contracts cite, and changes of their meaning."""

from __future__ import annotations

import re
from collections.abc import Iterator
from dataclasses import dataclass, field
from pathlib import Path

# A module is told by its crate, `specs` or `proofs`, and its name; a definition by its crate, its module and its name.
Module = tuple[str, str, str]
Name = tuple[str, str, str]

MODULE = re.compile(r"Rattle\.(\w+)\.(specs|proofs)\.([A-Z]\w*)")
WORD = re.compile(r"[A-Za-z_][\w'-]*|◌[^\s,}]*")
BLOCK = re.compile(r"(?m)^(?=(?:pub |abbrev |unfoldable |record |data )[^\n]*)")
NAMED = re.compile(r"(?:abbrev |unfoldable )?(?:pub )?(?:abbrev |record |data )?(?:pub )?([^\s:({]+)")
RECORD = re.compile(r"(?:pub )?record ")
FIELD = re.compile(r"(?m)^  pub (\w+) : (.*(?:\n {4,}.*)*)$")
PREMISE = re.compile(r"(?:\([^()]*\)\s*)+→\s*|[^→(λ]+→\s*")
# The type of a field that is a value, and no statement.
PLAIN = re.compile(r"ℕ|ℤ|Bool|(?:List|Option) [^→≡]*|[A-Z]\w*|[A-Z]\w*(?: [A-Z]\w*)+")

# What an item of a type is changed to, and in which sense: one that says nothing, and one that nothing meets.
OTHERS = {"Type 0": {"Unit {0}": 1, "⊥": -1}, "Bool": {"true": 1, "false": -1}, "ℕ": {"0": 0}}
# Comparisons that are exchanged.
COMPARED = [(" < ", " ≤ "), ("nat_lt ", "nat_le "), ("int_lt ", "int_le ")]


@dataclass(frozen=True)
class Change:
    """One change of a definition: what it is, the text in place of the definition's own, what that wants to have
    imported, how little the change is worth, and its sense: 1 where the definition says less, -1 where it says more."""

    name: Name
    what: str
    block: str
    wanted: str = ""
    rank: int = 0
    sense: int = 0


@dataclass(eq=False)
class Tree:
    """The modules of a repository, their definitions with what these cite, and on what each crate stands."""

    root: Path
    texts: dict[Module, str] = field(default_factory=dict)
    blocks: dict[Name, str] = field(default_factory=dict)
    cites: dict[Name, set[Name]] = field(default_factory=dict)
    citing: dict[Name, set[Name]] = field(default_factory=dict)
    below: dict[str, list[str]] = field(default_factory=dict)
    resting: dict[Module, frozenset[Module]] = field(default_factory=dict)

    def __post_init__(self) -> None:
        for line in (self.root / "crates.txt").read_text().splitlines():
            if line.strip() and not line.startswith("#"):
                name, _, rest = line.partition(":")
                self.below[name.split()[0]] = rest.split()
        for crate in self.below:
            for part in ("specs", "proofs"):
                for path in sorted((self.root / "crates" / crate / part).glob("*.antt")):
                    if path.stem != "Lib":
                        self.texts[crate, part, path.stem] = path.read_text()
        for (crate, part, module), text in self.texts.items():
            if part == "specs":
                self.blocks |= {(crate, module, name): block for name, block in blocks_of(text)}
        for own in self.blocks:
            self.cites[own] = self.words(own) - {own}
            for cited in self.cites[own]:
                self.citing.setdefault(cited, set()).add(own)

    def words(self, own: Name) -> set[Name]:
        """The definitions that a definition cites."""
        crate, module, _ = own
        imported = imports(self.texts[crate, "specs", module], "use")
        found = set(WORD.findall(without_remarks(self.blocks[own])))
        near = {(crate, module, word) for word in found}
        return (near | {imported[word] for word in found & imported.keys()}) & self.blocks.keys()

    def cited(self, crate: str) -> dict[Name, int]:
        """The crate's own definitions that its public contracts cite, and those below them, with how far below."""
        found: set[Name] = set()
        source = self.root / "crates" / crate / "src"
        top = next(source / name for name in ("lib.rt", "main.rt") if (source / name).is_file())
        for path in sorted(source.glob("*.rt")):
            if "worked" not in path.stem:
                text = path.read_text()
                imported = imports(text, r"\s*ghost use")
                for contract in contracts(text, handed_out(top.read_text(), path)):
                    found |= {imported[word] for word in set(WORD.findall(contract)) & imported.keys()}
        far = distances(found & self.blocks.keys(), self.cites)
        return {name: steps for name, steps in far.items() if name[0] == crate}

    def modules(self, text: str) -> set[Module]:
        """The modules that a text rests on."""
        named = {module for module in MODULE.findall(text) if module in self.texts}
        return named.union(*(self.below_module(module) for module in named))

    def below_module(self, module: Module) -> frozenset[Module]:
        """The modules that a module rests on, and itself."""
        if module not in self.resting:
            self.resting[module] = frozenset({module})  # modules form no circle
            self.resting[module] = frozenset({module} | self.modules(self.texts[module]))
        return self.resting[module]

    def is_handed_on(self, module: Module) -> bool:
        """Whether other crates can name the module."""
        crate, part, name = module
        lib = self.root / "crates" / crate / part / "Lib.antt"
        return not crate.endswith("_rows") and f"pub mod {name}\n" in lib.read_text()


def distances(names: set[Name], steps: dict[Name, set[Name]]) -> dict[Name, int]:
    """These definitions and all that the steps lead to, with how many steps."""
    found, waiting = dict.fromkeys(names, 0), sorted(names)
    for one in waiting:
        for other in sorted(steps.get(one, ())):
            if other not in found:
                found[other] = found[one] + 1
                waiting.append(other)
    return found


def blocks_of(text: str) -> Iterator[tuple[str, str]]:
    """The definitions of a module, each with its text from its first line to the next one's."""
    for block in BLOCK.split(text)[1:]:
        named = NAMED.match(block)
        if named and not block.startswith("pub use"):
            yield named[1], block


def without_remarks(text: str) -> str:
    return re.sub(r"(?m)^\s*--.*$", "", text)


def imports(text: str, keyword: str) -> dict[str, Name]:
    """The names of `specs` that a text imports, by the word that stands for each in it."""
    found = {}
    line = rf"(?m)^(?:pub )?{keyword} Rattle\.(\w+)\.specs\.([A-Z]\w*)\.\{{([^}}]*)\}}"
    for crate, module, names in re.findall(line, text):
        for name in names.split(","):
            own, _, other = name.strip().partition(" as ")
            found[other or own] = (crate, module, own)
    return found


def handed_out(top: str, path: Path) -> set[str]:
    """What a crate hands out of one of its files, by the text of its root file: names, or `*` for all."""
    if path.stem in ("lib", "main") or f"\npub mod {path.stem};" in top:
        return {"*"}
    found = re.findall(rf"(?m)^pub use {path.stem}::(?:\{{([^}}]*)\}}|(\w+));", top)
    return {name.strip() for group, one in found for name in (group or one).split(",")}


def contracts(text: str, names: set[str]) -> Iterator[str]:
    """The contracts of what a file hands out: functions, traits, of types their methods and what contracts see."""

    def is_named(name: str) -> bool:
        return bool({name, "*"} & names)

    for item in re.finditer(r"(?ms)^pub (?:(?:const )?fn (\w+).*?^\{|trait (\w+).*?^\})", text):
        if is_named(item[1] or item[2]):
            yield item[0]
    for item in re.finditer(r"(?ms)^impl\b([^\n]*)\{\n(.*?)^\}", text):
        kind, _, owner = without_parameters(item[1]).strip().rpartition(" for ")
        if is_named(owner) and kind == "Model":
            yield from re.findall(r"(?ms)^    ghost view = .*?;$", item[2])
        elif is_named(owner):
            yield from [item[2]] if kind else re.findall(r"(?ms)^    pub (?:const )?fn .*?^    \{", item[2])


def without_parameters(head: str) -> str:
    """The head of an impl without what stands in angle brackets."""
    shorter = re.sub(r"<[^<>]*>", "", head.replace("->", ""))
    return head if shorter == head else without_parameters(shorter)


def changes(name: Name, block: str) -> list[Change]:
    """Changes of a definition's meaning, one at a time, the grossest first."""
    found = _fields(name, block) if RECORD.match(block) else _cases(name, block)
    own = meaning(block)
    every = [*found, *_comparisons(name, block), *_exchanges(name, block)]
    return sorted((one for one in every if meaning(one.block) != own), key=lambda one: one.rank)


def meaning(block: str) -> str:
    """A definition without its remarks. That nothing is said can be written in two ways."""
    return without_remarks(block).replace("Unit {0}", "Unit")


def _fields(name: Name, block: str) -> Iterator[Change]:
    """A field becomes trivial, or its first premise becomes false."""
    if not re.search(r":\s*Type 0 where", block):
        return
    for found in FIELD.finditer(block):
        start, end = found.span(2)
        if PLAIN.fullmatch(found[2].strip()):
            continue
        yield Change(name, f"{found[1]} is trivial", block[:start] + "Unit {0}" + block[end:], sense=1)
        if PREMISE.match(found[2]):
            text = block[:start] + "⊥ → " + found[2] + block[end:]
            yield Change(name, f"{found[1]} has a false premise", text, rank=3, sense=1)


def _cases(name: Name, block: str) -> Iterator[Change]:
    """A case says nothing, or can't be met."""
    signature = re.search(r"(?s)^[^\n]*? : (.*?)\n(?=\S)", block)
    if not signature:
        return
    last = signature[1].strip().split("→")[-1].strip()
    if signature[1].strip() == "Type 0":  # another name of a type, and no statement
        return
    for found in re.finditer(rf"(?m)^{re.escape(name[2])}\b([^=\n]*)=(?!=)[ \n] *(\S.*(?:\n .*)*)$", block):
        start, end = found.span(2)
        for other, sense in OTHERS.get(last, {"[]": 0} if last.startswith("List ") else {}).items():
            wanted = other if other in ("true", "false", "[]") else ""
            what = f"{name[2]}{found[1].rstrip()} is {other}"
            yield Change(name, what, block[:start] + other + block[end:], wanted, sense=sense)


def _comparisons(name: Name, block: str) -> Iterator[Change]:
    """`<` for `≤`, and the other way about."""
    for old, new in COMPARED + [(new, old) for old, new in COMPARED]:
        for found in re.finditer(re.escape(old), block):
            start, end = found.span()
            wanted = f"◌{new.strip()}◌" if new.startswith(" ") else new.strip()
            what = f"{new.strip()} for {old.strip()} at {start}"
            yield Change(name, what, block[:start] + new + block[end:], wanted, 1)


def _exchanges(name: Name, block: str) -> Iterator[Change]:
    """Two arguments of one type that stand beside each other are exchanged."""
    types = _types(name, block)
    body = block.index(" where") if " where" in block else block.find("\n")
    for found in re.finditer(r"(?<=[\s(])([a-z]\w*) (?=([a-z]\w*)(?=[\s)]))", block[body:]):
        one, other = found[1], found[2]
        if one != other and one in types and types.get(other) == types[one]:
            start, end = body + found.start(), body + found.end(2)
            if RECORD.match(block) or "=" in block[block.rfind("\n", 0, start) : start]:
                what = f"{other} {one} for {one} {other} at {start}"
                yield Change(name, what, f"{block[:start]}{other} {one}{block[end:]}", rank=2)


def _types(name: Name, block: str) -> dict[str, str]:
    """The types of the variables that a definition takes, as far as its first lines tell them."""
    found: dict[str, str] = {}
    if RECORD.match(block):
        for names, kind in re.findall(r"[({]([\w ]+) : ([^(){}]+|\([^()]*\))[)}]", block[: block.find(" where")]):
            found.update(dict.fromkeys(names.split(), kind.strip()))
        return found
    signature = re.search(r"(?s)^[^\n]*? : (.*?)\n(?=\S)", block)
    if signature and "(" not in signature[1]:
        kinds = [kind.strip() for kind in signature[1].split("→")]
        for clause in re.finditer(rf"(?m)^{re.escape(name[2])} ([\w ]+) =", block):
            found.update(zip(clause[1].split(), kinds, strict=False))
    return found
