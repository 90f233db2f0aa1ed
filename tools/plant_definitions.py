"""Changes definitions that public contracts cite, one at a time, and lists the changes that nothing refuses.

tools/plant-definitions CRATE.. --results FILE [--minutes N] [--only WORD] [--rows N] [--batch N] [--proofs] [--list]

For each definition of a crate that a public contract cites, or that what it cites rests on: a field becomes trivial, or
its first premise false; a case says nothing, or can't be met; `<` stands for `≤` and the other way about; two arguments
of one type are exchanged. The grossest changes come first, and those of what contracts cite themselves.

The rows that reach a definition, from `worked` modules and crates of rows, are copied over the changed one, many
changes in one check, first a row of each, then two at a time: a change that a row refuses needs no more. With --proofs,
each change that no row refuses is put into a copy of its own crate, and the crate is checked.

FILE has a line for each change that is settled, and a later run goes on from there:
  refused   the prover knows values at which a clause of the row that is named is false
  answer    the row that is named isn't proved any more: since it doesn't hold, or since its proof takes the way that is
            gone, so read it (of rows that cite the definition and have a proof of their own only the clauses are tried
            that such a change may break)
  proof     no row refuses it, but the crate itself isn't proved any more (--proofs)
  passes    all that was tried holds: it wants a row, or means the same
  no-row    no row reaches the definition
  unread    the change can't be read, or a proof names what is gone: that shows nothing
What the prover gave no verdict on, since it was ended or crashed, stays open and has no line.

The crates have to be proved: the libraries below the rows are taken as they stand in `out`, into a copy. The status is
0 where each change is settled and none passes.
"""

from __future__ import annotations

import argparse
import hashlib
import shlex
import sys
import tempfile
import time
from collections import Counter
from pathlib import Path

from definitions import Tree, changes
from planting import Copy, Plant, check_crate, label, nearest, rows_for, rows_of

ROOT = Path(__file__).resolve().parent.parent
SETTLED = ("refused", "answer", "proof", "passes", "no-row", "unread")


def arguments() -> argparse.Namespace:
    parser = argparse.ArgumentParser(description=__doc__, formatter_class=argparse.RawDescriptionHelpFormatter)
    parser.add_argument("crates", nargs="+", metavar="CRATE", help="the crates whose definitions are changed")
    parser.add_argument("--results", type=Path, metavar="FILE", help="where each change that is settled has its line")
    parser.add_argument("--minutes", type=float, default=60.0, metavar="N", help="no check goes on for longer")
    parser.add_argument("--only", default="", metavar="WORD", help="definitions whose module and name contain the word")
    parser.add_argument("--rows", type=int, default=6, metavar="N", help="the most rows that are tried over one change")
    parser.add_argument("--batch", type=int, default=40, metavar="N", help="how many changes go into one check")
    parser.add_argument("--proofs", action="store_true", help="check the crates with the changes that no row refuses")
    parser.add_argument("--list", action="store_true", help="print the changes and their rows, and check nothing")
    parser.add_argument("--rt", default="rt", metavar="COMMAND", help="what runs the prover")
    parser.add_argument("--root", type=Path, default=ROOT, metavar="FOLDER", help="the repository, if not this one")
    return parser.parse_args()


def plants_of(tree: Tree, crates: list[str], only: str, most: int) -> list[Plant]:
    """The changes of the crates' definitions, those of the most worth first, each with the rows that reach it."""
    every = list(rows_of(tree))
    found = []
    for crate in crates:
        for name, far in tree.cited(crate).items():
            if only in ".".join(name[1:]):
                near = nearest(tree, every, name)
                for change in changes(name, tree.blocks[name]):
                    found.append((change.rank, far, name, Plant(change, rows_for(tree, near, change, most))))
    return [entry[-1] for entry in sorted(found, key=lambda entry: entry[:-1])]


class Results:
    """The lines of the changes that are settled, and how long there is time for more."""

    def __init__(self, tree: Tree, path: Path | None, minutes: float) -> None:
        self.tree, self.path, self.end = tree, path, time.monotonic() + 60 * minutes
        self.kept: dict[str, str] = {}
        self.keys: dict[Plant, str] = {}
        if path and path.is_file():
            for line in path.read_text().splitlines():
                verdict, _, _, _, key = line.split("\t")
                self.kept[key] = verdict

    def left(self) -> float:
        return self.end - time.monotonic()

    def key(self, plant: Plant) -> str:
        """It tells the change, its rows and what these rest on by their texts: what was altered is tried again."""
        if plant not in self.keys:
            rows = [row.whole(self.tree.root) for row in plant.rows]
            modules = sorted(self.tree.modules("".join(rows)) | {(plant.change.name[0], "specs", plant.change.name[1])})
            texts = [plant.change.what, plant.change.block, *rows, *(self.tree.texts[module] for module in modules)]
            self.keys[plant] = hashlib.sha256("\0".join(texts).encode()).hexdigest()[:16]
        return self.keys[plant]

    def verdict(self, plant: Plant) -> str:
        return self.kept.get(self.key(plant), "open")

    def settle(self, plant: Plant, verdict: str, by: str = "") -> None:
        if verdict in SETTLED and self.verdict(plant) != verdict:
            self.kept[self.key(plant)] = verdict
            line = "\t".join([verdict, ".".join(plant.change.name), plant.change.what, by, self.key(plant)])
            print(line, flush=True)
            if self.path:
                with self.path.open("a") as file:
                    file.write(line + "\n")


def try_rows(tree: Tree, folder: Path, plants: list[Plant], results: Results, options: argparse.Namespace) -> None:
    """Tries rows over the changes. Where a check gives no verdict, each half is tried; one change is left open."""
    waiting, later = batches(plants, options.batch), list[Plant]()
    while waiting and results.left() > 0:
        some = waiting.pop(0)
        copy = Copy(tree, folder)
        for number, plant in enumerate(some):
            copy.plant(number, plant, plant.next_rows(2 if plant.said else 1))
        copy.finish()
        before = sum(len(plant.said) for plant in some)
        copy.check(shlex.split(options.rt), results.left())
        for plant in some:
            results.settle(plant, plant.verdict(), plant.refusing())
        if sum(len(plant.said) for plant in some) > before:
            later += some
        elif len(some) > 1:
            waiting[:0] = [some[: len(some) // 2], some[len(some) // 2 :]]
        if not waiting:
            waiting, later = batches(later, options.batch), []


def batches(plants: list[Plant], most: int) -> list[list[Plant]]:
    """So many of the changes at a time for which there are rows to be tried."""
    left = [plant for plant in plants if plant.next_rows(1)]
    return [left[at : at + most] for at in range(0, len(left), most)]


def try_crates(tree: Tree, folder: Path, plants: list[Plant], results: Results, options: argparse.Namespace) -> None:
    """Checks the crate of each change that no row refuses."""
    for plant in plants:
        if results.verdict(plant) in ("passes", "no-row") and results.left() > 0:
            verdict, by = check_crate(tree, folder, plant.change, shlex.split(options.rt), results.left())
            results.settle(plant, verdict, by)


def main() -> int:
    options = arguments()
    tree = Tree(options.root)
    plants = plants_of(tree, options.crates, options.only, options.rows)
    if options.list:
        for plant in plants:
            print(".".join(plant.change.name), plant.change.what, *map(label, plant.rows), sep="\t")
        return 0
    results = Results(tree, options.results, options.minutes)
    for plant in plants:
        if not plant.rows and results.verdict(plant) == "open":
            results.settle(plant, "no-row")
    with tempfile.TemporaryDirectory() as room:
        folder = Path(room)
        try_rows(tree, folder, [plant for plant in plants if results.verdict(plant) == "open"], results, options)
        if options.proofs:
            try_crates(tree, folder, plants, results, options)
    count = Counter(results.verdict(plant) for plant in plants)
    print(", ".join(f"{number} {kind}" for kind, number in sorted(count.items())), file=sys.stderr)
    return int(any(kind in count for kind in ("passes", "no-row", "open")))


if __name__ == "__main__":
    sys.exit(main())
