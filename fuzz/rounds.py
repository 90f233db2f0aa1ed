"""Rounds of runs, one for each seed: the kinds of what they came to, and how many of them are wrong."""

from __future__ import annotations

import argparse
import collections
import sys
import tempfile

import flags
import kinds
import reference
from runs import MOST_STOPPED, Program, Stopped, Wrong
from shrinking import shrunk

MOST_WRONG = 5  # rounds that are told; a script that has met so many goes no further
# What a text brings about that isn't of the form that is due.
UNREAD = (reference.Rejected, IndexError, ValueError)


class Rounds:
    """The rounds over one program. A script says by `compare` what a round is, and what is wrong with it."""

    def __init__(self, program: Program, args: argparse.Namespace) -> None:
        self.program, self.args = program, args
        self.found: collections.Counter[str] = collections.Counter()
        self.tried = self.wrong = self.stopped = 0
        self.words: tuple[str, ...] = ()  # of the last run
        self.text = b""  # the input, which lies in the file `f`
        self.in_place: bytes | None = None  # an input that is taken in place of the drawn one
        self.seed = 0

    def compare(self, seed: int) -> str:
        """The kind of what the seed's runs came to. `Wrong`: one of them isn't right."""
        raise NotImplementedError

    def take(self, text: bytes) -> None:
        """The next runs are over this input."""
        self.text = text if self.in_place is None else self.in_place
        self.program.put("f", self.text)

    def run(self, *words: str | int) -> tuple[int, bytes]:
        """The status and the text of a run."""
        self.words = tuple(map(str, words))
        run = self.program.run(*self.words)
        if run.stderr:
            raise Wrong(f"it wrote to standard error: {run.stderr!r}")
        return run.returncode, run.stdout

    def judge(self, text: bytes, answer: bytes, *words: str | int, due: str = "") -> None:
        """The run of these words says of the answer (the file `a`) what the reference says of it over this input.

        Where a verdict is due, that is what both say, at each second seed of the answer's text in version 2 too.
        """
        self.judge_text(text, answer, *words, due=due)
        if due and self.seed % 2 == 0:
            _, two = reference.outcome("migrate", text, answer, 2)
            self.judge_text(text, two.encode(), *words, due=due)

    def judge_text(self, text: bytes, answer: bytes, *words: str | int, due: str) -> None:
        """One text of an answer is judged."""
        self.program.put("a", answer)
        status, verdict = reference.outcome("check", text, answer)
        if due and (status, verdict) != (0, due):
            raise Wrong(f"the reference says {verdict!r} of {answer!r}")
        found = self.run(*words)
        if found != (status, verdict.encode()):
            raise Wrong(f"it says {found} of {answer!r}, and not {verdict!r}")

    def round(self, seed: int) -> None:
        """The runs of one seed."""
        self.seed, self.text, self.words = seed, b"", ()
        self.tried += 1
        try:
            self.found[self.compare(seed)] += 1
        except Wrong as wrong:
            self.tell(wrong)
        except UNREAD as error:
            self.tell(Wrong(f"what it wrote can't be read: {error!r}"))

    def tell(self, wrong: Wrong) -> None:
        """Counts what is wrong and prints it, over a part of the drawn input that is wrong too."""
        self.wrong += 1
        self.stopped += isinstance(wrong, Stopped)
        print(f"seed {' '.join([str(self.seed), *self.words])}: {wrong}")
        print(f"  again: {flags.again(self.args, '--first', self.seed, '--rounds', 1)}")
        if not self.text:
            return
        print(f"  input {self.text!r}", flush=True)
        if not isinstance(wrong, Stopped):
            self.in_place = shrunk(self.text, self.is_wrong)
            if self.in_place != self.text and (less := self.wrong_over(self.in_place)) is not None:
                print(f"  and over the input {self.in_place!r}, {' '.join(self.words)}: {less}", flush=True)
            self.in_place = None

    def is_wrong(self, text: bytes) -> bool:
        """Whether the same seed's runs are wrong over another input."""
        return self.wrong_over(text) is not None

    def wrong_over(self, text: bytes) -> Wrong | None:
        """What is wrong with the same seed's runs over another input that can be read."""
        self.in_place = text
        try:
            reference.read(text)
            self.compare(self.seed)
        except Stopped:
            return None
        except Wrong as wrong:
            return wrong
        except (reference.Fault, *UNREAD):
            # (also where what was drawn for the whole input doesn't fit this part of it)
            return None
        return None


def play(doc: str | None, made: type[Rounds], drawn: str, rounds: int) -> None:
    """The rounds that the flags ask for, each over one of the things that seeds draw, and a line that counts them."""
    parser = flags.parser(doc, drawn, rounds)
    parser.add_argument("--list", action="store_true", help="count the kinds of answers")
    kinds.add_flag(parser)
    args = parser.parse_args()
    kinds.ask(args)
    with tempfile.TemporaryDirectory() as folder:
        played = made(Program(args.program, folder, args.limit), args)
        for seed in range(args.first, args.first + args.rounds):
            played.round(seed)
            if played.wrong == MOST_WRONG or played.stopped == MOST_STOPPED:
                print(f"so many are wrong that the other {args.rounds - played.tried} aren't tried")
                break
    if args.list:
        for kind, count in sorted(played.found.items()):
            print(f"{count:7} {kind}")
    print(played.program.count())
    print(f"{played.tried} {drawn}, {played.wrong} wrong")
    sys.exit(1 if played.wrong else 0)
