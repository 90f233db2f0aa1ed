"""The line on standard error that tells what is being done, and how long already."""

from __future__ import annotations

import sys
import threading
import time
from collections.abc import Callable
from types import TracebackType


class Phase:
    """Within it, a line tells after a second, and then now and again, what is done and for how long.

    On a terminal the line is written over each second; elsewhere there are ever fewer lines. No note: no line. A note
    may be a function, which is asked for each line.
    """

    def __init__(self, note: str | Callable[[], str]) -> None:
        self.note = note
        self.over = threading.Event()
        self.teller: threading.Thread | None = None

    def __enter__(self) -> Phase:
        if self.note:
            self.teller = threading.Thread(target=self.tell, daemon=True)
            self.teller.start()
        return self

    def __exit__(self, kind: type[BaseException] | None, fault: BaseException | None, at: TracebackType | None) -> None:
        self.over.set()
        if self.teller is not None:
            self.teller.join()

    def tell(self) -> None:
        """Writes the lines until it is over, or until nobody reads them."""
        out = sys.stderr
        is_terminal, began, due = out.isatty(), time.monotonic(), 1.0
        start, end = ("\r", "") if is_terminal else ("", "\n")
        try:
            while not self.over.wait(max(0.0, began + due - time.monotonic())):
                note = self.note() if callable(self.note) else self.note
                print(f"{start}gulfezo: {note}, {due:.0f} s", end=end, file=out, flush=True)
                due = due + 1 if is_terminal else due * 2
            if is_terminal and due > 1:
                print(file=out, flush=True)
        except (OSError, ValueError):
            pass
