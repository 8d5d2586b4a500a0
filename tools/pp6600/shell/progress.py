"""How far a search is, shown to who waits for it."""

import sys
import time
from typing import Iterable, Iterator

PATIENCE = 1  # seconds without progress on the screen
BETWEEN = 0.2  # seconds between two lines


class Progress:
    """Shows at a terminal on standard error which turn a search has come to, if it takes long. It may try turns after the end of
    the run."""

    def __init__(self, turns: int) -> None:
        """The run has so many turns."""
        self.turns, self.due, self.is_shown = turns, time.monotonic() + PATIENCE, False

    def show(self, turn: int) -> None:
        if time.monotonic() > self.due and sys.stderr is not None and sys.stderr.isatty():
            self.due, self.is_shown = time.monotonic() + BETWEEN, True
            place = f"of {self.turns:o}" if turn <= self.turns else f"which is {turn - self.turns:o} after the end"
            sys.stderr.write(f"\rat turn {turn:o} {place}\x1b[K")
            sys.stderr.flush()

    def passed(self, lines: Iterable[str]) -> Iterator[str]:
        """Yields lines that a search finds, each when the screen is clear for it."""
        for line in lines:
            self.end()
            yield line
        self.end()

    def end(self) -> None:
        """Clears the line, before something else is written."""
        if self.is_shown:
            self.is_shown = False
            sys.stderr.write("\r\x1b[K")
            sys.stderr.flush()
