"""The script of a session with devices for the simulator alone."""

from __future__ import annotations

import bisect
import itertools
from typing import Iterator, List

from .tape import History, Position, Tape, with_notes


class PlainScript(History):
    """The lines that give a session again to the simulator alone: each reply is a SET H after a note that names its device. What
    the simulator would no longer keep is performed anew, and the script begins anew with it."""

    def __init__(self, room: int, tape: Tape) -> None:
        """The simulator keeps so many actions."""
        super().__init__(room, tape)
        self.stops: List[int] = []  # the positions after turns with a HIT, where a STEP of the script ends
        self.times_anew = 0
        self.written: List[str] = []
        self.end = Position(0)  # the position up to which lines are written

    @property
    def lines(self) -> List[str]:
        """The lines so far. Those of new actions are written when they are asked for."""
        if self.end < self.position:
            self.written += self.part(self.end, self.position)
            self.end = self.position
        return self.written

    def part(self, first: Position, last: Position) -> Iterator[str]:
        """Yields the lines for the actions between two positions."""
        inside = self.stops[bisect.bisect_right(self.stops, first):bisect.bisect_left(self.stops, last)]
        ends = [first, *map(Position, inside), last]
        return with_notes(itertools.chain.from_iterable(itertools.starmap(self.tape.lines, zip(ends, ends[1:]))))

    def cut(self, position: Position) -> None:
        """Forgets what is after a position."""
        super().cut(position)
        del self.stops[bisect.bisect_right(self.stops, position):]

    def go(self, position: Position) -> None:
        """Leads to a position."""
        if position < self.oldest:
            self.times_anew += 1
            self.written, self.end = [], Position(0)
            self.restarted()
        count = min(position, self.newest) - self.position
        if count:
            self.lines.append(f"{'BACK' if count < 0 else 'FORWARD'} {abs(count):o}")
            self.moved(count)
            self.end = self.position
        if position > self.position:
            self.performed(position - self.position)
