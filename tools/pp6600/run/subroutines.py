"""The calls of a processor that have not returned: a stack. A call is on it from its RJM until a jump by its entry word is
performed, which is the LJM in the two cells that end with the return word, wherever P is in between. A jump by the entry word of a
call takes those above it off too; one by that of no call does nothing."""

from __future__ import annotations

import bisect
from typing import Iterable, List, NamedTuple, Optional, Tuple

from ..engine import interface as flat
from ..engine.interface import INSIDE, MOST_ALTERNATIVES, Form
from .conditions import Alternative, is_written, joined
from .forms import CELLS
from .search import first_turn, holds
from .session import Session
from .tape import Position

LJM, RJM = "LJM", "RJM"
OFTEN = 0o10000  # turns after which the calls are put onto the tape


class Call(NamedTuple):
    """An RJM that was performed: the cell of the return word, the position after it, its address, and the return address that it
    stored."""

    entry: int
    position: Position
    address: int
    returns: int


class Return(NamedTuple):
    """What was performed in the place of the jump back of a call, by the address where it led."""

    call: Call
    address: int

    @property
    def is_wrong(self) -> bool:
        return self.address != self.call.returns


class Stack:
    """The calls of one processor, the innermost last, as a run goes on. It goes from one turn to the next in which P comes to a
    jump back or to the first cell of a subroutine."""

    def __init__(self, number: int, entries: Iterable[int]) -> None:
        """The entries are the cells of return words."""
        self.number, self.entries = number, frozenset(entries)
        self.calls: Tuple[Call, ...] = ()
        self.astray: Tuple[Call, ...] = ()  # those that another instruction than their jump back has led elsewhere
        ends = [range_ for entry in self.entries for range_ in around(entry)]
        self.comes = joined([is_written(flat.P + number), Form(INSIDE, flat.P + number, *one)]
                            for one in merged(ends, MOST_ALTERNATIVES))
        self.leaves = (is_written(flat.P + number),)

    def begin(self, run: Session) -> None:
        """Sees where P is, which a setting may have changed."""
        p, phase = (run.number_of(first + self.number) for first in (flat.P, flat.PHASE))
        self.is_at_jump = not phase and (p + 1) % CELLS in self.entries

    def next(self, run: Session, most: int) -> Optional[Return]:
        """Makes turns, at most so many, up to one in which a call may begin or end. Returns its end, or what led it astray."""
        was_at_jump = self.is_at_jump
        if not first_turn(run, self.leaves if was_at_jump else self.comes, most):
            return None
        here = run.position
        run.goto(Position(here - 1))
        processor, entry = run.processor(self.number), None
        if processor.name == RJM and not processor.phase:
            entry = processor.operand(run.cell_of(self.number))
        run.goto(here)
        self.begin(run)
        if entry in self.entries:
            self.calls += (Call(entry, here, processor.p, processor.following),)
        return self.left(run, (processor.p + 1) % CELLS, processor.name == LJM) if was_at_jump else None

    def left(self, run: Session, entry: int, is_back: bool) -> Optional[Return]:
        """Sees what was performed in the place of the jump back of an entry: it ends the innermost call, and those above it, if it
        is that jump; else it leads the call astray, once."""
        at = next((at for at in reversed(range(len(self.calls))) if self.calls[at].entry == entry), None)
        if at is None or not is_back and self.calls[at] in self.astray:
            return None
        call = self.calls[at]
        if is_back:
            self.calls = self.calls[:at]
        else:
            self.astray += (call,)
        return Return(call, run.number_of(flat.P + self.number))


def around(entry: int) -> List[Tuple[int, int]]:
    """Returns the ranges of the cells at which P is before a jump by a return word, and after an RJM that stored it."""
    first, last = (entry - 1) % CELLS, (entry + 1) % CELLS
    return [(first, last)] if first < last else [(first, first), (last, last)]


def merged(ranges: Iterable[Tuple[int, int]], most: int) -> List[Tuple[int, int]]:
    """Returns so many ranges at most that have all the numbers of some, and as few others as possible."""
    found = sorted(ranges)
    while len(found) > most:
        at = min(range(len(found) - 1), key=lambda at: found[at + 1][0] - found[at][1])
        found[at:at + 2] = [(found[at][0], max(found[at][1], found[at + 1][1]))]
    return found


def calls_at(run: Session, number: int, entries: Iterable[int], position: Position) -> List[Call]:
    """Returns the calls of a processor that have not returned at a position of a run, the innermost last. It goes on from the last
    position before at which the tape has them."""
    stack, tape = Stack(number, entries), run.tape
    if not stack.entries:
        return []
    seen = tape.seen.setdefault((number, stack.entries), [(Position(0), ((), ()))])
    first, (stack.calls, stack.astray) = seen[bisect.bisect_right(seen, (position + 1,)) - 1]
    for row, end in tape.rows_of_turns(first, position):
        run.goto(row)
        stack.begin(run)
        while run.position < end:
            stack.next(run, end - run.position)
            if run.position >= min(first + OFTEN, position):
                first = run.position
                bisect.insort(seen, (first, (stack.calls, stack.astray)))
    return list(stack.calls)


class ReturnFinder:
    """Finds the turns in which an alternative holds that has a subroutine return wrongly: what is performed in the place of its
    jump back leads to another address than its RJM stored."""

    remembers = True

    def __init__(self, alternative: Alternative) -> None:
        self.stacks = [Stack(one.number, one.entries) for one in alternative.returns]
        self.alternative = alternative

    def begin(self, run: Session) -> None:
        for stack in self.stacks:
            stack.begin(run)

    def next(self, run: Session, most: int) -> bool:
        end, (stack, *others) = run.position + most, self.stacks
        while run.position < end:
            returned = stack.next(run, end - run.position)
            if returned and returned.is_wrong and not others and holds(run, self.alternative):
                return True
        return False
