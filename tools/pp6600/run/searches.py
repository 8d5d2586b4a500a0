"""The searches of the tools and of the panel: for the turns at which a condition comes to hold, before the present turn and after
it, and for those by which a processor begins a line of its source. A simulator of its own searches them.

A processor begins a line by a turn if it is in another line before this turn than before its turn before. So an instruction of two
words, all instructions that a macro made of a line, and a block transfer with the instruction that began it are one line each.
`Source.line_of` says whose line a cell is."""

from __future__ import annotations

import itertools
from typing import Any, List, Optional

from ..engine import interface as flat
from ..engine.interface import CHANGES, INSIDE, Form
from ..failure import Failure
from .conditions import Condition, joined, parsed
from .forms import PROCESSORS
from .search import Finder, Progress, RowFinder, Search, Turn, TurnFinder, first_turn, last_found, turn_at
from .session import Session
from .subroutines import ReturnFinder
from .tape import STEP, Position, Tape
from .turn import states_of

MOST_NEW = 0o10000000  # turns that are searched after those that were made


class Stopped(Failure):
    """The operator stopped a search."""

    def __init__(self) -> None:
        super().__init__("the search was stopped")


def search_for(run: Session, condition: Condition, progress: Progress = lambda turn: None) -> Search:
    """Returns the search for the turns in which a condition comes to hold."""
    for column in condition.columns:
        run.checked(column.place)
    finders: List[Finder] = []
    by_turn = []
    for one in condition.alternatives:
        if one.returns:
            finders.append(ReturnFinder(one))
        elif one.waits:
            finders.append(RowFinder(one))
        else:
            by_turn += one.forms
    return Search(run, [*finders, *([TurnFinder(by_turn)] if by_turn else [])], progress)


def going_on(session: Any) -> Session:
    """Returns a session of the actions of the panel's, with new turns after them."""
    tape = Tape(session.simulator.tape.runs)
    tape.append(STEP, session.most_new)
    found: Session = session.simulator.search(tape)
    return found


def next_found(session: Any, text: str, symbols: Any, progress: Progress) -> Optional[Turn]:
    """Returns the first turn after the present one at whose end the condition holds, and at whose beginning it did not: one
    that was made, or a new one. Returns None if there is none."""
    with going_on(session) as run:
        condition = parsed(text, symbols)
        found = search_for(run, condition, progress).found(session.simulator.turn)
        return next((turn_at(run, position, condition.columns) for position, _ in found), None)


def last_before(session: Any, text: str, symbols: Any, progress: Progress) -> Optional[Turn]:
    """Returns what `next_found` does, of the last turn before the present one."""
    with session.simulator.search() as run:
        condition = parsed(text, symbols)
        found = last_found(search_for(run, condition, progress), 1, 0, session.simulator.turn - 1)
        return next((turn_at(run, position, condition.columns) for position, _ in found), None)


class LineFinder:
    """Finds the turns by which a processor begins a line of its source. Where its P is as before its turn before, and in a block
    transfer, it is in the same line."""

    remembers = False

    def __init__(self, number: int, source: Any) -> None:
        self.number, self.source = number, source
        out_of_block = Form(INSIDE, flat.PHASE + number)
        self.moves = joined([Form(CHANGES, first + number, 1), out_of_block] for first in (flat.P, flat.PHASE))
        self.line: Optional[int] = None  # the number of the line that it is in, if it is in one
        self.left: Optional[int] = None  # after how many turns it left its source
        self.turn = 0  # how many turns it has seen
        self.has_moved = True  # since its latest turn began

    def line_of(self, run: Session, address: int) -> Optional[int]:
        cell = run.cell_of(self.number)
        line = self.source.line_of(address, cell(address), cell(address + 1))
        return line.number if line and line.is_there else None

    def see(self, run: Session) -> None:
        """Sees which line the processor is in; in a block transfer that of its instruction, if this is still there."""
        address = run.processor(self.number).address(run.cell_of(self.number))
        self.line = None if address is None else self.line_of(run, address)
        self.turn = run.turn

    def begin(self, run: Session) -> None:
        """Sees which line the processor is in, if it has not seen the turns before. A setting may have changed P, or the cell
        there."""
        if self.turn != run.turn:
            self.see(run)
        self.has_moved = True

    def next(self, run: Session, most: int) -> bool:
        end, is_found = Position(run.position + most), False
        while run.position < end and not is_found:
            if self.has_moved:
                before = Position(run.position + (self.number - run.slot()) % PROCESSORS)  # its next turn
                run.goto(min(before, end))
                if before < end:
                    is_found = self.begins(run)
                    self.has_moved = first_turn(run, self.moves, 1)
            else:
                self.has_moved = first_turn(run, self.moves, end - run.position)
        self.turn = run.turn
        return is_found

    def begins(self, run: Session) -> bool:
        """Sees which line the processor is in before its turn. Returns whether it begins it."""
        old = self.line
        if not run.number_of(flat.PHASE + self.number):
            self.line = self.line_of(run, run.number_of(flat.P + self.number))
            if self.line is None and old is not None:
                self.left = run.turn
        return self.line not in (None, old)

    def why_none(self, run: Session) -> str:
        """Returns what the processor does instead at the end of a search, as a part of a sentence."""
        if self.line is None:
            return f"; PP {self.number:02o} is in none after turn {self.left:o}" if self.left is not None else ""
        waits = run.processor(self.number).waits_for(states_of(run.channels()))
        return f"; PP {self.number:02o} waits for {waits}" if waits else ""


def turn_of_next_line(session: Any, number: int, source: Any, count: int, progress: Progress) -> int:
    """Returns after how many turns a processor begins the line that comes so many lines later, by a turn that was made or a new
    one."""
    with going_on(session) as run:
        begins = LineFinder(number, source)
        run.goto(session.simulator.position)
        begins.see(run)
        found = next(itertools.islice(Search(run, [begins], progress).onward(begins, run.position), count - 1, None), None)
        if found is None:
            raise none_found(count, f"up to turn {run.tape.turns:o}{begins.why_none(run)}")
        return found[1] - 1


def turn_of_line_before(session: Any, number: int, source: Any, count: int, progress: Progress) -> int:
    """Returns what `turn_of_next_line` does, of the last lines that were begun before the present position."""
    with session.simulator.search(session.simulator.in_effect()) as run:
        found = last_found(Search(run, [LineFinder(number, source)], progress), count)
        if len(found) < count:
            raise none_found(count, f"before turn {run.tape.turns:o}")
        return found[-count][1] - 1


def none_found(count: int, where: str) -> Failure:
    return Failure(f"NONE: {'no other line' if count == 1 else f'fewer than {count:o} lines'} {where}")
