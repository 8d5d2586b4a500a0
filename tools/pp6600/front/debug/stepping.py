"""Steps: by turns, by the lines of the user's own source, and out of block transfers and subroutines.

A step by lines goes over waits, block transfers and subroutines. A subroutine ends where P is the address that its entry has then,
so one that counts its return address up ends too."""

import math
from typing import Any, List, Optional

from ...run.forms import CELLS
from ...run.subroutines import RJM, Call, calls_at
from ...run.tape import Position
from ...run.turn import Processor
from .debugged import Debugged
from .own import OwnLine, OwnSources
from .running import Runner
from .stops import Aim, Stop

ALL_CELLS = frozenset(range(CELLS))
MOST_IN_STEP = 0o10000000  # turns of a step over a subroutine, or out of one, which may never return


class Stepper:
    """Steps of one processor. One forward returns the stop of something else on the way, or None."""

    def __init__(self, machine: Debugged, own: OwnSources, runner: Runner, number: int) -> None:
        """The sources are the user's `own`."""
        self.machine, self.own, self.runner, self.number = machine, own, runner, number
        self.source: Any = own.of.get(number)
        self.scout = machine.scout()
        self.remark = ""  # on how a step ended

    @property
    def processor(self) -> Processor:
        """The processor as it is now."""
        return self.machine.processor(self.number)

    def processor_at(self, position: int) -> Processor:
        """Returns the processor as it was at a position."""
        self.scout.goto(Position(position))
        return self.scout.processor(self.number)

    def latest_turn(self, position: int) -> Optional[int]:
        """Returns the position before the processor's latest turn before a position; None if there is none."""
        return self.machine.tape.latest_turn(self.number, Position(position))

    # ---- forward

    def turn(self) -> Optional[Stop]:
        """Makes a turn of the processor."""
        return self.runner.step(self.number)

    def next_line(self) -> Optional[Stop]:
        """Runs to where the processor comes to another line; if it is at none, makes a turn."""
        before: Optional[Processor] = self.processor
        line, stop = self.own.line_at_p(self.number, self.processor), self.turn()
        while line and not stop and self.runner.goes_on():
            aim = self.aim(line, before)
            if not aim:
                return self.runner.to_turn(self.number)  # so that a breakpoint there is not met again
            stop, before = self.to_aim(aim), None
            if self.remark:
                break
        return stop

    def to_aim(self, aim: Aim) -> Optional[Stop]:
        """Runs to where a step goes on to, but only so far if this is the end of a subroutine, whose return address may be lost.
        Returns the stop on the way, or None."""
        last = math.inf if aim.entry is None else self.machine.position + MOST_IN_STEP
        stop = self.runner.forward(self.number, aim, last)
        if not stop and self.machine.position >= last:
            self.remark = f"PP {self.number:02o} has not come back to where cell {aim.entry:04o} says, in {MOST_IN_STEP:o} turns"
        return stop

    def aim(self, line: OwnLine, before: Optional[Processor]) -> Optional[Aim]:
        """Returns where a step goes on to, or None if it is at its end. Before its first turn the processor was as given."""
        after, entry = self.processor, self.entry_called()
        if entry is not None:
            return Aim(self.number, entry=entry)
        has_stayed = before is not None and after.p == before.p and not before.goes_on_in
        if after.phase or after.p in line.addresses and not has_stayed:
            return Aim(self.number, ALL_CELLS - line.addresses)
        return None

    def entry_called(self) -> Optional[int]:
        """Returns the address of the entry of the subroutine that the latest turn called; None if it called none."""
        at = self.latest_turn(self.machine.position)
        processor = None if at is None else self.processor_at(at)
        is_call = processor and processor.name == RJM and not processor.phase
        return processor.operand(self.scout.cell_of(self.number)) if processor and is_call else None

    def out(self) -> Optional[Stop]:
        """Runs out of a block transfer, or else out of a subroutine, or else makes a turn."""
        entry = self.entry_of_call()
        stop = self.turn() if entry is None else None
        if not stop and (entry is not None or self.processor.phase):
            stop = self.to_aim(Aim(self.number, ALL_CELLS if entry is None else frozenset(), entry))
        return stop

    def entry_of_call(self) -> Optional[int]:
        """Returns the address of the entry of the subroutine that the processor is in; None if it is in none, or a block is on."""
        calls = [] if self.processor.phase else self.calls(self.machine.position)
        return calls[-1].entry if calls else None

    def calls(self, position: int) -> List[Call]:
        """Returns the calls of the processor that have not returned at a position, the innermost last."""
        return calls_at(self.scout, self.number, self.source.entries().values(), Position(position)) if self.source else []

    # ---- back

    def back(self, is_by_lines: bool) -> None:
        """Goes back to before the latest turn of the processor; by lines to where it came to the line of that turn, if it is at one
        now. If it has made no turn, that is the beginning."""
        at = self.latest_turn(self.machine.position)
        if at is not None and is_by_lines and self.own.line_at_p(self.number, self.processor):
            at = self.before_line(self.before_call(at))
        if self.runner.goes_on():
            self.machine.goto(Position(at or 0))

    def before_line(self, first: int) -> int:
        """Returns the position at which the processor came to the line of the turn after one; if it was at no line, that
        position."""
        line, end = None, first + 1
        while (at := self.latest_turn(end)) is not None and self.runner.goes_on():
            processor = self.processor_at(at)
            line, end = line or self.own.line_at_p(self.number, processor), at
            if not processor.phase and not (line and processor.p in line.addresses):
                break
            first = first if processor.phase else at
        return first

    def before_call(self, at: int) -> int:
        """Returns the position before the call of the subroutine that the turn at a position ended; else that position."""
        processor = self.processor_at(at)
        is_return = (not processor.phase and processor.p in self.source.entries()
                     and self.source.is_loaded(processor.p, processor.words[0]))
        calls = self.calls(at) if is_return else []
        return next((call.position - 1 for call in reversed(calls) if call.entry == (processor.p + 1) % CELLS), at)
