"""The machine with its undo history and redo list."""

from __future__ import annotations

import collections
from typing import Any, Callable, Deque, Dict, List, Optional, Sequence

from .devices import printer, reader
from .instructions import PlainProcessor, Step, Writes, processor
from .places import (
    ALL, CHANNELS, CLOCK, CLOCK_CHANNEL, EMPTY, FIELD, INACTIVE, IS_CLOCK, NO_CHANNEL, PHASE, PROCESSORS, SLOT, STATE, A, P, Q,
    place_of)

Part = Callable[["Machine"], Step]  # reads the machine, and returns what it is and what it writes
Record = Dict[int, Any]  # the numbers that an action has overwritten, by their places


def barrel(machine: Machine) -> Step:
    """The clock and the slot."""
    slot = machine.numbers[SLOT]
    if slot < PROCESSORS - 1:
        return "turn", {SLOT: slot + 1}
    return "turn", {CLOCK: (machine.numbers[CLOCK] + 1) % 0o10000, SLOT: 0}


def dead_start(machine: Machine) -> Step:
    assert machine.panel is not None
    writes = {place_of("M", 0, i): number for i, number in enumerate([0, *machine.panel, 0])}
    writes.update({A: 0, P: 1, Q: 0, PHASE: 0, SLOT: 0})
    for n in range(1, PROCESSORS):
        writes.update({place_of("M", n, 0): 0, A + n: 0o10000, P + n: 0, Q + n: 0, PHASE + n: 0o7100 + n})
    writes.update({STATE + c: EMPTY if 0o1 <= c <= 0o11 else INACTIVE for c in range(CHANNELS)})
    return "dead start" + " in a block" * any(machine.numbers[PHASE + n] for n in range(PROCESSORS)), writes


class Machine:
    """The numbers at all places, the undo history and the redo list. A record of either has the numbers that it puts back."""

    Processor = PlainProcessor

    def __init__(self, deck: Sequence[List[int]] = (), panel: Optional[List[int]] = None, central: int = 0o400000,
                 reader: int = 0o12, printer: int = 0o13, history: int = 10000) -> None:
        self.deck, self.panel, self.central, self.reader, self.printer = deck, panel, central, reader, printer
        self.history: Deque[Record] = collections.deque(maxlen=history)
        self.ahead: List[Record] = []
        self.numbers = self.blank()
        for channel in range(CHANNELS, FIELD):
            self.numbers[STATE + channel] = IS_CLOCK if channel == CLOCK_CHANNEL else NO_CHANNEL
        self.processors = [self.Processor(self, n) for n in range(PROCESSORS)]

    def blank(self) -> List[Any]:
        """Returns zero for each place. Only the watches are no number."""
        return [0] * ALL

    def act(self, *parts: Part) -> Record:
        """Performs one action; each part reads what the parts before it have written. Returns the record."""
        numbers, record = self.numbers, {}
        for part in parts:
            for place, number in self.writes_of(part).items():
                if place not in record:
                    record[place] = numbers[place]
                numbers[place] = number
        self.history.append(record)
        if self.ahead:
            self.ahead.clear()
        return record

    def turn(self) -> Record:
        return self.act(processor, reader, printer, barrel)

    def writes_of(self, part: Part) -> Writes:
        """Returns what a part of an action writes."""
        return part(self)[1]

    def swap(self, record: Record) -> None:
        """Writes the numbers of a record, and has it hold those that were there."""
        numbers = self.numbers
        for place, number in record.items():
            record[place], numbers[place] = numbers[place], number

    def back(self) -> None:
        self.ahead.append(self.history.pop())
        self.swap(self.ahead[-1])

    def forward(self) -> None:
        self.history.append(self.ahead.pop())
        self.swap(self.history[-1])
