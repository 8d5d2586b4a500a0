"""What a processor is about to do, as a sentence with this machine's numbers, in the words of docs/MACHINE.md."""

from __future__ import annotations

import re
from typing import Any, Callable, Dict, List, Mapping, Sequence, Tuple

from .forms import CELLS, CLOCK, STATES
from .state import Channel
from .turn import NOT_THERE_IN_BLOCK, WAITS_FOR, Cell, Processor, target_of

# Of each code the sentences, each after the condition on which it is the one; a block's later turns have a b before the code.
#   A=0 A/0 A+ A- Q=0  the number in A or Q     d<40  the shift is to the left     =P  the jump leads to P
#   clock  d is 14     state LETTERS            channel d is in one of these states    lost  it is inactive, and P is 0000
# In braces: A Q P d m dm as in the machine; a the lower twelve bits of A; x the address of the operand cell, and X its number; x+1;
# near the address of a relative jump; n how many places; on the address after the instruction; D the number in cell d; D.. cells d
# to d+4; P.. cells P to P+4; H the register of channel d; back the address at which a block goes on; A# a count of words, A, and Q,
# with a verb.
TEXT = """
00: passes
01: jumps to {x}
02: cell {x} gets {on}; jumps to {x+1}
03 =P: jumps to itself
03: jumps to {near}
04 A=0: A is 000000: jumps to {near}
04: A is {A}, not 000000: goes on at {on}
05 A/0: A is {A}, not 000000: jumps to {near}
05: A is 000000: goes on at {on}
06 A+: A is {A}, plus: jumps to {near}
06: A is {A}, minus: goes on at {on}
07 A-: A is {A}, minus: jumps to {near}
07: A is {A}, plus: goes on at {on}
10 d<40: rotates A, {A}, left by {n}
10: shifts A, {A}, right by {n}
11: A becomes {A} exclusive or {d}
12: A becomes {A} and {d}
13: A becomes {A} without the bits of {d}
14: A becomes {d}
15: A becomes 777777-{d}
16: A becomes {A} plus {d}
17: A becomes {A} minus {d}
20: A becomes {dm}
21: A becomes {A} plus {dm}
22: A becomes {A} and {dm}
23: A becomes {A} exclusive or {dm}
24: passes
25: passes
26: exchange jump at central address {A}
27: A becomes P of the central processor
30: A becomes cell {x}, {X}
31: A becomes {A} plus cell {x}, {X}
32: A becomes {A} minus cell {x}, {X}
33: A becomes {A} exclusive or cell {x}, {X}
34: stores A: cell {x} gets {a}
35: replaces cell {x}, {X}, by A, {A}, plus it
36: replaces cell {x}, {X}, by it plus 1
37: replaces cell {x}, {X}, by it minus 1
60: cells {D..} get central word {A}
61: block of {D} words from central word {A} to cell {m} on
62: central word {A} gets cells {D..}
63: block of {D} words from cell {m} to central word {A} on
64 state EFX: channel {d} is active: jumps to {m}
64: channel {d} is inactive: goes on at {on}
65 state EFX: channel {d} is active: goes on at {on}
65: channel {d} is inactive: jumps to {m}
66 state FX: channel {d} is full: jumps to {m}
66: channel {d} is not full: goes on at {on}
67 state FX: channel {d} is full: goes on at {on}
67: channel {d} is not full: jumps to {m}
70 clock: A gets the clock, {H}
70: A gets {H} from channel {d}, which becomes empty
71: input of a block: {A#} words of channel {d} to cell {m} on
72: channel {d} gets {a} from A and becomes full
73: output of a block: {A#} words from cell {m} on to channel {d}
74: activates channel {d}
75 clock: passes
75: disconnects channel {d}
76: channel {d} gets function code {a} from A
77: channel {d} gets function code {m}
b61 Q=0: the block ends: goes on at {back}
b61: central word {A} to cells {P..}; {Q,} left
b63 Q=0: the block ends: goes on at {back}
b63: central word {A} gets {P..}; {Q,} left
b71 A=0: the block ends: goes on at {back}
b71 lost: channel {d} is inactive: cell 0000 becomes 0000; goes on at 0001
b71 state I: channel {d} is inactive: cell {P} becomes 0000; goes on at {back}
b71 clock: the clock, {H}, goes to cell {P}; {A,} left
b71: a word of channel {d} goes to cell {P}; {A,} left
b73 A=0: the block ends: goes on at {back}
b73 state I: channel {d} is inactive: goes on at {back}
b73: cell {P} goes to channel {d}; {A,} left
"""
WAITS, WAITS_EVER = "waits for channel {d} to be {wanted}; it {state}", "waits for ever: channel {d} is never {wanted}"
SAME = {code + row: code for row in (0o10, 0o20) for code in range(0o30, 0o40)}  # 40 to 57 are as 30 to 37
STATE_NAMES = dict(zip(STATES, ("is inactive", "is empty", "is full", "has a function code")))


def rows() -> Dict[str, List[Tuple[str, str]]]:
    """Returns of each code, as 71 or b71, its pairs of a condition and a sentence."""
    found: Dict[str, List[Tuple[str, str]]] = {}
    for line in TEXT.strip().splitlines():
        head, text = line.split(": ", 1)
        code, _, condition = head.partition(" ")
        found.setdefault(code, []).append((condition, text))
    return {**found, **{f"{code:o}": found[f"{same:o}"] for code, same in SAME.items()}}


ROWS = rows()


def counted(count: int) -> str:
    """Returns a number of words with a verb."""
    return f"{count:o} {'word is' if count == 1 else 'words are'}"


def four(number: int) -> str:
    """Returns the digits of an address, or of the number in a cell; after cell 7777 comes cell 0000."""
    return f"{number % CELLS:04o}"


def five_cells(first: int) -> str:
    return f"{four(first)} to {four(first + 4)}"


# Of each condition but `state` whether it holds, and what each name in braces means.
CONDITIONS: Dict[str, Callable[[Any], Any]] = {
    "": lambda one: True, "A=0": lambda one: one.a == 0, "A/0": lambda one: one.a != 0, "A+": lambda one: one.a < 0o400000,
    "A-": lambda one: one.a >= 0o400000, "Q=0": lambda one: one.processor.q == 0, "d<40": lambda one: one.d < 0o40,
    "=P": lambda one: target_of(one.p, one.d) == one.p, "clock": lambda one: one.d == CLOCK,
    "lost": lambda one: one.state == "I" and one.p == 0,
}
NUMBERS: Dict[str, Callable[[Any], Any]] = {
    "A": lambda one: f"{one.a:06o}", "P": lambda one: four(one.p), "Q": lambda one: four(one.processor.q), "a": lambda one: four(
    one.a),
    "A#": lambda one: f"{one.a:o}", "A,": lambda one: counted(one.a), "Q,": lambda one: counted(one.processor.q),
    "d": lambda one: f"{one.d:02o}", "m": lambda one: four(one.processor.words[1]),
    "dm": lambda one: f"{one.d:02o}{four(one.processor.words[1])}",
    "n": lambda one: f"{one.d if one.d < 0o40 else 0o77 - one.d:o}", "x": lambda one: four(one.operand),
    "x+1": lambda one: four(one.operand + 1), "X": lambda one: four(one.cell(one.operand)), "D": lambda one: four(one.cell(one.d)),
    "D..": lambda one: five_cells(one.d), "P..": lambda one: five_cells(one.p), "near": lambda one: four(target_of(one.p, one.d)),
    "on": lambda one: four(one.processor.following), "back": lambda one: four(one.cell(0) + 1),
    "H": lambda one: one.words[one.d], "state": lambda one: STATE_NAMES[one.state],
    "wanted": lambda one: WAITS_FOR[one.processor.code],
}


NAME = re.compile("{(.*?)}")


class Reading:
    """A processor before its turn, with all that its sentence needs."""

    def __init__(self, processor: Processor, cell: Cell, states: Sequence[str], words: Sequence[str] = ()) -> None:
        """The function `cell` returns the number in a cell of the processor; the channels, and the clock, have states and words."""
        self.processor, self.cell, self.states, self.words = processor, cell, states, words
        self.a, self.p, self.d = processor.a, processor.p, processor.channel
        self.state = states[self.d] if self.d < len(states) else NOT_THERE_IN_BLOCK

    @property
    def operand(self) -> int:
        return self.processor.operand(self.cell)

    def holds(self, condition: str) -> bool:
        kind, _, states = condition.partition(" ")
        return self.state in states if kind == "state" else bool(CONDITIONS[kind](self))

    def sentence(self, numbers: Mapping[str, Callable[[Any], Any]]) -> str:
        """Returns the instruction, in a block transfer that which began it, and what the next turn does. The table `numbers` says
        what is in the place of each name in braces."""
        processor = self.processor
        if processor.would_wait(self.states):
            text = WAITS if self.d < CLOCK else WAITS_EVER
        else:
            choices = ROWS[f"{'b' if processor.phase else ''}{processor.code:02o}"]
            text = next(text for condition, text in choices if self.holds(condition))
        return f"{processor.whole_text(self.cell)}: {NAME.sub(lambda name: str(numbers[name[1]](self)), text)}"


def sentence(processor: Processor, cell: Cell, channels: Sequence[Channel]) -> str:
    """Returns the instruction of a processor and what its next turn does."""
    states, words = [channel.state for channel in channels], [channel.register for channel in channels]
    return Reading(processor, cell, states, words).sentence(NUMBERS)
