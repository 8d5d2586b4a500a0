"""What is read from the instruction table, with which the tests compare it.

`Processor` is a processor before a turn: which instruction it will perform, whether that waits as the channels are, and where its
operand is. No number is computed here but addresses: each is read from the simulator. What a turn wrote, and from what, the engines
say. docs/MACHINE.md has the table in words."""

from __future__ import annotations

from typing import Callable, Dict, List, NamedTuple, Optional, Sequence, Tuple

from ..engine import interface as flat
from .forms import CELLS, CLOCK, PROCESSORS, REGISTERS, Place, Registers

Cell = Callable[[int], int]  # the number in a cell of a processor, by its address

NAMES = """PSN LJM RJM UJN ZJN NJN PJN MJN  SHN LMN LPN SCN LDN LCN ADN SBN  LDC ADC LPC LMC PSN PSN EXN RPN
    LDD ADD SBD LMD STD RAD AOD SOD  LDI ADI SBI LMI STI RAI AOI SOI  LDM ADM SBM LMM STM RAM AOM SOM
    CRD CRM CWD CWM AJM IJM FJM EJM  IAN IAM OAN OAM ACN DCN FAN FNC""".split()
# The states of channel d in which an instruction completes, or a later turn of a block goes on or ends; all others never wait.
COMPLETES = {0o70: "F", 0o72: "E", 0o74: "I", 0o75: "EFX", 0o76: "I", 0o77: "I"}
BLOCK_GOES_ON = {0o71: "IF", 0o73: "IE"}
BLOCKS_OF_CENTRAL = (0o61, 0o63)
BLOCKS = (*BLOCKS_OF_CENTRAL, *BLOCK_GOES_ON)
# Outside a block: whose address in central memory is A.
A_IS_AN_ADDRESS = (0o26, 0o60, 0o62)
STATES_WORDS = {"F": "full", "IF": "full", "E": "empty", "IE": "empty", "I": "inactive", "EFX": "active"}
WAITS_FOR = {code: STATES_WORDS[states] for code, states in {**COMPLETES, **BLOCK_GOES_ON}.items()}
RELATIVE_JUMPS = range(0o03, 0o10)
JUMPS_IN = {0o64: "EFX", 0o65: "I", 0o66: "FX", 0o67: "IE"}  # the states of its channel in which AJM, IJM, FJM and EJM jump
CHANNEL_JUMPS = tuple(JUMPS_IN)
CONDITIONAL_JUMPS = (*RELATIVE_JUMPS, *CHANNEL_JUMPS)
CHANNEL_CODES = range(0o64, 0o100)
# Whose operand's address is in cell d; and m, to which cell d is added if d is not 0. Of all others it is d.
INDIRECT, INDEXED = range(0o40, 0o50), (0o01, 0o02, *range(0o50, 0o60))
CONSTANTS = range(0o20, 0o24)  # with an operand of 18 bits
TWO_WORDS = frozenset((*INDEXED, *CONSTANTS, *BLOCKS, *CHANNEL_JUMPS, 0o77))
# The state of a channel that is not there: to a block it is inactive, and no other instruction completes on it.
NOT_THERE, NOT_THERE_IN_BLOCK = "-", "I"


class Processor(NamedTuple):
    """A processor before a turn: its registers, and the words from P on."""

    p: int
    a: int
    q: int
    phase: int
    words: Tuple[int, int]

    @classmethod
    def read(cls, number: int, at: Callable[[int], int]) -> Processor:
        """Returns a processor of a machine, of which a function returns the number at a place of the flat order."""
        p, a, q, phase = (at(first + number) for first in (flat.P, flat.A, flat.Q, flat.PHASE))
        first, second = (at(flat.CELLS + CELLS * number + (p + more) % CELLS) for more in (0, 1))
        return cls(p, a, q, phase, (first, second))

    @property
    def registers(self) -> Registers:
        """The registers by their names, each as its digits."""
        return {"P": f"{self.p:04o}", "A": f"{self.a:06o}", "Q": f"{self.q:04o}", "PHASE": f"{self.phase:04o}"}

    @property
    def instruction(self) -> int:
        """The first word of its instruction, in a block transfer of that which began it."""
        return self.phase or self.words[0]

    @property
    def code(self) -> int:
        return self.instruction >> 6

    @property
    def channel(self) -> int:
        return self.instruction & 0o77

    @property
    def name(self) -> str:
        """The name of the instruction; in a block transfer that of the transfer."""
        return NAMES[self.code]

    @property
    def second(self) -> Optional[int]:
        """The second word of the instruction, if it has one and is in no block transfer."""
        return self.words[1] if self.code in TWO_WORDS and not self.phase else None

    @property
    def following(self) -> int:
        """The address of the instruction after it."""
        return (self.p + 1 + (self.code in TWO_WORDS)) % CELLS

    @property
    def text(self) -> str:
        """The instruction with its channel or d, and with its second word; in a block transfer without that."""
        return f"{self.name} {self.channel:02o}{'' if self.second is None else f' {self.second:04o}'}"

    def address(self, cell: Cell) -> Optional[int]:
        """Returns the address of its instruction: P, or in a block transfer what cell 0000 says; None if the instruction is
        not there. The function `cell` returns the number in a cell of this processor."""
        address = (cell(0) - 1) % CELLS if self.phase else self.p
        return address if cell(address) == self.instruction else None

    def whole_text(self, cell: Cell) -> str:
        """As `text`, in a block transfer too with the second word, if the instruction is still there."""
        address = self.address(cell) if self.phase else None
        return self.text if address is None else f"{self.text} {cell((address + 1) % CELLS):04o}"

    @property
    def goes_on_in(self) -> Optional[str]:
        """The states of its channel in which its turn is no wait; None if it never waits."""
        return (BLOCK_GOES_ON if self.phase else COMPLETES).get(self.code)

    def uses(self, channel: int) -> bool:
        return self.code in CHANNEL_CODES and self.channel == channel

    def waited(self, after: Processor) -> bool:
        """Returns whether its turn was a wait, by the processor after it: no register has changed."""
        return self.goes_on_in is not None and self[:4] == after[:4]

    def would_wait(self, states: Sequence[str]) -> bool:
        """Returns whether its turn is a wait; the states are those of the channels and the clock, by their numbers."""
        return bool(self.goes_on_in) and not (self.phase and self.a == 0) and self.state(states) not in str(self.goes_on_in)

    def waits_for(self, states: Sequence[str]) -> str:
        """Returns the channel that it waits for, with the state in which it would go on; else nothing."""
        if not self.would_wait(states):
            return ""
        return f"{self.channel:02o} {WAITS_FOR[self.code] if self.channel < CLOCK else 'never'}"

    def state(self, states: Sequence[str]) -> str:
        """Returns the state of its channel."""
        if self.channel < len(states):
            return states[self.channel]
        return NOT_THERE_IN_BLOCK if self.phase else NOT_THERE

    def operand(self, cell: Cell) -> int:
        """Returns the address of the operand cell: d, or that in cell d, or m indexed by cell d."""
        if self.code not in INDEXED:
            return cell(self.channel) if self.code in INDIRECT else self.channel
        address = self.words[1] + (cell(self.channel) if self.channel else 0)
        return address if address < CELLS else address - (CELLS - 1)


def target_of(address: int, d: int) -> int:
    """Returns the address to which a relative jump leads."""
    return (address + (d if d < 0o40 else d - 0o77)) % CELLS


def states_of(channels: Sequence[str]) -> List[str]:
    """Returns the state letters of the lines of DUMP H."""
    return [line[5] for line in channels]


# ---- what a setting wrote

def places_of_setting(line: str) -> Dict[Place, Optional[int]]:
    """Returns the places that a SET or a DEADSTART writes, each with the number of its word in the line, or of its word of the
    panel, from 1, or None. Other actions write none."""
    words = line.upper().split()
    return places_of_set(words) if words[0] == "SET" else PLACES_OF_DEAD_START if words[0] == "DEADSTART" else {}


def places_of_set(words: Sequence[str]) -> Dict[Place, Optional[int]]:
    kind, *numbers = words[1:]
    if kind == "M":
        number, first = int(numbers[0], 8), int(numbers[1], 8)
        return {Place("M", (number, (first + at) % CELLS)): 5 + at for at in range(len(numbers) - 2)}
    place = Place(kind, (int(numbers[0], 8),))
    if kind == "H":
        return {place: 5} if len(numbers) > 2 else {}
    return {place: 4, Place("PHASE", place.numbers): None} if kind == "P" else {place: 4}


PLACES_OF_DEAD_START: Dict[Place, Optional[int]] = {
    **{Place("M", (0, at)): at if 0 < at < 0o15 else None for at in range(0o16)},
    **{Place("M", (number, 0)): None for number in range(1, PROCESSORS)},
    **{Place(name, (number,)): None for name in REGISTERS for number in range(PROCESSORS)}}
