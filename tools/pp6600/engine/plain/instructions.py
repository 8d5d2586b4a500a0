"""A step of a processor: the instruction table and the block transfers.

A step reads the machine, and returns what it is, which the tests count, and what it writes: numbers by their places.
"""

from __future__ import annotations

from typing import TYPE_CHECKING, Callable, Dict, List, Optional, Tuple

from .places import (
    CELLS, CHANNELS, EMPTY, FRAME, FRAME_WORDS, FULL, FUNCTION, INACTIVE, IS_CLOCK, NO_CHANNEL, PHASE, SLOT, STATE, WIDER, A, C, H,
    M, P, Q)

if TYPE_CHECKING:
    from .machine import Machine

Writes = Dict[int, int]
Step = Tuple[str, Writes]
TWO_WORDS = {0o01, 0o02, *range(0o20, 0o24), *range(0o50, 0o60), 0o61, 0o63, *range(0o64, 0o70), 0o71, 0o73, 0o77}


def add(a: int, b: int) -> int:
    return a + b if a + b < 0o777777 else a + b - 0o777777


def subtract(a: int, b: int) -> int:
    return a - b if a >= b else a - b + 0o777777


def shift(a: int, d: int) -> int:
    if d >= 0o40:
        return a >> 0o77 - d
    left = d % 18
    return (a << left | a >> 18 - left) & 0o777777


class PlainProcessor:
    """What a processor finds before its step, in small letters, and its places, in capitals."""

    numbers: List[int]
    a: int
    p: int
    q: int
    phase: int
    code: int
    d: int
    m: int
    state: int
    register: int
    address: int
    x: int
    A: int
    P: int
    Q: int
    PHASE: int
    STATE: int
    REGISTER: int

    def __init__(self, machine: Machine, n: int) -> None:
        self.machine, self.numbers, self.n, self.memory = machine, machine.numbers, n, M + n * CELLS
        self.A, self.P, self.Q, self.PHASE = A + n, P + n, Q + n, PHASE + n

    def look(self) -> None:
        """Reads the registers, the instruction or the block that goes on, and its channel."""
        numbers = self.numbers
        self.a, self.p, self.q, self.phase = numbers[self.A], numbers[self.P], numbers[self.Q], numbers[self.PHASE]
        # In a block transfer the phase is the instruction word.
        word = self.phase or numbers[self.memory + self.p]
        self.code, self.d = word >> 6, word & 0o77
        self.m = numbers[self.memory + (self.p + 1) % CELLS]
        self.STATE, self.REGISTER = STATE + self.d, H + self.d
        self.state, self.register = numbers[self.STATE], numbers[self.REGISTER]

    def M(self, address: int) -> int:
        return self.memory + address % CELLS

    def cell(self, address: int) -> int:
        return self.numbers[self.memory + address % CELLS]

    def central_to_cells(self, address: int) -> Writes:
        word = self.numbers[C + self.a]
        return {self.M(address + i): word >> 12 * (4 - i) & 0o7777 for i in range(5)}

    def cells_to_central(self, address: int) -> Writes:
        word = 0
        for i in range(5):
            word = word << 12 | self.cell(address + i)
        return self.to_central(self.a, word)

    def to_central(self, address: int, word: int) -> Writes:
        return {C + address: word} if address < self.machine.central else {}

    def find_operand(self) -> None:
        """Sets x, and the address for the codes that have one."""
        code, d = self.code, self.d
        if code in (0o01, 0o02) or 0o50 <= code <= 0o57:
            indexed = self.m + self.cell(d) if d else self.m
            self.address = indexed if indexed <= 0o7777 else indexed - 0o7777
            self.x = self.cell(self.address)
        elif 0o30 <= code <= 0o47:
            self.address = d if code <= 0o37 else self.cell(d)
            self.x = self.cell(self.address)
        else:
            self.x = d << 12 | self.m if 0o20 <= code <= 0o23 else d


# What an instruction writes: functions of the processor that return the writes, or None if it waits. P grows by the number of words
# if it is not among them. Of a cell, a channel register and P only the lower twelve bits are written.
Effect = Callable[[PlainProcessor], Optional[Writes]]


def a_becomes(result: Callable[[int, int], int]) -> Effect:
    return lambda s: {s.A: result(s.a, s.x)}


def replace(result: Callable[[int, int], int]) -> Effect:
    def effect(s: PlainProcessor) -> Writes:
        number = result(s.a, s.x)
        return {s.A: number, s.M(s.address): number}
    return effect


def jump_if(test: Callable[[int], bool]) -> Effect:
    return lambda s: {s.P: s.p + (s.d if s.d < 0o40 else s.d - 0o77)} if test(s.a) else {}


def jump_if_channel(*states: int) -> Effect:
    return lambda s: {s.P: s.m} if s.state in states else {}


def in_states(states: List[int], new: int, write: Callable[[PlainProcessor], Writes] = lambda s: {}) -> Effect:
    """Completes in these states, and then the channel gets the new one; the clock keeps its own."""
    return lambda s: {**write(s), **({s.STATE: new} if s.d < CHANNELS else {})} if s.state in states else None


def exchange(s: PlainProcessor) -> Writes:
    writes = {}
    for i in range(FRAME_WORDS):
        address = (s.a + i) % 0o1000000
        new = s.numbers[C + address]
        writes[FRAME + i] = new if i > 0 else new >> 18 << 18
        writes.update(s.to_central(address, s.numbers[FRAME + i]))
    return writes


def issue(s: PlainProcessor) -> Writes:
    count = {s.Q: s.cell(s.d)} if s.code in (0o61, 0o63) else {}
    return {**count, s.M(0): s.p + 1, s.P: s.m, s.PHASE: s.code << 6 | s.d}


# Instructions with one effect: codes, names, what is written. They differ only in how x or the address is found.
TABLE: Tuple[Tuple[str, str, Effect], ...] = (
    ("00 24 25", "PSN PSN PSN", lambda s: {}),
    ("01", "LJM", lambda s: {s.P: s.address}),
    ("02", "RJM", lambda s: {s.M(s.address): s.p + 2, s.P: s.address + 1}),
    ("03", "UJN", jump_if(lambda a: True)),
    ("04", "ZJN", jump_if(lambda a: a == 0)),
    ("05", "NJN", jump_if(lambda a: a != 0)),
    ("06", "PJN", jump_if(lambda a: a < 0o400000)),
    ("07", "MJN", jump_if(lambda a: a >= 0o400000)),
    ("10", "SHN", a_becomes(shift)),
    ("11 23 33 43 53", "LMN LMC LMD LMI LMM", a_becomes(lambda a, x: a ^ x)),
    ("12 22", "LPN LPC", a_becomes(lambda a, x: a & x)),
    ("13", "SCN", a_becomes(lambda a, x: a & ~x)),
    ("14 20 30 40 50", "LDN LDC LDD LDI LDM", a_becomes(lambda a, x: x)),
    ("15", "LCN", a_becomes(lambda a, x: 0o777777 - x)),
    ("16 21 31 41 51", "ADN ADC ADD ADI ADM", a_becomes(add)),
    ("17 32 42 52", "SBN SBD SBI SBM", a_becomes(subtract)),
    ("26", "EXN", exchange),
    ("27", "RPN", lambda s: {s.A: s.numbers[FRAME] >> 36 & 0o777777}),
    ("34 44 54", "STD STI STM", lambda s: {s.M(s.address): s.a}),
    ("35 45 55", "RAD RAI RAM", replace(add)),
    ("36 46 56", "AOD AOI AOM", replace(lambda a, x: add(x, 1))),
    ("37 47 57", "SOD SOI SOM", replace(lambda a, x: subtract(x, 1))),
    ("60", "CRD", lambda s: s.central_to_cells(s.d)),
    ("62", "CWD", lambda s: s.cells_to_central(s.d)),
    ("61 63 71 73", "CRM CWM IAM OAM", issue),
    ("64", "AJM", jump_if_channel(EMPTY, FULL, FUNCTION, IS_CLOCK)),
    ("65", "IJM", jump_if_channel(INACTIVE, NO_CHANNEL)),
    ("66", "FJM", jump_if_channel(FULL, FUNCTION, IS_CLOCK)),
    ("67", "EJM", jump_if_channel(INACTIVE, EMPTY, NO_CHANNEL)),
    ("70", "IAN", in_states([FULL, IS_CLOCK], EMPTY, lambda s: {s.A: s.register})),
    ("72", "OAN", in_states([EMPTY], FULL, lambda s: {s.REGISTER: s.a})),
    ("74", "ACN", in_states([INACTIVE], EMPTY)),
    ("75", "DCN", in_states([EMPTY, FULL, FUNCTION, IS_CLOCK], INACTIVE)),
    ("76", "FAN", in_states([INACTIVE], FUNCTION, lambda s: {s.REGISTER: s.a})),
    ("77", "FNC", in_states([INACTIVE], FUNCTION, lambda s: {s.REGISTER: s.m})),
)
INSTRUCTIONS = {int(code, 8): (f"{code} {name}", 2 if int(code, 8) in TWO_WORDS else 1, effect) for codes, names, effect in TABLE
                for code, name in zip(codes.split(), names.split())}
CODES = [INSTRUCTIONS[code] for code in range(0o100)]


def processor(machine: Machine) -> Step:
    """A step of the processor in the slot."""
    s = machine.processors[machine.numbers[SLOT]]
    s.look()
    writes: Optional[Writes]
    if s.phase:
        what, writes = block_move(s)
    else:
        what, words, effect = CODES[s.code]
        s.find_operand()
        writes = effect(s)
        if writes is None:
            return f"{what} waits", {}
        if s.P not in writes:
            writes[s.P] = s.p + words
    return what, {place: number & 0o7777 if place < WIDER else number for place, number in writes.items()}


def block_move(s: PlainProcessor) -> Step:
    """A step in a block transfer. The cases are counted as docs/MACHINE.md does."""
    case, writes = central_move(s) if s.code in (0o61, 0o63) else channel_move(s)
    return f"block {s.code:o} case {case}", writes


def end_of_block(s: PlainProcessor) -> Writes:
    return {s.P: s.cell(0) + 1, s.PHASE: 0}


def central_move(s: PlainProcessor) -> Tuple[int, Writes]:
    if s.q == 0:
        return 1, end_of_block(s)
    moved = {s.P: s.p + 5, s.A: (s.a + 1) % 0o1000000, s.Q: s.q - 1}
    return (2, {**s.central_to_cells(s.p), **moved}) if s.code == 0o61 else (3, {**s.cells_to_central(s.p), **moved})


def channel_move(s: PlainProcessor) -> Tuple[int, Writes]:
    if s.a == 0:
        return 1, end_of_block(s)
    moved = {s.P: s.p + 1, s.A: s.a - 1}
    if s.state in (INACTIVE, NO_CHANNEL):
        if s.code == 0o73:
            return 5, end_of_block(s)
        return 4, {**end_of_block(s), s.M(s.p): 0, **({s.P: 1} if s.p == 0 else {})}
    if s.code == 0o71 and s.state == FULL:
        return 6, {s.M(s.p): s.register, s.STATE: EMPTY, **moved}
    if s.code == 0o73 and s.state == EMPTY:
        return 7, {s.REGISTER: s.cell(s.p), s.STATE: FULL, **moved}
    if s.code == 0o71 and s.state == IS_CLOCK:
        return 8, {s.M(s.p): s.register, **moved}
    return 9, {}
