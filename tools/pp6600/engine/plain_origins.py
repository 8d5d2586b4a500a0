"""Where each number that a turn writes comes from: an answer of the simulator's own, which the tests compare with the library's.

What a step writes, `instructions` and `devices` say. Here each place of it gets its operation and what that reads, by the code of
the instruction. Places are those of the simulator."""

from __future__ import annotations

from functools import partial
from typing import Callable, Dict, List, Tuple

from .origins import (
    ACTED, AFTER1, AFTER2, AFTER5, AFTER_INDEXED, CENTRAL_AFTER, CLEARED, COMPLEMENT, COUNT_DOWN, COUNT_UP, COUNT_UP2, DIFFERENCE,
    FIRST, IN_BLOCK, INDEXED, JOINED, LINE_END, LOGICAL_DIFFERENCE, LOGICAL_PRODUCT, LOW, LOW_ONE_LESS, LOW_ONE_MORE, LOW_SUM,
    LOWER_SIX, MOVED, NEXT_SLOT, NO_WORD, ONE_LESS, ONE_MORE, PASSED, PROGRAM_ADDRESS, PUNCHED, RELATIVE, SHIFTED, SUM, UPPER_SIX,
    WAITED, WHOLE, WITHOUT_B0, WORD, ZERO, D, M, Origin, Origins, Reading)
from .plain import places
from .plain.devices import LINE_END as SYMBOL_OF_LINE_END
from .plain.devices import READING, printer, reader
from .plain.instructions import CODES, TABLE, TWO_WORDS, PlainProcessor, Step, processor
from .plain.machine import Machine, Part, Record, barrel
from .plain.places import (CARD, CARD_COLUMN, CELLS, CHANNELS, FRAME, FRAME_WORDS, PAPER, PAPER_COLUMN, PAPER_LENGTH, READER_MODE,
                           STATE, C, H)

Kind = Tuple[int, Tuple[Reading, ...]]
# The codes of each row of the instruction table, by its first name.
ROWS = {names[:3]: [int(code, 8) for code in codes.split()] for codes, names, _ in TABLE}
# How A is made, by codes: of A, and of d (and m, or the operand's cell); or of that alone.
OF_A, OF_OPERAND = ({code: operation for name, operation in rows.items() for code in ROWS[name]} for rows in (
    {"SHN": SHIFTED, "SCN": CLEARED, "ADN": SUM, "SBN": DIFFERENCE, "LPN": LOGICAL_PRODUCT, "LMN": LOGICAL_DIFFERENCE, "RAD": SUM},
    {"LDN": MOVED, "LCN": COMPLEMENT, "AOD": ONE_MORE, "SOD": ONE_LESS}))
LOW_OF = {SUM: LOW_SUM, ONE_MORE: LOW_ONE_MORE, ONE_LESS: LOW_ONE_LESS}
BLOCKS, INDIRECT_CODES, INDEXED_CODES = ROWS["CRM"], range(0o40, 0o50), (0o01, 0o02, *range(0o50, 0o60))
BY_A, BY_STATE = ([code for name in names.split() for code in ROWS[name]]
                  for names in ("ZJN NJN PJN MJN EXN CRD CWD", "AJM IJM FJM EJM IAN OAN ACN DCN FAN FNC"))


def constant(number: int) -> Kind:
    return (LINE_END if number == SYMBOL_OF_LINE_END else ZERO + number), ()


def made(operation: int, *reads: Reading) -> Kind:
    return operation, reads


class Looker:
    """A processor before its step, and where each place that it writes gets its number from."""

    def __init__(self, s: PlainProcessor) -> None:
        self.s, self.p, self.a = s, Reading(s.P), Reading(s.A)
        self.first, self.d = Reading(s.M(s.p), WORD), Reading(s.M(s.p), D)
        self.m, self.cell_d = Reading(s.M(s.p + 1), M), Reading(s.M(s.d))

    def register(self) -> Reading:
        return Reading(places.CLOCK if self.s.d == CHANNELS else self.s.REGISTER)

    def operand(self) -> Tuple[Reading, ...]:
        if self.s.code >= 0o30:
            return (Reading(self.s.M(self.s.address)),)
        return (self.d, self.m) if self.s.code >= 0o20 else (self.d,)

    def central(self, address: int, field: int) -> Kind:
        return made(MOVED, Reading(C + address, field)) if address < self.s.machine.central else made(NO_WORD)

    def joined(self, address: int) -> Kind:
        return made(JOINED, *(Reading(self.s.M(address + i)) for i in range(5)))

    # ---- an instruction

    def of_a(self) -> Kind:
        code = self.s.code
        if code in OF_A:
            return made(OF_A[code], self.a, *self.operand())
        if code in OF_OPERAND:
            return made(OF_OPERAND[code], *self.operand())
        return made(MOVED, Reading(FRAME, PROGRAM_ADDRESS) if code == 0o27 else self.register())

    def of_p(self, has_jumped: bool) -> Kind:
        code = self.s.code
        if not has_jumped:
            return made(AFTER2 if code in TWO_WORDS else AFTER1, self.p)
        if code in (0o01, 0o02):
            plain, indexed = ((MOVED, INDEXED), (AFTER1, AFTER_INDEXED))[code - 1]
            return made(indexed, self.m, self.cell_d) if self.s.d else made(plain, self.m)
        return made(RELATIVE, self.p, self.d) if code < 0o10 else made(MOVED, self.m)

    def of_cell(self, place: int) -> Kind:
        code = self.s.code
        if code == 0o02:
            return made(AFTER2, self.p)
        if code in BLOCKS:
            return made(AFTER1, self.p)
        if code == 0o60:
            return self.central(self.s.a, FIRST + (place - self.s.M(self.s.d)) % CELLS)
        operation, reads = self.of_a() if code & 7 != 4 else (MOVED, ())
        return made(LOW_OF[operation], *reads) if reads else made(MOVED, Reading(self.s.A, LOW))

    def of_instruction(self, place: int, has_jumped: bool) -> Kind:
        s = self.s
        if place == s.P:
            return self.of_p(has_jumped)
        if place == s.A:
            return self.of_a()
        if place == s.Q:
            return made(MOVED, self.cell_d)
        if place == s.PHASE:
            return made(MOVED, self.first)
        if place == s.REGISTER:
            return made(MOVED, self.m if s.code == 0o77 else Reading(s.A, LOW))
        if FRAME <= place < FRAME + FRAME_WORDS:
            return self.central((s.a + place - FRAME) % 0o1000000, WHOLE if place > FRAME else WITHOUT_B0)
        if place >= C:
            return self.joined(s.d) if s.code == 0o62 else made(MOVED, Reading(FRAME + (place - C - s.a) % 0o1000000))
        return self.of_cell(place)

    # ---- a block transfer

    def of_block(self, place: int, ends: bool) -> Kind:
        s, is_central = self.s, self.s.code in (0o61, 0o63)
        if place == s.P:
            is_cleared = ends and s.p == 0 and s.code == 0o71 and s.a > 0
            return (constant(1) if is_cleared else made(AFTER1, Reading(s.M(0))) if ends
                    else made(AFTER5 if is_central else AFTER1, self.p))
        if place == s.A:
            return made(CENTRAL_AFTER if is_central else COUNT_DOWN, self.a)
        if place == s.Q:
            return made(COUNT_DOWN, Reading(s.Q))
        if place == s.REGISTER:
            return made(MOVED, Reading(s.M(s.p)))
        if place >= C:
            return self.joined(s.p)
        if is_central:
            return self.central(s.a, FIRST + (place - s.M(s.p)) % CELLS)
        return made(MOVED, self.register())


def of_processor(machine: Machine) -> List[Origin]:
    """Returns the origins of what the processor in the slot will write."""
    s = machine.processors[machine.numbers[places.SLOT]]
    writes = processor(machine)[1]
    look = Looker(s)
    if s.phase:
        ends = s.PHASE in writes
        is_constant = {s.PHASE, STATE + s.d, *([s.M(s.p)] if ends else [])}
        kinds = {place: constant(number) if place in is_constant else look.of_block(place, ends)
                 for place, number in writes.items()}
    else:
        effect = CODES[s.code][2](s) or {}
        kinds = {place: constant(number) if place == STATE + s.d else look.of_instruction(place, s.P in effect)
                 for place, number in writes.items()}
    return [Origin(place, *kind) for place, kind in kinds.items()]


def of_device(machine: Machine, part: Part) -> List[Origin]:
    """Returns the origins of what the reader or the printer will write."""
    numbers, writes = machine.numbers, part(machine)[1]
    register = H + (machine.reader if part is reader else machine.printer)
    kinds: Dict[int, Kind] = {}
    for place, number in writes.items():
        if place in (CARD, PAPER_LENGTH, PAPER_COLUMN, CARD_COLUMN) and (number or place == PAPER_LENGTH):
            if place != CARD or number != numbers[CARD]:
                kinds[place] = made((MOVED, COUNT_UP, COUNT_UP2)[number - numbers[place]], Reading(place))
        elif place == register and part is reader and numbers[READER_MODE] == READING:
            kinds[place] = made(PUNCHED, Reading(CARD), Reading(CARD_COLUMN))
        elif place >= PAPER and place < C and number != SYMBOL_OF_LINE_END:
            kinds[place] = made(MOVED, Reading(register, UPPER_SIX if place == PAPER + numbers[PAPER_LENGTH] else LOWER_SIX))
        elif place != CARD:
            kinds[place] = constant(number)
    return [Origin(place, *kind) for place, kind in kinds.items()]


def of_barrel(machine: Machine) -> List[Origin]:
    """Returns the origins of the clock and the slot."""
    is_last = machine.numbers[places.SLOT] == places.PROCESSORS - 1
    clock = [Origin(places.CLOCK, AFTER1, (Reading(places.CLOCK),))] if is_last else []
    return [*clock, Origin(places.SLOT, NEXT_SLOT, (Reading(places.SLOT),))]


def next_turn(machine: Machine) -> Origins:
    """Returns the next turn, with the origins of what its processor will write."""
    found = of_processor(machine)
    s = machine.processors[machine.numbers[places.SLOT]]
    address = (s.cell(0) - 1) % CELLS if s.phase else s.p
    acted = IN_BLOCK if s.phase else PASSED if s.code in (0o00, 0o24, 0o25) else ACTED
    return Origins(s.n, address, s.code << 6 | s.d, acted if found else WAITED, found, control=control_places(s))


def control_places(s: PlainProcessor) -> List[int]:
    """Returns the places whose numbers decide what the step of a processor reads and writes."""
    code, state = s.code, [STATE + s.d] if s.d < CHANNELS else []
    first = [places.SLOT, s.PHASE, s.P]
    if s.phase:
        return [*first, *([s.A, s.Q] if code in (0o61, 0o63) else [s.A, *state] if code in BLOCKS else [])]
    by_address = [s.M(s.p + 1)] if code in INDEXED_CODES else []
    by_address += [s.M(s.d)] if code in INDIRECT_CODES or s.d and code in INDEXED_CODES else []
    return [*first, s.M(s.p), *by_address, *([s.A] if code in BY_A else []), *(state if code in BY_STATE else [])]


def turn(machine: Machine) -> Tuple[Origins, Record]:
    """Makes a turn. Returns it with all origins, and its record."""
    made, others = next_turn(machine), []

    def told(part: Part, origins: Callable[[Machine], List[Origin]]) -> Part:
        def performed(machine: Machine) -> Step:
            others.extend(origins(machine))
            return part(machine)
        return performed

    devices = [told(part, partial(of_device, part=part)) for part in (reader, printer)]
    record = machine.act(processor, *devices, told(barrel, of_barrel))
    return made._replace(others=others), record
