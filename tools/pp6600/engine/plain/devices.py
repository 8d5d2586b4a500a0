"""A step of the card reader and of the printer. Each returns what it is, which the tests count, and what it writes."""

from __future__ import annotations

from typing import TYPE_CHECKING

from .instructions import Step
from .places import (
    CARD, CARD_COLUMN, EMPTY, FULL, FUNCTION, INACTIVE, PAPER, PAPER_COLUMN, PAPER_LENGTH, PAPER_SYMBOLS, PRINTER_MODE, READER_MODE,
    STATE, H)

if TYPE_CHECKING:
    from .machine import Machine

IDLE, READING, STATUS, SENT = range(4)
PRINTING = READING  # each device has modes of its own
COLUMNS, PAPER_WIDTH, LINE_END = 80, 136, 0o100


def reader(machine: Machine) -> Step:
    """A step of the card reader."""
    numbers, place = machine.numbers, STATE + machine.reader
    state, mode = numbers[place], numbers[READER_MODE]
    if state == FUNCTION:
        return reader_function(machine)
    if state != EMPTY or mode == IDLE:
        return "reader nothing", {}
    card, column = numbers[CARD], numbers[CARD_COLUMN]
    if mode == READING and column < COLUMNS:
        columns = machine.deck[card]
        number = columns[column] if column < len(columns) else 0
        return "reader column", {H + machine.reader: number, place: FULL, CARD_COLUMN: column + 1}
    if mode == READING:
        return "reader card end", {place: INACTIVE, CARD: card + 1, CARD_COLUMN: 0, READER_MODE: IDLE}
    if mode == STATUS:
        is_left = card < len(machine.deck)
        return f"reader status {is_left}", {H + machine.reader: 0 if is_left else 1, place: FULL, READER_MODE: SENT}
    return "reader sent", {place: INACTIVE, READER_MODE: IDLE}


def reader_function(machine: Machine) -> Step:
    numbers, place = machine.numbers, STATE + machine.reader
    card, column = numbers[CARD], numbers[CARD_COLUMN]
    if numbers[H + machine.reader] == 1:
        begun = 1 if column > 0 else 0
        mode = READING if len(machine.deck) - card > begun else IDLE
        return f"reader 0001 mode {mode}", {place: INACTIVE, CARD: card + begun, CARD_COLUMN: 0, READER_MODE: mode}
    if numbers[H + machine.reader] == 2:
        return "reader 0002", {place: INACTIVE, READER_MODE: STATUS}
    return "reader nothing", {}


def printer(machine: Machine) -> Step:
    """A step of the printer."""
    numbers, place = machine.numbers, STATE + machine.printer
    state, mode = numbers[place], numbers[PRINTER_MODE]
    if state == FUNCTION:
        return printer_function(machine)
    room = PAPER_SYMBOLS - numbers[PAPER_LENGTH]
    if state == FULL and mode == PRINTING and room >= 2:
        return printed(machine)
    if state == EMPTY and mode == STATUS:
        return f"printer status {room >= 2}", {H + machine.printer: 0 if room >= 2 else 1, place: FULL, PRINTER_MODE: SENT}
    if state == EMPTY and mode == SENT:
        return "printer sent", {place: INACTIVE, PRINTER_MODE: IDLE}
    return "printer nothing", {}


def printed(machine: Machine) -> Step:
    numbers = machine.numbers
    length, column, word = numbers[PAPER_LENGTH], numbers[PAPER_COLUMN], numbers[H + machine.printer]
    symbols = (word >> 6, word & 0o77)[:PAPER_WIDTH - column]
    on_paper = {PAPER + length + i: symbol for i, symbol in enumerate(symbols)}
    grown = {PAPER_LENGTH: length + len(symbols), PAPER_COLUMN: column + len(symbols)}
    return f"printer prints {len(symbols)}", {STATE + machine.printer: EMPTY, **on_paper, **grown}


def printer_function(machine: Machine) -> Step:
    numbers, place = machine.numbers, STATE + machine.printer
    function, length = numbers[H + machine.printer], numbers[PAPER_LENGTH]
    if function == 1:
        return "printer 0001", {place: INACTIVE, PRINTER_MODE: PRINTING}
    if function == 2:
        return "printer 0002", {place: INACTIVE, PRINTER_MODE: STATUS}
    if function == 3 and length < PAPER_SYMBOLS:
        return "printer 0003", {place: INACTIVE, PAPER + length: LINE_END, PAPER_LENGTH: length + 1, PAPER_COLUMN: 0}
    return "printer nothing", {}
