"""Checks the machine of pp6600-python by the worked rows of crates/pp_worked, which were found by hand and are proved of the
program.

A row says that some steps lead from some numbers to others: of a processor, a device, or the whole machine. Not here: rows about
sums and shifts alone, which are no places of a machine, those about undo, and those about each x."""

import os
import re
import sys

from tests.support import TOP, Case

sys.path.insert(0, os.path.join(TOP, "docs"))
from evaluating.asking import definitions_of  # noqa: E402
from evaluating.examples import worked  # noqa: E402
from pp6600.engine.plain import places  # noqa: E402
from pp6600.engine.plain.devices import printer, reader  # noqa: E402
from pp6600.engine.plain.instructions import processor  # noqa: E402
from pp6600.engine.plain.machine import Machine, dead_start  # noqa: E402

PAIR = re.compile(r"\((\w+)(?: \(?(\w+)(?: (\w+))?\)?)?, (\w+)\)")  # a place and its number
READER, PRINTER = 0o12, 0o13
OF_PROCESSOR = {"P": places.P, "A": places.A, "Q": places.Q, "Phase": places.PHASE, "Cell": places.M, "State": places.STATE,
                "Register": places.H, "Clock": places.CLOCK, "Central": places.C, "FrameWord": places.FRAME}
OF_MACHINE = {"RegP": places.P, "RegA": places.A, "RegQ": places.Q, "Phase": places.PHASE, "ChannelMode": places.STATE,
              "ChannelWord": places.H, "Clock": places.CLOCK, "Slot": places.SLOT, "CardColumn": places.CARD_COLUMN,
              "ReaderMode": places.READER_MODE, "PrinterMode": places.PRINTER_MODE, "PaperLength": places.PAPER_LENGTH,
              "PaperColumn": places.PAPER_COLUMN, "PaperSymbol": places.PAPER}
OWN = {"Card": places.CARD, "Column": places.CARD_COLUMN, "Mode": places.READER_MODE, "PrinterMode": places.PRINTER_MODE,
       "Length": places.PAPER_LENGTH, "PaperColumn": places.PAPER_COLUMN, "Symbol": places.PAPER}


def parts(text):
    """Returns the words of a statement; what is in parentheses is one word."""
    found, depth, begin = [], 0, 0
    for at, letter in enumerate(f"{text} "):
        depth += (letter == "(") - (letter == ")")
        if letter == " " and depth == 0:
            found.append(text[begin:at])
            begin = at + 1
    return found


def numbers_of(text, place):
    """Returns the numbers of a list of pairs by their places."""
    return {place(*(word or "0" for word in pair[:3])): int(pair[3], 0) for pair in PAIR.findall(text)}


def of_processor(kind, which, _):
    return OF_PROCESSOR[kind] + int(which, 0)


def of_machine(kind, which, cell):
    return places.place_of("M", int(which, 0), int(cell, 0)) if kind == "Cell" else OF_MACHINE[kind] + int(which, 0)


def of_device(channel):
    """Returns the function to a place of the device on a channel."""
    def place(kind, which, cell):
        return {"AtState": places.STATE, "AtWord": places.H}[kind] + channel if kind != "AtOwn" else OWN[which] + int(cell, 0)
    return place


def deck_of(text):
    """Returns the deck of a row: one card, or none."""
    if text == "one_card":
        return [[1, 2, 3]]
    found = re.search(r"card (?:\[\]|\(([^)]*)\))", text)
    return [[int(word, 0) for word in re.findall(r"\w+", found[1] or "")]] if found else []


def after(machine, before, times, *steps):
    """Returns a machine that had some numbers, after steps; without one of them these are turns."""
    for place, number in before.items():
        machine.numbers[place] = number
    for _ in range(times):
        if steps:
            machine.act(*steps)
        else:
            machine.turn()
    return machine


def performed(kind, words):
    """Returns the machine at the end of a row, and the numbers that it must have; None of a row of another kind."""
    if kind == "Performs":
        return performed("Runs", ["1", f"({words[0]} ∷ [])", *words[1:]])
    if kind == "Runs":
        cells = {0o100 + at: int(word, 0) for at, word in enumerate(re.findall(r"\w+", words[1]))}
        before = {places.P: 0o100, **cells, **numbers_of(words[2], of_processor)}
        return after(Machine(central=0o2000), before, int(words[0], 0), processor), numbers_of(words[3], of_processor)
    if kind == "Leads" and len(words) == 3:
        machine = after(Machine(central=0o2000), numbers_of(words[0], of_processor), int(words[1], 0), processor)
        return machine, numbers_of(words[2], of_processor)
    if kind == "Leads":
        return (after(Machine(deck_of(words[0])), numbers_of(words[1], of_machine), int(words[2], 0)),
                numbers_of(words[3], of_machine))
    if kind == "ReaderLeads":
        place = of_device(READER)
        return after(Machine(deck_of(words[0])), numbers_of(words[1], place), 1, reader), numbers_of(words[2], place)
    if kind == "PrinterLeads":
        return after(Machine(), numbers_of(words[0], of_device(PRINTER)), 1, printer), numbers_of(words[1], of_device(PRINTER))
    if kind == "Shows":
        turns, begun = re.match(r"\((?:after (\w+) \()?dead_started (.*?)\)*$", words[0]).groups()
        panel = [0o1405, 0o3420, 0o300, *[0] * 9]
        machine = after(Machine(panel=panel), numbers_of(begun, of_machine), 1, dead_start)
        return after(machine, {}, int(turns or "0", 0)), numbers_of(words[1], of_machine)
    return None


class Rows(Case):
    def test_each(self):
        tried = 0
        for name, statement, _ in worked(TOP, definitions_of(TOP)):
            kind, *words = parts(statement)
            done = performed(kind, words)
            if done:
                machine, wanted = done
                tried += 1
                with self.subTest(name):
                    self.assertNotEqual({}, wanted)
                    self.assertEqual(wanted, {place: machine.numbers[place] for place in wanted})
        self.assertGreater(tried, 100)
