"""The lines of the console, and their answers."""

from __future__ import annotations

import re
from typing import Any, Callable, Dict, List, Optional, Sequence, Tuple, Union

from .machine import Machine, Record, dead_start
from .places import (
    CARD, CARD_COLUMN, CELLS, CHANNELS, FRAME, FRAME_WORDS, PAPER, PAPER_COLUMN, PAPER_LENGTH, PHASE, PRINTER_MODE, READER_MODE,
    SLOT, STATE, WATCHES, A, C, H, M, P, Q, place_of)

ERRORS = (
    "", "NOT A COMMAND", "WORDS", "NUMBER", "RANGE", "LINE TOO LONG", "NOT ASCII", "TOO FEW KEPT", "NO CHANGE KEPT",
    "WATCHES FULL", "ALREADY WATCHED", "NOT WATCHED", "NO PANEL", "NOTHING WATCHED", "TOO FEW AHEAD")
READER_MODES, PRINTER_MODES = ("IDLE", "READING", "STATUS", "SENT"), ("IDLE", "PRINTING", "STATUS", "SENT")
SYMBOLS = ":ABCDEFGHIJKLMNOPQRSTUVWXYZ0123456789+-*/()$= ,.#[]%\"_!&'?<>@\\^;"
LONGEST_LINE, MOST_WATCHES = 255, 8
words_of = re.compile("[^ \t]+").findall
is_octal = re.compile("[0-7]+").fullmatch
has_other_bytes = re.compile(rb"[^\t -~]").search

Watch = Tuple[Any, ...]  # a kind and its numbers, as they are typed
Operand = Union[int, str]
Answer = Optional[List[str]]  # None stands for OK


class Rejected(Exception):
    """Of a line, with the number of the error; of words or files of the program, with the exit status and the text."""


def reject_if(condition: bool, *reason: Union[int, str]) -> None:
    if condition:
        raise Rejected(*reason)


def place_text(kind: str, *numbers: int) -> str:
    width = {"C": 6}.get(kind, 2)
    return " ".join([kind, f"{numbers[0]:0{width}o}", *(f"{address:04o}" for address in numbers[1:])])


class PlainConsole:
    """Answers the lines of one session. Each method below `operands` performs a form of a line; None stands for OK."""

    def __init__(self, machine: Machine) -> None:
        self.machine = machine
        # The least and the greatest number of each kind of operand; S is a state letter.
        self.ranges = {
            "n": (0, 0o11), "a": (0, 0o7777), "c": (0, machine.central - 1), "h": (0, 0o13), "h14": (0, 0o14),
            "12": (0, 0o7777), "18": (0, 0o777777), "60": (0, 2 ** 60 - 1), "count": (1, 0o1000000)}

    def answer(self, line: bytes) -> List[str]:
        """Returns the lines of the answer to a line of bytes."""
        try:
            reject_if(len(line) > LONGEST_LINE, 0o05)
            reject_if(has_other_bytes(line) is not None, 0o06)
            words = words_of(line.decode("ascii").upper())
            return [] if not words or words[0].startswith("*") else self.perform(words)
        except Rejected as rejected:
            number, = rejected.args
            return [f"ERR {number:02o} {ERRORS[number]}"]

    def perform(self, words: List[str]) -> List[str]:
        form = " ".join(words[:2])
        if form not in FORMS:
            form = words[0]
            reject_if(form not in COMMANDS or form not in FORMS and len(words) > 1, 0o01)
            reject_if(form not in FORMS, 0o02)
        kind = form.split()[1:]
        kinds, least, method = FORMS[form]
        operands = self.operands(kinds.split(), least, words[1 + len(kind):])
        answer = method(self, *kind, *operands)
        return ["OK"] if answer is None else answer

    def operands(self, kinds: List[str], least: int, words: List[str]) -> List[Operand]:
        pairs = list(zip(kinds, words))
        reject_if(any(kind == "S" and word not in ("I", "E", "F") for kind, word in pairs), 0o01)
        reject_if(not least <= len(words) <= len(kinds), 0o02)
        reject_if(not all(kind == "S" or is_octal(word) for kind, word in pairs), 0o03)
        operands: List[Operand] = [word if kind == "S" else int(word, 8) for kind, word in pairs]
        for kind, number in zip(kinds, operands):
            if isinstance(number, int):
                lowest, greatest = self.ranges[kind]
                reject_if(not lowest <= number <= greatest, 0o04)
        return operands

    def set(self, writes: Dict[int, Any]) -> None:
        self.machine.act(lambda machine: ("set", writes))

    def set_cells(self, kind: str, n: int, a: int, *numbers: int) -> None:
        self.set({place_of("M", n, (a + i) % CELLS): number for i, number in enumerate(numbers)})

    def set_number(self, kind: str, which: int, number: int) -> None:
        self.set({place_of(kind, which): number, **({PHASE + which: 0} if kind == "P" else {})})

    def set_channel(self, kind: str, c: int, letter: str, *register: int) -> None:
        self.set({STATE + c: "IEF".index(letter), **{H + c: number for number in register}})

    def slot(self) -> str:
        return f"SLOT {self.machine.numbers[SLOT]:02o}"

    def watches(self) -> Sequence[Watch]:
        return self.machine.numbers[WATCHES] or ()

    def step(self, count: int = 1) -> Answer:
        watches = self.watches()
        for turns in range(1, count + 1):
            record = self.machine.turn()
            if watches and (hit := self.hit(record, watches)):
                return [f"TURNS {turns:o} {self.slot()}", hit]
        return [f"TURNS {count:o} {self.slot()}"]

    def hit(self, record: Record, watches: Sequence[Watch]) -> Optional[str]:
        """Returns the line of the first watch whose number the last turn changed."""
        for watch in watches:
            place = place_of(*watch)
            was, now = record.get(place), self.machine.numbers[place]
            if was is not None and was != now:
                width = {"A": 6, "C": 20}.get(watch[0], 4)
                return f"HIT {place_text(*watch)} {was:0{width}o} {now:0{width}o}"
        return None

    def back(self, count: int = 1) -> Answer:
        reject_if(count > len(self.machine.history), 0o07)
        for _ in range(count):
            self.machine.back()
        return [f"BACK {count:o} {self.slot()}"]

    def back_to_change(self, kind: str) -> Answer:
        reject_if(not self.watches(), 0o15)
        after = {place: self.machine.numbers[place] for place in (place_of(*watch) for watch in self.watches())}
        for count, record in enumerate(reversed(self.machine.history), 1):
            before = {place: record[place] for place in after if place in record}
            if any(after[place] != number for place, number in before.items()):
                return self.back(count)
            after.update(before)
        raise Rejected(0o10)

    def forward(self, count: int = 1) -> Answer:
        reject_if(count > len(self.machine.ahead), 0o16)
        for _ in range(count):
            self.machine.forward()
        return [f"FORWARD {count:o} {self.slot()}"]

    def watch(self, *watch: Operand) -> None:
        reject_if(len(self.watches()) == MOST_WATCHES, 0o11)
        reject_if(watch in self.watches(), 0o12)
        self.set({WATCHES: (*self.watches(), watch)})

    def unwatch(self, *watch: Operand) -> None:
        reject_if(watch not in self.watches(), 0o13)
        self.set({WATCHES: tuple(watched for watched in self.watches() if watched != watch)})

    def dead_start(self) -> None:
        reject_if(self.machine.panel is None, 0o14)
        self.machine.act(dead_start)

    def dump_cells(self, kind: str, n: int, a: int, b: int) -> Answer:
        reject_if(a > b, 0o04)
        rows = [range(row, min(row + 8, b + 1)) for row in range(a, b + 1, 8)]
        numbers, memory = self.machine.numbers, M + n * CELLS
        return [f"{row[0]:04o} " + " ".join([f"{numbers[memory + i]:04o}" for i in row]) for row in rows]

    def dump_processor(self, kind: str, n: int) -> Answer:
        p, a, q, phase = (self.machine.numbers[first + n] for first in (P, A, Q, PHASE))
        return [f"PP {n:02o} P {p:04o} A {a:06o} Q {q:04o} PHASE {phase:04o} {self.slot()}"]

    def dump_channels(self, kind: str) -> Answer:
        numbers = self.machine.numbers
        states = ["IEFX"[numbers[STATE + c]] for c in range(CHANNELS)] + ["F"]
        return [f"H {c:02o} {state} {numbers[H + c]:04o}" for c, state in enumerate(states)]

    def dump_central(self, kind: str, a: int, b: int) -> Answer:
        reject_if(a > b, 0o04)
        return [f"C {i:06o} {self.machine.numbers[C + i]:020o}" for i in range(a, b + 1)]

    def dump_frame(self, kind: str) -> Answer:
        return [f"XP {i:02o} {self.machine.numbers[FRAME + i]:020o}" for i in range(FRAME_WORDS)]

    def dump_reader(self, kind: str) -> Answer:
        machine, numbers = self.machine, self.machine.numbers
        return [f"CR H {machine.reader:02o} CARD {numbers[CARD]:04o} OF {len(machine.deck):04o} "
                f"COLUMN {numbers[CARD_COLUMN]:03o} MODE {READER_MODES[numbers[READER_MODE]]}"]

    def dump_printer(self, kind: str) -> Answer:
        machine, numbers = self.machine, self.machine.numbers
        paper = "".join((SYMBOLS + "\n")[numbers[PAPER + i]] for i in range(numbers[PAPER_LENGTH]))
        *printed, rest = paper.split("\n")
        return [f"LP H {machine.printer:02o} SYMBOLS {len(paper):06o} COLUMN {numbers[PAPER_COLUMN]:03o} "
                f"MODE {PRINTER_MODES[numbers[PRINTER_MODE]]}",
                *("|" + line for line in printed), *(["/" + rest] if rest else [])]

    def dump_watches(self, kind: str) -> Answer:
        return ["W " + place_text(*watch) for watch in self.watches()] or ["W NONE"]


# Each form of a line: the kinds of its operands, how many must be present, and its method.
PLACES = {"M": "n a", "A": "n", "P": "n", "Q": "n", "C": "c", "H": "h14"}
FORMS: Dict[str, Tuple[str, int, Callable[..., Answer]]] = {
    "SET M": ("n a 12 12 12 12 12 12 12 12", 3, PlainConsole.set_cells),
    "SET A": ("n 18", 2, PlainConsole.set_number),
    "SET P": ("n 12", 2, PlainConsole.set_number),
    "SET Q": ("n 12", 2, PlainConsole.set_number),
    "SET C": ("c 60", 2, PlainConsole.set_number),
    "SET H": ("h S 12", 2, PlainConsole.set_channel),
    "STEP": ("count", 0, PlainConsole.step),
    "BACK": ("count", 0, PlainConsole.back),
    "BACK W": ("", 0, PlainConsole.back_to_change),
    "FORWARD": ("count", 0, PlainConsole.forward),
    **{f"WATCH {kind}": (kinds, len(kinds.split()), PlainConsole.watch) for kind, kinds in PLACES.items()},
    **{f"UNWATCH {kind}": (kinds, len(kinds.split()), PlainConsole.unwatch) for kind, kinds in PLACES.items()},
    "DEADSTART": ("", 0, PlainConsole.dead_start),
    "DUMP M": ("n a a", 3, PlainConsole.dump_cells),
    "DUMP PP": ("n", 1, PlainConsole.dump_processor),
    "DUMP H": ("", 0, PlainConsole.dump_channels),
    "DUMP C": ("c c", 2, PlainConsole.dump_central),
    "DUMP XP": ("", 0, PlainConsole.dump_frame),
    "DUMP CR": ("", 0, PlainConsole.dump_reader),
    "DUMP LP": ("", 0, PlainConsole.dump_printer),
    "DUMP W": ("", 0, PlainConsole.dump_watches),
}
COMMANDS = {form.split()[0] for form in FORMS}
