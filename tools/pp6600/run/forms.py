"""The words of the console: the places of the machine, and the named fields of answers, which docs/CONSOLE.md describes."""

from __future__ import annotations

import bisect
import re
from typing import Dict, Iterable, List, NamedTuple, Optional, Sequence, Tuple

from ..engine.interface import FIRST
from ..failure import Failure

PROCESSORS = 10
CHANNELS = 12
CLOCK = 0o14  # the number of the clock after those of the channels
CELLS = 0o10000  # of a processor
ROW = 8  # cells in a row of a dump
ROWS = CELLS // ROW  # of a memory
FRAME_WORDS = 16
CENTRAL_ADDRESSES = 0o1000000  # those that A can hold
SYMBOLS_OF_PAPER = 0o200000  # at most
COLUMNS_OF_CARD = 80
MOST_TURNS = 0o1000000  # of one STEP
MOST_WATCHES = 8
REGISTERS = ("P", "A", "Q", "PHASE")
MODES = {"CR MODE": ("IDLE", "READING", "STATUS", "SENT"), "LP MODE": ("IDLE", "PRINTING", "STATUS", "SENT")}  # of the devices
STATES = "IEFX"  # of a channel: inactive, empty, full with data, full with a function code

Registers = Dict[str, str]  # the registers of a processor by their names, each as its digits


class Kind(NamedTuple):
    """A kind of places: how many there are by each of its numbers, the widths of these, and that of the number at a place."""

    sizes: Tuple[int, ...]
    widths: Tuple[int, ...]
    digits: int


KINDS = {
    "M": Kind((PROCESSORS, CELLS), (2, 4), 4),
    "A": Kind((PROCESSORS,), (2,), 6),
    "P": Kind((PROCESSORS,), (2,), 4),
    "Q": Kind((PROCESSORS,), (2,), 4),
    "C": Kind((CENTRAL_ADDRESSES,), (6,), 20),
    "H": Kind((CLOCK + 1,), (2,), 4),
}
# Places that can't be watched: words of the frame, symbols of the paper, the phases of processors, the states of channels, and what
# the devices are at.
UNWATCHED = {
    "XP": Kind((FRAME_WORDS,), (2,), 20),
    "LP": Kind((SYMBOLS_OF_PAPER,), (6,), 2),
    "PHASE": Kind((PROCESSORS,), (2,), 4),
    "S": Kind((CHANNELS,), (2,), 1),
    "CR CARD": Kind((), (), 4), "CR COLUMN": Kind((), (), 3), "CR MODE": Kind((), (), 1),
    "LP SYMBOLS": Kind((), (), 6), "LP COLUMN": Kind((), (), 3), "LP MODE": Kind((), (), 1),
}
ALL_KINDS = {**KINDS, **UNWATCHED}
IN_ORDER, FIRSTS = list(FIRST), list(FIRST.values())
ONE = [kind for kind in FIRST if " " in kind or kind == "SLOT"]  # kinds with one place


class Place(NamedTuple):
    """A place of the machine. Places have an order: by kind, then by their numbers."""

    kind: str
    numbers: Tuple[int, ...]

    @classmethod
    def parse(cls, text: str) -> Place:
        """Returns the place of a text that is one which can be watched, as M 0 106 or A 00."""
        place, rest = cls.first_of(text.split())
        if rest:
            raise Failure(f"{text} does not name one place")
        return place

    @classmethod
    def first_of(cls, words: List[str], also: Sequence[str] = ()) -> Tuple[Place, List[str]]:
        """Returns the place that the words begin with, and the words after it: one that can be watched, or of kinds that are
        allowed also. The simulator says which places there are."""
        kind = words[0].upper() if words else ""
        end = 1 + len(ALL_KINDS[kind].sizes) if kind in (*KINDS, *also) else 0
        if not 0 < end <= len(words):
            more = f"; also {' or '.join(also)} with a number" if also else ""
            raise Failure(f"a place is M n a, A n, P n, Q n, C a or H c, as on a console line{more}")
        return cls(kind, tuple(map(octal, words[1:end]))), words[end:]

    @classmethod
    def at(cls, number: int) -> Place:
        """Returns the place with a number in the flat order of the engines."""
        kind = IN_ORDER[bisect.bisect_right(FIRSTS, number) - 1]
        at = number - FIRST[kind]
        return cls(kind, divmod(at, CELLS) if kind == "M" else () if kind in ONE else (at,))

    @property
    def number(self) -> int:
        """Its number in the flat order of the engines."""
        return FIRST[self.kind] + (CELLS * self.numbers[0] + self.numbers[1] if self.kind == "M" else sum(self.numbers))

    @property
    def text(self) -> str:
        """The place as answers have it, as M 00 0106."""
        return " ".join([self.kind, *(f"{number:0{width}o}" for number, width in zip(self.numbers, ALL_KINDS[self.kind].widths))])

    @property
    def short(self) -> str:
        """The place without leading zeros, as M 0 106."""
        return " ".join([self.kind, *(f"{number:o}" for number in self.numbers)])

    @property
    def digits(self) -> int:
        """How many digits the number at the place has."""
        return ALL_KINDS[self.kind].digits

    @property
    def exists(self) -> bool:
        """Whether the machine has it; of a central word and a symbol of the paper it depends on the machine."""
        return all(number < size for number, size in zip(self.numbers, ALL_KINDS[self.kind].sizes))


def octal(text: str) -> int:
    """Returns a number that is typed."""
    if not re.fullmatch("[0-7]+", text):
        raise Failure(f"{text} is not octal")
    return int(text, 8)


def ranges_of(numbers: Iterable[int]) -> List[Tuple[int, int]]:
    """Returns some numbers as ranges, each by its first one and its size."""
    found: List[Tuple[int, int]] = []
    for number in sorted(numbers):
        if found and sum(found[-1]) == number:
            found[-1] = found[-1][0], found[-1][1] + 1
        else:
            found.append((number, 1))
    return found


def fields(line: str) -> Dict[str, str]:
    """Returns the fields of a line of DUMP PP, CR or LP, by their names."""
    words = line.split()
    return dict(zip(words[len(words) % 2::2], words[len(words) % 2 + 1::2]))


def hit_of(answer: Sequence[str]) -> Optional[str]:
    """Returns the line of an answer that says that a watched number changed, or None."""
    return next((line for line in answer[1:2] if line.startswith("HIT ")), None)


def refused(answers: Iterable[str]) -> Optional[str]:
    """Returns the first refusal among the lines of answers, or None."""
    return next((line for line in answers if line.startswith("ERR ")), None)
