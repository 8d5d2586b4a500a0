"""The whole machine at one position, and the difference of two.

A state has the numbers of the machine as the engine has them, and their digits are made when they are asked for: so to read one
takes milliseconds although it has 41,000 cells."""

from __future__ import annotations

from itertools import zip_longest
from typing import Iterable, Iterator, List, Mapping, NamedTuple, Optional, Sequence, Tuple, Union

from ..engine import interface as flat
from .console import Console
from .forms import CELLS, CHANNELS, CLOCK, MODES, PROCESSORS, ROW, STATES, Place, fields
from .turn import Processor

Difference = Tuple[str, str, str]  # a place, and its numbers in two states
Numbers = Union[Sequence[int], Mapping[int, int]]  # of the machine by their places
OF_PROCESSOR = ("P", "A", "Q", "PHASE", "M")  # kinds, in the order in which they are shown
SHOWN = ("H", "XP", "CR CARD", "CR COLUMN", "CR MODE", "LP SYMBOLS", "LP COLUMN", "LP MODE", "C")


class Channel(NamedTuple):
    """A channel, or the clock."""

    number: str
    state: str  # I, E, F or X
    register: str


class Reader(NamedTuple):
    """The card reader."""

    channel: str
    card: str
    cards: str
    column: str
    mode: str


class Printer(NamedTuple):
    """The printer. A line of its paper begins with |, and one that is not finished with /."""

    channel: str
    symbols: str
    column: str
    mode: str
    paper: List[str]


class Memory:
    """The cells of a processor, or the words of central memory."""

    def __init__(self, numbers: Sequence[int]) -> None:
        self.numbers = numbers

    def number(self, address: int) -> int:
        """Returns the number in a cell; after cell 7777 comes cell 0000."""
        return self.numbers[address % CELLS]

    def word(self, address: int) -> str:
        """As `number`, but its digits."""
        return f"{self.numbers[address % CELLS]:04o}"

    def row(self, address: int) -> str:
        """Returns the line of a DUMP M that has a cell."""
        first = address % CELLS - address % ROW
        return " ".join([f"{first:04o}", *(f"{number:04o}" for number in self.numbers[first:first + ROW])])

    @property
    def rows(self) -> List[str]:
        """The lines of a DUMP M of all cells."""
        return list(map(self.row, range(0, CELLS, ROW)))

    def find(self, wanted: Sequence[int], first: int) -> Optional[int]:
        """Returns the first address, from `first` on and round to it, at which words are; or None."""
        cells, size = [*self.numbers, *self.numbers], len(self.numbers)
        return next((at % size for at in range(first % size, first % size + size) if cells[at:at + len(wanted)] == wanted), None)


class State:
    """All numbers of the machine: `slot`, `processors`, `memories`, `channels` (the clock is the last), `watched` (places),
    `printer`, `reader`, and `central`: the central words, if they were asked for."""

    def __init__(self, console: Console, with_central: bool = False) -> None:
        self.numbers = numbers = console.engine.numbers(0, flat.PAPER)
        self.slot = console.slot()
        self.memories = [Memory(numbers[CELLS * number:CELLS * (number + 1)]) for number in range(PROCESSORS)]
        self.processors = [Processor.read(number, numbers.__getitem__) for number in range(PROCESSORS)]
        registers = [f"{numbers[flat.REGISTERS + number]:04o}" for number in range(CLOCK + 1)]
        self.channels = [Channel(f"{number:02o}", state, register)
                         for number, (state, register) in enumerate(zip(self.states(), registers))]
        self.watched = [Place.parse(line[2:]) for line in console.demand("DUMP W") if line != "W NONE"]
        printer, *paper = console.printer()
        channel, symbols, column, mode = fields(printer).values()
        self.printer = Printer(channel, symbols, column, mode, paper)
        self.reader = Reader(*fields(console.reader()).values())
        self.central = central_of(console) if with_central else ()

    def watched_cells(self, processor: int) -> List[int]:
        """Returns the addresses of the watched cells of a processor."""
        return [place.numbers[1] for place in self.watched if place.kind == "M" and place.numbers[0] == processor]

    def number_at(self, place: Place) -> str:
        """Returns the digits of the number at a place."""
        number = self.central[place.numbers[0]] if place.kind == "C" else self.numbers[place.number]
        return f"{number:0{place.digits}o}"

    @property
    def clock(self) -> str:
        return self.channels[CLOCK].register

    def states(self) -> List[str]:
        """Returns the states of the channels and the clock."""
        return [*(STATES[self.numbers[flat.STATES + number]] for number in range(CHANNELS)), "F"]

    def differences(self, other: State) -> Iterator[Difference]:
        """Yields the places in which two states differ, with the number of each; of the paper the lines. Central words are not
        compared: they are many."""
        places = [place for place, (one, two) in enumerate(zip(self.numbers, other.numbers)) if one != two]
        yield from differences(places, self.numbers, other.numbers)
        if self.reader.cards != other.reader.cards:
            yield "CR OF", self.reader.cards, other.reader.cards
        for number, (one, two) in enumerate(zip_longest(self.printer.paper, other.printer.paper, fillvalue="NONE"), 1):
            if one != two:
                yield f"PAPER LINE {number:o}", one, two


state_of = State


def named(number: int, numbers: Numbers) -> Tuple[str, str]:
    """Returns a place and its number as the tools show them; of a channel with its state."""
    place = Place.at(number)
    if place.kind in MODES:
        return place.kind, MODES[place.kind][numbers[number]]
    digits = f"{numbers[number]:0{place.digits}o}"
    if place.kind == "H":
        channel, = place.numbers
        return place.text, f"{STATES[numbers[flat.STATES + channel]] if channel < CLOCK else 'F'} {digits}"
    return place.text, digits


def differences(places: Iterable[int], before: Numbers, after: Numbers) -> List[Difference]:
    """Returns places with the numbers before and after, in the order in which the tools show them. The slot and the symbols of the
    paper are not shown."""
    shown = []
    for place in {at + flat.REGISTERS - flat.STATES if flat.STATES <= at < flat.REGISTERS else at for at in places}:
        kind, numbers = Place.at(place)
        if kind in OF_PROCESSOR:
            shown.append(((0, numbers[0], OF_PROCESSOR.index(kind)), place))
        elif kind in SHOWN:
            shown.append(((1, SHOWN.index(kind), 0), place))
    return [(*named(place, before), named(place, after)[1]) for _, place in sorted(shown)]


def central_of(console: Console) -> Sequence[int]:
    """Returns the number of each central word."""
    return console.engine.numbers(flat.CENTRAL, console.central_size)


def central_differences(one: Sequence[int], other: Sequence[int]) -> List[Difference]:
    """Returns the differences of the central words of two machines."""
    if one == other:
        return []
    differ = [at for at, (first, second) in enumerate(zip(one, other), flat.CENTRAL) if first != second]
    return differences(differ, *({at: words[at - flat.CENTRAL] for at in differ} for words in (one, other)))
