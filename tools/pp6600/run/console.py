"""A session on an engine by the lines of the console, and what there is to see of the machine."""

from __future__ import annotations

import functools
import re
from typing import Iterable, Iterator, List, Sequence, TypeVar, Union

from ..engine import interface as flat
from ..engine.choose import default_engine, engine_of
from ..engine.interface import Rejection
from ..failure import Failure
from .forms import CELLS, CLOCK, PROCESSORS, Place, Registers, fields, refused
from .turn import Cell, Processor

LONGEST_LINE = 255
COUNTED = re.compile(r"[ \t]*(STEP|BACK|FORWARD)(?:[ \t]+0*([1-7][0-7]{0,6}))?[ \t\r]*", re.I)
Self = TypeVar("Self", bound="Console")
NO_ANSWER = re.compile("[ \t]*([*][\t -~]*)?")  # a note, or a line without words


def checked_number(what: str, number: int) -> int:
    """Returns a number that a caller gives; what is no int, or is negative, is a failure."""
    if not isinstance(number, int) or number < 0:
        raise Failure(f"{what} is a number from 0 on, such as 0o12, and not {number!r:.40}")
    return number


def has_no_answer(line: str) -> bool:
    """Returns whether the simulator ignores a line."""
    line = line.removesuffix("\r")
    return len(line) <= LONGEST_LINE and NO_ANSWER.fullmatch(line) is not None


class Console:
    """A session of the simulator, by its lines. With `with` it is closed at the end of the block. What can't be done raises
    Failure: a number that the machine does not have, a line that the simulator rejects, an engine that does not start, a session
    that has ended."""

    def __init__(self, words: Sequence[str] = (), options: Sequence[str] = ()) -> None:
        """The words are the engine and the options of the program; without any it is the engine that the tools run on, with the
        options."""
        self.words = [*(words or [default_engine()]), *options]
        self.is_ended = False
        self.start()

    def __enter__(self: Self) -> Self:
        return self

    def __exit__(self, *_: object) -> None:
        self.close()

    def start(self) -> None:
        """Begins the session."""
        self.has_refused = False
        try:
            self.engine = engine_of(self.words[0], self.words[1:])
        except Rejection as rejection:
            raise Failure(f"the simulator ended early, with status {rejection.status}: {rejection.text}"
                          f"{file_of(self.words, rejection.text)}") from None

    # ---- lines and answers

    def ask(self, line: str) -> List[str]:
        """Returns the lines of the answer to any line of a script, without their ends. A rejected line has the one line ERR .."""
        if self.is_ended:
            raise Failure("the simulator has ended")
        answer = self.engine.answers(f"{line}\n")
        self.has_refused = self.has_refused or refused(answer) is not None
        return answer

    def ask_each(self, lines: Iterable[str]) -> Iterator[List[str]]:
        """Performs lines of a script, and yields the answer to each."""
        return map(self.ask, lines)

    def demand(self, line: str) -> List[str]:
        """Returns the answer to a line that must not be refused."""
        answer = self.ask(line)
        if refused(answer):
            raise Failure(f"the simulator answers {answer[0]} to {line}")
        return answer

    def end(self) -> int:
        """Ends the session, and returns the exit status (decimal): 0, or 1 if a line was rejected."""
        self.engine.close()
        self.is_ended = True
        return int(self.has_refused)

    def close(self) -> None:
        self.end()

    # ---- what there is to see

    def registers(self, processor: int) -> Registers:
        """Returns P, A, Q, PHASE and SLOT of a processor, 0 to 0o11, by their names, each as its octal digits."""
        registers = fields(self.demand(f"DUMP PP {checked_number('a processor', processor):o}")[0])
        del registers["PP"]
        return registers

    def cells(self, processor: int, first: int, last: int) -> List[str]:
        """Returns the words of the cells from first to last, at most 0o7777, each as its four octal digits."""
        checked_number("a processor", processor)
        rows = self.demand(f"DUMP M {processor:o} {checked_number('a cell', first):o} {checked_number('a cell', last):o}")
        return [word for row in rows for word in row.split()[1:]]

    def number_of(self, place: int) -> int:
        """Returns the number at a place of the flat order."""
        return self.engine.numbers(place, 1)[0]

    def slot(self) -> int:
        """Returns the processor whose turn comes next."""
        return self.number_of(flat.SLOT)

    def cell_of(self, processor: int) -> Cell:
        """Returns the function that reads the cells of a processor; after cell 7777 comes cell 0000."""
        return lambda address: self.number_of(flat.CELLS + CELLS * processor + address % CELLS)

    def processor(self, number: int) -> Processor:
        """Returns a processor as it is now."""
        return Processor.read(number, self.number_of)

    def channels(self) -> List[str]:
        """Returns a line of DUMP H for each channel and the clock, as H 03 E 0017."""
        return self.demand("DUMP H")

    def channel(self, number: int) -> str:
        """Returns the state and the register of a channel, 0 to 0o13, or of the clock, 0o14, as E 0017."""
        if checked_number("a channel", number) > CLOCK:
            raise Failure(f"a channel is 0 to 13, or 14 for the clock (octal), and not {number:o}")
        return self.channels()[number][5:]

    def central(self, first: int, last: int) -> List[str]:
        """Returns a line of DUMP C for each central word from first to last."""
        return self.demand(f"DUMP C {checked_number('a central address', first):o} {checked_number('a central address', last):o}")

    @property
    def central_size(self) -> int:
        """How many words central memory has."""
        return 0o2000 * int(self.words[self.words.index("--central") + 1] if "--central" in self.words else 128)

    def checked(self, place: Place) -> Place:
        """Returns a place; if the machine does not have it, that is a failure."""
        if not place.exists:
            raise Failure(f"there is no {place.short}")
        if place.kind == "C" and place.numbers[0] >= self.central_size:
            raise Failure(f"there is no {place.short}: central memory has {self.central_size:o} words (octal)")
        return place

    @functools.cached_property
    def reader_channel(self) -> int:
        return int(fields(self.reader())["H"], 8)

    @functools.cached_property
    def printer_channel(self) -> int:
        return int(fields(self.printer()[0])["H"], 8)

    def frame(self) -> List[str]:
        """Returns a line of DUMP XP for each of the sixteen (decimal) words of the exchange package."""
        return self.demand("DUMP XP")

    def reader(self) -> str:
        """Returns the line of DUMP CR."""
        return self.demand("DUMP CR")[0]

    def printer(self) -> List[str]:
        """Returns the printer's line and the lines of its paper."""
        return self.demand("DUMP LP")

    def number(self, place: Union[str, Place]) -> str:
        """Returns the octal digits of the number at a place, which is a text as M 0 106 or a Place."""
        return self.number_at(Place.parse(place) if isinstance(place, str) else place)

    def number_at(self, place: Place) -> str:
        """Returns the digits of the number at a place of any kind but a symbol of the paper."""
        kind, numbers = place
        if kind == "C":
            return self.central(numbers[0], numbers[0])[0].split()[2]
        if not place.exists:  # which is refused
            look = {"M": lambda: self.cells(numbers[0], numbers[1], numbers[1]), "H": lambda: self.channel(numbers[0])}
            look.get(kind, lambda: self.registers(numbers[0]))()
        return f"{self.number_of(place.number):0{place.digits}o}"

    def _repr_html_(self) -> str:
        """Returns the machine as a small table, which a notebook shows."""
        if self.is_ended:
            return "<p>This simulator has ended.</p>"
        from .notebook import table_of  # no tool needs it
        return table_of(self.slot(), [self.processor(number) for number in range(PROCESSORS)], self.channels(),
                        [self.reader(), self.printer()[0]])


def file_of(words: Sequence[str], text: str) -> str:
    """Returns the name of the file that a line of the simulator is about, as a deck or a panel; or nothing."""
    for option in ("--deck", "--panel"):
        if option in words[:-1] and option[2:].upper() in text.split():
            return f" ({words[words.index(option) + 1]})"
    return ""
