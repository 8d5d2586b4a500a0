"""Sources beside a run: the lines of the console that load them, and whose line a cell is.

A cell is of the line whose location it is, or else of the line whose origin it is, as long as it has the word of that line. So a
program that moved itself by LOC keeps its lines. The second word of an instruction may be another one, for RJM writes it."""

import functools
import os
from typing import Dict, FrozenSet, List, NamedTuple, Optional, Sequence, Tuple, Union

from ..failure import Failure, Faults
from ..run.forms import CELLS
from ..run.names import AddressNames, Names
from ..run.tape import SourceLine
from ..run.turn import TWO_WORDS, places_of_setting
from ..shell.ending import shown_text
from ..shell.text_files import named, read_lines
from .cells import lines_of_cells
from .decks import texts_of
from .symbol_options import Given
from .listing import Listing, is_printed, names_of, without_mark
from .notation import CODES, TAB
from .program import ListingRow, Program, Unit, assembled


def source_lines(path: Optional[str]) -> List[str]:
    """Returns the lines of a source, without the mark that some editors put before a text."""
    return without_mark(read_lines(path))


def complaints(path: Optional[str], program: Program) -> List[str]:
    """Returns the lines about what is wrong with a source, and what is to be known of it."""
    return [shown_text(f"{named(path)}:{complaint}") for complaint in program.complaints]


def set_lines(program: Union[Program, Unit], processor: int) -> List[str]:
    """Returns the lines of the console that load a program, and set P if END says where it begins."""
    start = [] if program.start is None else [f"SET P {processor:o} {program.start:o}"]
    return lines_of_cells(processor, {address: f"{cell.word:o}" for address, cell in program.cells.items()}) + start


class Word(NamedTuple):
    """A word that a source makes: its row of the listing, its number there, from 0, and its number among the words that the line of
    the file makes in a row, from 1."""

    row: ListingRow
    at: int
    number: int

    @property
    def word(self) -> int:
        return self.row.words[self.at]

    @property
    def m(self) -> Optional[int]:
        """The second word, if this is the first one of an instruction of two."""
        has_two = self.at == 0 and len(self.row.words) == 2 and self.row.words[0] >> 6 in TWO_WORDS
        return self.row.words[1] if has_two else None


class CellLine(NamedTuple):
    """The line that a cell is of, or was of before it was overwritten. The second word is that of the machine, if it is not the
    line's."""

    number: int
    text: str
    at: int  # which of the words of its row it is, from 0
    is_there: bool
    second: Optional[int]
    row: ListingRow

    @property
    def note(self) -> str:
        """What is to be said after the text: which word it is, if not the first, and a second word that has changed."""
        at = f"  word {self.at + 1}" if self.at else ""
        return at if self.second is None else f"{at}  m is {self.second:04o}"


class Source(AddressNames):
    """A source of one processor, assembled."""

    is_source = True

    def __init__(self, path: str, program: Program) -> None:
        self.path, self.program = path, program

    # ---- what is made when it is asked for

    @functools.cached_property
    def names(self) -> Names:  # type: ignore[override]
        return names_of(self.program)

    @functools.cached_property
    def cells(self) -> FrozenSet[int]:  # type: ignore[override]
        return frozenset({*self.at_location, *self.program.left_out})

    @functools.cached_property
    def words(self) -> List[Word]:
        """The words of all lines."""
        return [Word(row, at, number) for own in self.program.coded
                for number, (row, at) in enumerate(((row, at) for row in own for at in range(len(row.words))), 1)]

    @functools.cached_property
    def at_location(self) -> Dict[int, List[Word]]:
        found: Dict[int, List[Word]] = {}
        for word in self.words:
            found.setdefault((word.row.location + word.at) % CELLS, []).append(word)
        return found

    @functools.cached_property
    def at_origin(self) -> Dict[int, Word]:
        """Without the words of other units."""
        cells = self.program.cells
        return {cell: word for word in self.words for cell in [word.row.origin + word.at]
                if cells.get(cell) == (word.word, word.row.number)}

    @functools.cached_property
    def jumps(self) -> Dict[int, int]:
        return {**super().entries(), **jumps_back([row for own in self.program.coded for row in own])}

    @functools.cached_property
    def literals(self) -> Dict[int, str]:
        return {address: text for address, text in self.program.literals.items() if address not in self.labels}

    # ---- names of cells

    def name(self, address: int, farthest: Optional[int] = None) -> str:
        """Returns an address by a label, or as the literal that it is of."""
        return self.literals.get(address) or super().name(address, farthest)

    @classmethod
    def of_file(cls, path: str, given: Given = Given()) -> "Source":
        """Returns the source in a file, which has the given texts, or the one that a printed listing has; of FILE#NAME the unit
        with this name is loaded."""
        file, _, unit = path.rpartition("#")
        path, unit = (file, unit) if file and not os.path.exists(path) else (path, "")
        lines = source_lines(path)
        program = Listing.of_file(path).program if is_printed(lines) else assembled(lines, texts_of(given, lines))
        if program.faults:
            raise Faults(complaints(path, program))
        program = program.unit(unit) if unit else program
        if not program.cells:
            raise Failure(f"{named(path)} has no word")
        return cls(path, program)

    # ---- the lines that load it

    def loading(self, number: int) -> List[SourceLine]:
        """Returns the lines that load it into a processor."""
        return [SourceLine(line, functools.partial(self.place_in, line)) for line in set_lines(self.program, number)]

    def place_in(self, line: str, word: int) -> str:
        """Returns the place in the source from which a number of a line that loads it comes, by its number in the line."""
        place = next(place for place, at in places_of_setting(line).items() if at == word)
        if place.kind == "P":
            end = next(row for row in reversed(self.program.rows) if row.statement.operation == "END")
            return f"{self.path}:{end.number}"
        made = self.at_origin[place.numbers[1]]
        return f"{self.path}:{made.row.number} WORD {made.number}"

    def is_loaded(self, address: int, word: int) -> bool:
        """Returns whether a cell has the word with which the source filled it."""
        return address in self.at_origin and self.at_origin[address].word == word

    def entries(self) -> Dict[int, int]:
        """Returns the cells of return addresses by the addresses of the jumps back: of NAME and NAMEX, and of the second word of an
        LJM that an RJM names, to which a program may return by UJN NAME-1."""
        return self.jumps

    # ---- whose line a cell is

    def line_of(self, address: int, word: int, second: Optional[int] = None) -> Optional[CellLine]:
        """Returns the line that a cell is of, which has this word, with the cell after it; or else the one that it was of, if the
        source has filled it."""
        origin = self.at_origin.get(address)
        found = [one for one in (*self.at_location.get(address, ()), origin) if one and one.word == word]
        if not found:
            return cell_line(origin, False) if origin else None
        whole = next((one for one in found if second is None or one.m in (None, second)), None)
        return cell_line(whole, True) if whole else cell_line(found[0], True, second)

    def text(self, address: int, word: int, second: Optional[int] = None) -> str:
        """Returns the text of the line that begins at a cell, if this word is still there; or nothing."""
        line = self.line_of(address, word, second)
        return line.text if line and line.is_there and line.at == 0 else ""

    def beside(self, address: int, words: Sequence[int]) -> str:
        """Returns the line whose instruction is in a cell, with its words, or was; with the second word if that has changed."""
        line = self.line_of(address, *words[:2])
        if line and line.is_there:
            return f"{self.path}:{line.number}: {line.text}{line.note}"
        return f"was {self.path}:{line.number}" if line else ""

    def texts(self) -> Dict[int, Tuple[int, str]]:
        """Returns the texts of the lines by the addresses at which they begin, each with its first word."""
        firsts = [word for words in self.at_location.values() for word in words[:1] if not word.at]
        found = {word.row.origin: word for word in self.at_origin.values() if not word.at}
        found.update((word.row.location, word) for word in firsts)
        return {address: (word.row.words[0], text_of(word.row)) for address, word in found.items()}


def jumps_back(rows: Sequence[ListingRow]) -> Dict[int, int]:
    """Returns the second words of LJM that an RJM names, by the addresses of the LJM."""
    pairs = [(row.location, *row.words) for row in rows if len(row.words) == 2]
    named_by_rjm = {m for _, word, m in pairs if word == CODES["RJM"] << 6}
    return {jump: jump + 1 for jump, word, _ in pairs if word == CODES["LJM"] << 6 and jump + 1 in named_by_rjm}


def text_of(row: ListingRow) -> str:
    return row.text.expandtabs(TAB).strip()


def cell_line(word: Word, is_there: bool, second: Optional[int] = None) -> CellLine:
    return CellLine(word.row.number, text_of(word.row), word.at, is_there, second, word.row)
