"""A listing: its words, its names and its texts."""

from __future__ import annotations

import sys
from typing import TYPE_CHECKING, Callable, Dict, List, Optional, Sequence, Tuple, TypeVar

from ..engine.assembler import NoAssembler
from ..failure import Failure, Faults
from ..run.forms import CELLS
from ..run.names import EQUATES, AddressNames, Names, octal_number
from ..shell.ending import shown_text
from ..shell.text_files import bytes_of, lines_in, named
from .cells import lines_of_cells
from .notation import TAB
from .printed import NAME, NUMBERS, Columns, continuity, first_runs, guessed, is_note, tokens_of, with_words
from .program import ListingRow, Program

if TYPE_CHECKING:
    from .flat_source import Message

MOST_DOUBTS = 20  # that are said
Read = TypeVar("Read")
MARK = "\ufeff"  # that some editors put before a text


def read_from(path: Optional[str], read: Callable[[List[str], bool], Read]) -> Read:
    """Returns what is read of the lines of a text, which is cut if it has no line end at its end. What is wrong with a line is said
    with the name of the file."""
    data = bytes_of(path)
    lines = lines_in(data, path)
    try:
        return read(lines, data[-1:] not in (b"", b"\n"))
    except InDoubt as failure:
        raise Faults(shown_doubts(path, failure.doubts)) from failure
    except NoAssembler:
        raise
    except Failure as failure:
        raise Failure(f"{named(path)}, {failure}") from failure


class InDoubt(Failure):
    """A listing whose lines do not agree with each other."""

    def __init__(self, doubts: Sequence[Message]) -> None:
        super().__init__("; ".join(f"line {line} (decimal): {text}" for line, _, text in doubts))
        self.doubts = doubts


def shown_doubts(path: Optional[str], doubts: Sequence[Message]) -> List[str]:
    """Returns the lines about what is wrong with a text, as FILE:LINE:COLUMN: and a text."""
    shown, more = [f"{named(path)}:{line}:{column}: {text}"
                   for line, column, text in doubts[:MOST_DOUBTS]], len(doubts) - MOST_DOUBTS
    return [*map(shown_text, shown), *([f"{named(path)}: {more} (decimal) more"] if more > 0 else [])]


def complain_of(path: Optional[str], listing: Listing) -> None:
    """Says what is in doubt of a listing that is trusted all the same."""
    if listing.doubts and sys.stderr:
        print(*shown_doubts(path, listing.doubts), sep="\n", file=sys.stderr)


class Listing:
    """The program of a listing, and its names."""

    def __init__(self, lines: Sequence[str], columns: Optional[Columns] = None, trust: bool = False, has_gaps: bool = False,
                 is_cut: bool = False) -> None:
        """The lines are those of a text. Without columns they are guessed. What is in doubt raises InDoubt, or is kept. Between the
        rows of a dump there may be gaps."""
        from .comparing import read  # which a source does not need
        reading = read(without_mark(lines), columns, has_gaps, is_cut)
        self.columns, self.passed, self.unconfirmed = reading.columns, reading.passed, reading.unconfirmed
        self.program = reading.program()
        self.cells, self.names, self.doubts = self.program.cells, names_of(self.program), sorted(reading.source.doubts)
        if self.doubts and not trust:
            raise InDoubt(self.doubts)

    @classmethod
    def of_file(cls, path: Optional[str], columns: Optional[Columns] = None, trust: bool = False,
                has_gaps: bool = False) -> Listing:
        return read_from(path, lambda lines, is_cut: cls(lines, columns, trust, has_gaps, is_cut))

    def set_lines(self, processor: int) -> List[str]:
        return lines_of_cells(processor, {address: f"{word:04o}" for address, (word, _) in self.cells.items()})

    def counts(self) -> str:
        """Returns what was read, as a sentence."""
        parts = [f"{number} {noun}{'' if number == 1 else 's'}" for number, noun in
                 ((len(self.cells), "word"), (len(self.names), "symbol"), (self.passed, "line"), (self.unconfirmed, "word"))]
        once = f", {parts.pop()} that only one line says" if self.unconfirmed else ""
        return f"{', '.join(parts[:3])} with numbers not loaded{once} (decimal)"


def without_mark(lines: Sequence[str]) -> List[str]:
    return [lines[0].removeprefix(MARK), *lines[1:]] if lines else []


def is_listing(lines: Sequence[str]) -> bool:
    """Returns whether lines begin with addresses: half of them at least go on where the words of the line before end."""
    runs = with_words(first_runs(map(tokens_of, filter(NUMBERS.match, without_mark(lines)))))
    return len(runs) > 1 and 2 * continuity(runs) >= len(runs) - 1


def is_printed(lines: Sequence[str]) -> bool:
    """Returns whether lines are a listing, with line numbers or carriage control before the addresses or without them."""
    texts = [line.replace("\f", " ").expandtabs(TAB) for line in without_mark(lines) if not is_note(line)]
    is_numbered = 2 * sum(text.lstrip()[:1].isdigit() for text in texts) > len(texts)
    first, *others = guessed(texts if is_numbered else filter(NUMBERS.match, texts))  # of the lines of a source few have them
    return is_listing(lines) or first is not None or bool(others) and is_numbered


class ListingSymbols(AddressNames):
    """What the addresses of one processor are called, and the listing's own text beside a cell."""

    def __init__(self, lines: Sequence[str], columns: Optional[Columns] = None, trust: bool = False, is_cut: bool = False) -> None:
        """The lines are those of a listing, or each is NAME ADDRESS or NAME = NUMBER."""
        self.listing = Listing(lines, columns, trust, is_cut=is_cut)
        names = self.listing.names
        if not self.listing.cells and not len(names):
            for number, line in enumerate(without_mark(lines), 1):
                add_symbol(names, number, line.partition("*")[0].split())
        program = self.listing.program
        rows = program.rows
        super().__init__(names, {*self.listing.cells, *program.left_out, *(cell for row in rows for cell in cells_of(row))})
        words = [(row.words[0], row.text.strip(), row) for row in rows if row.words and row.text.strip()]
        self.at = {address: (word, text) for own in ("location", "origin") for word, text, row in words
                   for address in [getattr(row, own)]}

    @classmethod
    def of_file(cls, path: Optional[str], columns: Optional[Columns] = None, trust: bool = False) -> ListingSymbols:
        symbols = read_from(path, lambda lines, is_cut: cls(lines, columns, trust, is_cut))
        if not len(symbols.names) and not symbols.listing.cells:
            raise Failure(f"{named(path)} has neither lines of a listing nor lines NAME ADDRESS")
        return symbols

    def texts(self) -> Dict[int, Tuple[int, str]]:
        """Returns the texts of the listing by the addresses at which they begin, each with its word."""
        return self.at

    def text(self, address: int, word: int) -> str:
        """Returns the listing's text of the line that begins at a cell, if this word is still there; or nothing."""
        own, text = self.at.get(address, (None, ""))
        return text if own == word else ""

    def lines(self) -> List[str]:
        """Returns the lines NAME ADDRESS by their addresses, then the lines NAME = NUMBER."""
        found = [(name, f"{sign}{number:04o}") for sign, table in (("", self.names.labels), ("= ", self.names.equates))
                 for number, own in sorted(table.items()) for name in own]
        width = max((len(name) for name, _ in found), default=0)
        return [f"{name:{width}} {number}" for name, number in found]


def names_of(program: Program) -> Names:
    """Returns the names of a program."""
    names = Names()
    for name, (number, is_label) in program.names.items():
        names.add(name, number, is_label and number < CELLS)
    return names


def cells_of(row: ListingRow) -> range:
    return range(row.location, row.location + len(row.words))


def add_symbol(names: Names, line: int, words: Sequence[str]) -> None:
    """Adds the name of a line NAME ADDRESS or NAME = NUMBER, of which these are the words; none if it is a comment."""
    is_symbol = len(words) == 2 or len(words) == 3 and words[1].upper() in EQUATES
    value = octal_number(words[-1]) if is_symbol and NAME.fullmatch(words[0]) else None
    if value is not None and value < CELLS:
        names.add(words[0], value, len(words) == 2)
    elif words:
        raise Failure(f"line {line} (decimal) is neither of a listing nor NAME ADDRESS")
