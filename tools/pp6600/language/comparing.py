"""What a printed listing says, checked by the library's assembler: what is printed of each line is what the assembler makes of it,
or there is a doubt, with its line and column. Of what the assembler does not take, as a call that has words, the words are as they
are printed."""

import re
from itertools import chain
from typing import Dict, Iterator, List, Mapping, Optional, Sequence, Tuple

from ..run.forms import CELLS
from ..run.names import EQUATES
from .flat_source import BETWEEN, NAMING, NOWHERE, TURNING, FlatSource, Piece, Statement, Words
from .notation import CODES, SUBR, TAB, size_of
from .printed import WITH_WORDS, Columns, Parts, all_parts, few, guessed, is_note, is_operation
from .program import FilledCell, ListingRow, Program
from .reading import START, Reader
from .settling import D, after_place, numbers_of, say_place, settle

HERE = re.compile(r"\*[LO]?([-+][0-9]+[BDO]?)?")  # an operand that is an address near that of its line
UNREADABLE = ("octal number", "digits", "no address")  # at the end of a doubt
NUMERAL = re.compile("[0-7]+B?")
OWN = Columns(0, 11, 22, 4)  # of the assembler's listing
Names = Dict[str, Tuple[int, bool]]  # the number of each, and whether it is a label


class Reading:
    """What the lines of a listing say, by their columns and the base of their numbers."""

    def __init__(self, parts: Sequence[Parts], columns: Optional[Columns], has_gaps: bool, is_cut: bool, base: str) -> None:
        """Between the rows of a dump there may be gaps. A text that is cut has no line end at its end."""
        self.columns, self.parts, self.source = columns, parts, FlatSource(base)
        reader = Reader(self.source, self.parts, has_gaps)
        self.is_over, self.has_literals, self.leaves_out = reader.is_over, reader.has_literals, reader.leaves_out
        settle(self.source)
        self.statements = self.source.statements
        self.complete()
        self.defined = {name.upper(): (number, one.first.number) for one in self.statements
                        for name, (number, _) in names_of(one, one.row.location).items()}
        self.compare()
        self.check_literals()
        if is_cut and parts:
            self.check_end()

    @property
    def worth(self) -> Tuple[int, int]:
        """How many doubts there are, and of how many statements nothing is said."""
        return len(self.source.doubts), sum(not one.is_told and is_operation(one.first.parts.operation) for one in self.statements)

    # -- what is printed, and what is made

    def compare(self) -> None:
        """Compares what is printed with what the assembler makes of it."""
        has_names, doubted, before = any(one.label for one in self.statements), {line for line, _, _ in self.source.doubts}, NOWHERE
        for at, one in enumerate(self.statements):
            self.compare_places(one, before)
            after = after_place(self.source, at) if one.again else None
            if one.again and (not after or after.name in TURNING):
                self.source.doubt(one.again, None,
                                  f"line {one.first.number} (decimal) is here again, and no address behind it says so")
            before = one.row if one.row is not NOWHERE else before
            words, made, size = one.words, made_of(one), one.end - one.row.location
            if one.name == "BSS" and one.value is not None and one.is_told and one.value not in (size, one.end):
                self.differ(one, [one.value], [size])
            is_other = words != made and None not in words and (bool(words) or one.name in WITH_WORDS and one.name != "BSSZ")
            if is_other and (has_names or not is_as_tools(one)) and not doubted.intersection(piece.number for piece in one.pieces):
                self.differ(one, words, made)

    def complete(self) -> None:
        """Adds what the assembler makes of a line to the doubts about what is unreadable in it."""
        of = {piece.number: (one, piece) for one in self.statements for piece in one.pieces}
        doubts = [(doubt, *of[doubt.line]) if doubt.line in of and doubt.text.endswith(UNREADABLE) else (doubt, None, None)
                  for doubt in self.source.doubts]
        self.source.doubts = [doubt._replace(text=doubt.text + made_instead(one, piece, doubt.column)) if one and piece else doubt
                              for doubt, one, piece in doubts]

    def differ(self, one: Statement, words: Words, made: Words) -> None:
        """Says that the words of a statement are others than the assembler makes, and which lines say the numbers of its names."""
        parts, at = one.first.parts, next((at for at, pair in enumerate(zip(words, made)) if pair[0] != pair[1]), 0)
        tokens = [(piece.number, token) for piece in one.pieces for token in piece.parts.words]
        line, token = tokens[at] if at < len(tokens) else (one.first.number, one.token)
        said = f"the line has {digits_of(words)}, and {one.said} makes {digits_of(made)}"
        self.source.doubt(line, token, "; ".join([said, *self.numbers_in(one)]))

    def numbers_in(self, one: Statement) -> Iterator[str]:
        """Yields what the names of a statement are, and by which line."""
        for name in dict.fromkeys(BETWEEN.split(one.text.upper())):
            known = self.source.known.get(name)
            number, line = (known.number, known.line) if known else self.defined.get(name, (0, 0))
            if line and line != one.first.number:
                yield f"{self.source.literals.get(name, name)} is {number:04o}, as line {line} (decimal) says"

    def compare_places(self, one: Statement, before: ListingRow) -> None:
        """Compares the printed addresses of a statement with its place."""
        first, row, size = one.first, one.row, len(before.words)
        if one.shift:
            say_place(self.source, one)
        after = (None, row.location, row.origin, before.location + size, before.origin + size)
        if one.name in TURNING and one.is_told and one.name != "USE" and (
                first.load not in (None, row.origin) or first.address not in after):
            token = first.parts.address
            self.source.doubt(first.number, token,
                              f"{one.name} to {row.location:04o}, and the line has {token.text if token else ''}")
        for piece in one.pieces if one.has_place and one.name not in TURNING and one.words else []:
            to = row.location + piece.at
            if piece.address not in (None, to, row.origin + piece.at) and (piece.at or piece.load is not None):
                self.source.doubt(piece.number, piece.parts.address,
                                  f"the line has {piece.address:04o}, and {to:04o} comes after the line before")

    def check_literals(self) -> None:
        """Compares the words of literals with what is printed at their addresses, if literals are printed."""
        source, cells = self.source, {one.row.location + at: word for one in self.statements for at, word in enumerate(one.words)}
        found = {name: [cells[at] for at in range(source.known[name].number, source.known[name].number + len(made)) if at in cells]
                 for name, made in source.made.items() if made and name in source.known}
        self.literals = {name for name, words in found.items() if words == [*source.made[name]]}
        for name in found.keys() - self.literals if self.has_literals or self.literals else ():
            known, words = source.known[name], found[name]
            if None not in words:
                said = f"{source.literals[name]} is at {known.number:04o} by this line, and makes {digits_of(source.made[name])}"
                token = next(iter(self.parts[known.line - 1].words), None)
                source.doubt(known.line, token, f"{said}, and there is {digits_of(words)}")

    def check_end(self) -> None:
        """Checks that a last line without a line end is whole: it has no number, or a source line that makes its words."""
        number, parts = len(self.parts), self.parts[-1]
        is_whole = any(one.is_told and one.words for one in self.statements if one.pieces[-1].number == number)
        if (parts.address or parts.words) and not is_whole and not self.source.doubts:
            self.source.doubt(number, None, "the text ends in this line, before its line end, so it may be cut")

    @property
    def unconfirmed(self) -> int:
        """How many words only one line says: no source line makes them, or a name in it has its number from there alone."""
        literals = {self.source.known[name].number + at for name in self.literals for at in range(len(self.source.made[name]))}
        found: Dict[Statement, int] = {}
        for one in self.statements:
            if not one.is_told and not is_as_tools(one):
                found[one] = sum(word is not None and at not in literals for at, word in enumerate(one.words, one.row.location))
        for name, known in self.source.known.items():
            for bits, _, one in numbers_of(self.source, name,
                                           known.number) if known.uses == 1 and name not in self.literals else ():
                found[one] = min(found.get(one, 0) + (bits > 1) + (bits > 12), len(one.words))
        return sum(found.values())

    # -- what is read

    def program(self) -> Program:
        """Returns the program: what is printed of each line, where its address says, or else the assembler."""
        rows: Dict[int, List[ListingRow]] = {number: [] for number, parts in enumerate(self.parts, 1) if not is_note(parts.line)}
        cells: Dict[int, FilledCell] = {}
        names: Names = {}
        moves = [one.first.number for one in self.statements if one.name in ("ORG", "BSS", "USE")]  # lines that say to go elsewhere
        for one in self.statements:
            for piece in one.pieces:
                row = row_of(one, piece)
                rows[piece.number].append(row)
                for cell, word in enumerate(piece.words or row.words, row.origin):
                    self.check_cell(cell, piece.number, cells, moves)
                    cells.update({cell: FilledCell(word, piece.number)} if word is not None and 0 <= cell < CELLS else {})
            names.update(names_of(one, rows[one.first.number][-1].location))
        for number in (number for number, own in rows.items() if not own):
            rows[number].append(ListingRow(number, self.parts[number - 1].shown, 0, 0))
        left_out = (range(one.row.location, one.end) for one in self.statements if one.name == "BSS")
        return Program(cells, self.start, names, [row for own in rows.values() for row in own],
                       frozenset(chain.from_iterable(left_out)))

    def check_cell(self, cell: int, number: int, cells: Mapping[int, FilledCell], moves: Sequence[int]) -> None:
        """Checks that a line may fill a cell: no other one has, unless a line between says to go back."""
        line = cells[cell].line if cell in cells else number
        if not 0 <= cell < CELLS:
            self.source.doubt(number, None, "this goes past cell 7777")
        elif line < number and (self.source.doubts or not any(line < at < number for at in moves)):
            self.source.doubt(number, None, f"cell {cell:04o} is filled by line {line} (decimal) too")

    @property
    def passed(self) -> int:
        """How many lines have numbers, and say nothing."""
        used = {piece.number for one in self.statements for piece in one.pieces}
        first, last = (self.columns.address, self.columns.text) if self.columns else (0, None)
        return sum(re.search("[0-9]", parts.line[first:last]) is not None and (not is_operation(parts.operation) or self.is_over)
                   for number, parts in enumerate(self.parts, 1) if number not in used and not is_note(parts.line))

    @property
    def start(self) -> Optional[int]:
        """Where a processor begins, as END says."""
        ends = [one for one in self.statements if one.text.startswith(f" {START} ")]
        return ends[0].row.value if ends and ends[0].first.parts.expression else None


def made_instead(one: Statement, piece: Piece, column: int) -> str:
    """Returns what the assembler makes where something in a column of a line is unreadable; nothing if it does not know."""
    address = piece.parts.load or piece.parts.address
    if one.name in NAMING:
        return f", and {one.label} is {one.row.value:o}" if one.is_told and one.row.value is not None else ""
    if address and column == address.start + 1:
        return f", and {one.row.location + piece.at:04o} comes after the line before" if not one.is_free else ""
    return f", and {one.said} makes {digits_of(one.row.words)}" if one.is_told and one.row.words else ""


def is_as_tools(one: Statement) -> bool:
    """Returns whether a statement has d for its operand, as the tools show an instruction."""
    parts = one.first.parts
    d = int(parts.expression.rstrip("B"), 8) & D if NUMERAL.fullmatch(parts.expression) else None
    return d is not None and one.words[:1] == [CODES.get(parts.operation, 0) << 6 | d]


def made_of(one: Statement) -> Words:
    """Returns the words that the assembler makes of a statement; or an instruction that it does not take with the operand that is
    printed."""
    words, code = one.words, CODES.get(one.first.parts.operation)
    if one.is_told:
        return list(one.row.words)
    return words if code is None or None in words else [code << 6 | ([*words, 0][0] or 0) & D, *[*words, 0][1:size_of(code)]]


def row_of(one: Statement, piece: Piece) -> ListingRow:
    """Returns a printed line as a row of a program: with its printed words and addresses, or with those that the assembler has."""
    row = one.row
    load = row.origin + piece.at if piece.load is None else piece.load
    if piece.load is None and piece.address not in (None, load):
        load = (piece.address or 0) + row.origin - row.location
    words = piece.words or (row.words if one.name == "BSSZ" else ())
    return ListingRow(piece.number, piece.parts.shown, load, load - row.origin + row.location if piece.address is None
                      else piece.address,
                      tuple(word or 0 for word in words), bool(words))


def names_of(one: Statement, address: int) -> Names:
    """Returns the names that a statement at an address defines."""
    label, parts = one.label, one.first.parts
    if one.name in NAMING:
        is_label = HERE.fullmatch(parts.expression) is not None or parts.operation == "LIT"
        is_one = label and parts.operation in (*EQUATES, "LIT") and one.value is not None and 0 <= one.value < CELLS
        return {label: (one.value or 0, is_label)} if is_one else {}
    if not label or one.is_call or address >= CELLS:
        return {}
    return {label: ((address + 1) % CELLS, True), f"{label}X": (address, True)} if one.name == SUBR else {label: (address, True)}


def read(lines: Sequence[str], columns: Optional[Columns] = None, has_gaps: bool = False, is_cut: bool = False) -> Reading:
    """Returns what lines say, in those columns, and in that base of their numbers, in which they say most."""
    texts = [line.replace("\f", " ").expandtabs(TAB) for line in lines]
    places: List[Optional[Columns]] = [columns] if columns else guessed([line for line in texts if not is_note(line)])
    first, others = places[0], places[1:]

    def reading(place: Optional[Columns]) -> Reading:
        parts = all_parts(texts, place)
        octal = Reading(parts, place, has_gaps, is_cut, "OCTAL")
        return octal if octal.worth == (0, 0) else min(octal, Reading(parts, place, has_gaps, is_cut, "DECIMAL"),
                                                       key=lambda one: one.worth)

    usual = reading(OWN if first and not columns and first[:2] == OWN[:2] else first)
    if usual.columns != first and usual.worth != (0, 0):
        usual = min(usual, reading(first), key=lambda one: one.worth)
    found = map(reading, [] if few(usual.worth[0], len(usual.statements)) else others)
    return next((one for one in found if one.worth == (0, 0) and one.leaves_out), usual)


def digits_of(words: Words) -> str:
    return " ".join(f"{word:04o}" for word in words if word is not None) or "nothing"
