"""A source that the library has assembled: its programs, its names, and the rows of its listing, for tools that show a run beside
it."""

import bisect
import copy
import functools
import re
from itertools import groupby
from typing import Dict, FrozenSet, Iterator, List, Mapping, NamedTuple, Optional, Sequence, Tuple

from ..engine.assembler import COMPLAINTS, NAMES, ROWS, UNITS, Text, assembler_here
from ..failure import Failure
from ..run.turn import CONSTANTS, TWO_WORDS
from ..shell.text_files import lines_of
from .notation import CODES, LITERAL, WORD_BITS, Statement, parts_of, statement_of

LOCAL = re.compile("Z[.][0-7]{4,}")  # a name that a macro has for itself
OF_ANOTHER_PROGRAM = re.compile("=[XSY][A-Z][A-Z0-9.$=]*")
ADDRESS = (1 << WORD_BITS) - 1
MACROS = ("MACRO", "MACROE")
HAS_WORDS = re.compile(r"(?:[^ \t]+ ){6}(?:[=~]\S+ )?[0-7]")  # of a line of ROWS


class FilledCell(NamedTuple):
    """A word that the source puts into a cell, and the number of its line."""

    word: int
    line: int


class ListingRow(NamedTuple):
    """What the listing shows of a line: its number in the source and its text, its words, and the counters before it if it has an
    address; or the number that it names, which SET may change. Of a line of the form ROWS also whether a macro made it, where its
    text begins among those of all lines, and whether it was performed, and not only listed."""

    number: int
    text: str
    origin: int
    location: int
    words: Tuple[int, ...] = ()
    has_address: bool = False
    value: Optional[int] = None
    is_set: bool = False
    is_made: bool = False
    first: int = 0
    is_performed: bool = True

    @property
    def statement(self) -> Statement:
        return statement_of(self.text)


class Unit(NamedTuple):
    """A program of a source, as its IDENT names it: its cells by their addresses, and where a processor begins."""

    name: str
    cells: Dict[int, FilledCell]
    start: Optional[int]


class Program:
    """What a source makes: the cells of a unit by their addresses, where a processor begins, the number of each name and whether it
    is a label, the rows of the listing, the cells that BSS leaves out, what is wrong or to be known, how many faults these are, all
    units, what the cells of literals are called, and of which lines of macros the lines that calls made were made."""

    complaints: Sequence[str] = ()
    faults = 0
    units: Sequence[Unit] = ()
    literals: Mapping[int, str] = {}
    macros: Mapping[int, Tuple[int, ...]] = {}  # by where the text of a line begins: the numbers, that of the innermost macro last

    def __init__(self, cells: Dict[int, FilledCell], start: Optional[int], names: Dict[str, Tuple[int, bool]],
                 rows: List[ListingRow], left_out: FrozenSet[int]) -> None:
        self.cells, self.start, self.names, self.rows, self.left_out = cells, start, names, rows, left_out

    @functools.cached_property
    def coded(self) -> List[List[ListingRow]]:
        """The rows with words, together those of one line that come after one another."""
        return [[row for row in own if row.words] for _, own in groupby(self.rows, key=lambda row: row.number)]

    def unit(self, name: str) -> "Program":
        """Returns the program of the unit with a name."""
        unit = next((unit for unit in self.units if unit.name == name.upper()), None)
        if not unit:
            names = ", ".join(unit.name for unit in self.units if unit.name)
            raise Failure(f"the source has no IDENT {name}; {f'it has {names}' if names else 'it has none at all'}")
        found = copy.copy(self)
        found.cells, found.start = unit.cells, unit.start
        vars(found).pop("literals", None)  # which are of cells
        return found


class AssembledProgram(Program):
    """A source that is assembled. What is not asked for is not made: each form of it is a call, and a source may have 100,000
    lines."""

    def __init__(self, lines: Sequence[str], texts: Sequence[Text]) -> None:
        self.lines, self.texts = lines, texts
        units, self.faults = form_of(lines, UNITS, texts)
        self.made = list(units_of(lines_of(units)))
        self.cells, self.start = self.made[0].cells, self.made[0].start

    @functools.cached_property
    def complaints(self) -> Sequence[str]:  # type: ignore[override]
        return complaints_of(self.lines, self.texts)[0]

    @functools.cached_property
    def row_lines(self) -> List[str]:
        return with_numbers(written(self.lines, ROWS, self.texts))

    @functools.cached_property
    def rows(self) -> List[ListingRow]:  # type: ignore[override]
        return list(map(row_of, self.row_lines))

    @functools.cached_property
    def coded(self) -> List[List[ListingRow]]:
        of_lines = groupby(self.row_lines, key=lambda line: line[:line.index(" ")])
        return [[row_of(line) for line in own if HAS_WORDS.match(line)] for _, own in of_lines]

    @functools.cached_property
    def names(self) -> Dict[str, Tuple[int, bool]]:  # type: ignore[override]
        found = map(name_of, written(self.lines, NAMES, self.texts))
        return {name: (number, is_label) for name, number, is_label in found if not LOCAL.fullmatch(name)}

    @functools.cached_property
    def units(self) -> Sequence[Unit]:  # type: ignore[override]
        statements = (row.statement for row in self.rows if row.is_performed)
        operand = next((one.operand for one in statements if one.operation == "IDENT"), "")
        return [self.made[0]._replace(name=first_name(operand)), *self.made[1:]]

    @functools.cached_property
    def left_out(self) -> FrozenSet[int]:  # type: ignore[override]
        starts = sorted({row.location for own in self.coded for row in own})
        return frozenset(cell for cells in left_out_of(self.row_lines, starts) for cell in cells)

    @functools.cached_property
    def literals(self) -> Mapping[int, str]:  # type: ignore[override]
        return literals_of(self.row_lines, self.cells)

    @functools.cached_property
    def macros(self) -> Mapping[int, Tuple[int, ...]]:  # type: ignore[override]
        return macros_of(self.rows)


def assembled(lines: Sequence[str], texts: Sequence[Text] = ()) -> Program:
    """Assembles the lines of a source, which may name common decks."""
    return AssembledProgram(lines, texts)


def source_of(lines: Sequence[str]) -> bytes:
    return "".join(f"{line}\n" for line in lines).encode("utf-8")


def form_of(lines: Sequence[str], form: int, texts: Sequence[Text] = ()) -> Tuple[str, int]:
    """Returns the text of a form of a source, and how many faults the source has."""
    text, faults = assembler_here().text(source_of(lines), form, texts)
    return text.decode("utf-8"), faults


def written(lines: Sequence[str], form: int, texts: Sequence[Text] = ()) -> List[str]:
    """Returns the lines of a form of a source."""
    return lines_of(form_of(lines, form, texts)[0])


def complaints_of(lines: Sequence[str], texts: Sequence[Text] = ()) -> Tuple[List[str], int]:
    """Returns what is wrong with a source, and what is to be known, as LINE:COLUMN: and a text; and how many faults these are."""
    text, faults = form_of(lines, COMPLAINTS, texts)
    return [in_letters(lines, complaint) for complaint in lines_of(text)], faults


def in_letters(lines: Sequence[str], complaint: str) -> str:
    """Returns a complaint with its column in letters; the library counts bytes."""
    line, column, text = complaint.split(":", 2)
    own = "".join(lines[int(line) - 1:int(line)]).encode("utf-8")
    return f"{line}:{int(column) + len(own[:int(column) - 1].decode('utf-8', 'ignore')) - len(own[:int(column) - 1])}:{text}"


# ---- the library's forms

def name_of(line: str) -> Tuple[str, int, bool]:
    """Returns the name, the number and whether it is a label of a line of NAMES, as START 0100 or SIZE = 12."""
    name, *_, number = line.split(" ")
    return name, int(number, 8), line.count(" ") == 1


def row_of(line: str) -> ListingRow:
    """Returns a line of ROWS: NUMBER FIRST S|M|L LOCATION ORIGIN A|-P|- [=|~VALUE] [WORD ..], a tab and the text."""
    fields, _, text = line.partition("\t")
    number, first, kind, location, origin, letters, *rest = fields.split(" ")
    named = rest[0] if rest and rest[0][0] in "=~" else None
    words = tuple([int(word, 8) for word in (rest[1:] if named else rest)])
    return ListingRow(int(number, 8), text, int(origin, 8), int(location, 8), words, letters[0] == "A", int(named[1:], 8) if named
                      else None,
                      named is not None and named[0] == "~", kind == "M", int(first, 8), letters[1] == "P")


def units_of(lines: Sequence[str]) -> Iterator[Unit]:
    """Yields the programs of the lines of UNITS, which do not name the first one."""
    unit = Unit("", {}, None)
    for line in lines:
        head, *rest = line.split(" ")
        if head == "IDENT":
            yield unit
            unit = Unit(rest[0], {}, None)
        elif head == "P":
            unit = unit._replace(start=int(rest[0], 8))
        else:
            unit.cells[int(head, 8)] = FilledCell(int(rest[0], 8), int(rest[1], 8))
    yield unit


def first_name(operand: str) -> str:
    """Returns the name of a program of the operand of its IDENT."""
    return next(iter(operand.split()), "").partition(",")[0]


def with_numbers(lines: Sequence[str]) -> List[str]:
    """Returns lines of ROWS in which those of literals have the number of the line that ends their program."""
    found, number = list(lines), "0"
    for at in reversed(range(len(lines))):
        own, rest = lines[at].split(" ", 1)
        if rest.startswith("0 L "):
            found[at] = f"{number} {rest}"
        else:
            number = own
    return found


# ---- the lines of macros

def macros_of(rows: Sequence[ListingRow]) -> Dict[int, Tuple[int, ...]]:
    """Returns the numbers of the lines of macros of which the lines that calls made were made, by where their texts begin. A call
    makes its lines at once, so that their texts follow one another."""
    bodies: Dict[str, List[Tuple[int, str]]] = {"SUBR": [(0, "LJM"), (0, "EQU")]}
    operations = {row.first: row.statement.operation for row in rows if row.is_made and row.text}
    firsts = sorted(operations)
    macros: Dict[int, Tuple[int, ...]] = {}
    free = 0
    for at, (row, after) in enumerate(zip(rows, [*rows[1:], None]) if firsts else ()):
        if not row.is_performed:
            continue
        label, name, operand = row.statement
        if name in MACROS:
            bodies[label or first_name(operand)] = list(body_after(rows, at))
        elif name in bodies and after and after.is_made and after.first >= free:
            made = firsts[bisect.bisect_left(firsts, after.first):]
            numbers = numbers_of(bodies[name], [operations[first] for first in made])
            macros.update({first: (*macros.get(row.first, ()), number) for first, number in zip(made, numbers)})
            free = max([free, *(first + 1 for first, _ in zip(made, numbers))])
    return macros


def body_after(rows: Sequence[ListingRow], at: int) -> Iterator[Tuple[int, str]]:
    """Yields the numbers and the operations of the lines of the macro that begins at a row; empty lines are none. The LOCAL, IRP
    and ELSE of a macro within are lines as others."""
    depth = 0
    for row in rows[at + 1:]:
        label, operation, _ = row.statement
        depth += (operation in MACROS) - (operation == "ENDM")
        if depth < 0 or row.is_performed:
            return
        if row.text.strip():
            operation = label if label in ("LOCAL", "IRP") else operation
            yield row.number, f"{operation} within" if depth else operation


def numbers_of(body: Sequence[Tuple[int, str]], operations: Sequence[str]) -> List[int]:
    """Returns the number of the line of a macro for each line that a call makes of it, of lines with these operations. Lines
    between two IRP are there again as long as what comes next is like the first of them; an ELSE that was performed is not
    listed."""
    found: List[int] = []
    at, begin = 0, 0
    while at < len(body):
        number, operation = body[at]
        at += 1
        if operation == "IRP" and not begin:
            begin = at
        elif operation == "IRP":
            is_again = begin < at - 1 and operations[len(found):len(found) + 1] == [body[begin][1]]
            at, begin = (begin, begin) if is_again else (at, 0)
        elif operation not in ("LOCAL", "ELSE") or operation == "ELSE" and operations[len(found):len(found) + 1] == ["ELSE"]:
            found.append(number)
    return found


# ---- literals, and the cells that BSS leaves out

def literals_of(lines: Sequence[str], cells: Mapping[int, FilledCell]) -> Dict[int, str]:
    """Returns what the cells of the literals of a program are called: as the first of the lines of ROWS that names each has it."""
    sizes = {row.location: len(row.words) for row in map(row_of, (line for line in lines if line.endswith(LITERAL)))
             if row.words and cells.get(row.origin) == (row.words[0], row.number)}
    found: Dict[int, str] = {}
    for line in (line for line in lines if "=" in line) if sizes else ():  # before the text if it names a number
        for address, text in literals_in(row_of(line)):
            if address in sizes and address not in found:
                found.update({address + at: f"{text}+{at:o}" if at else text for at in range(sizes[address])})
    return found


def literals_in(row: ListingRow) -> Iterator[Tuple[int, str]]:
    """Yields the address and the text of each literal that a line names."""
    label, name, operand = row.statement
    if name == "LIT" and row.value is not None:
        yield row.value, label or f"={operand.split(' ')[0]}"
    for number, _, text in fields_in(row.text, row.words) if "=" in operand else ():
        if text.startswith("=") and not OF_ANOTHER_PROGRAM.fullmatch(text):
            yield number & ADDRESS, text


def fields_in(line: str, words: Sequence[int]) -> Iterator[Tuple[int, int, str]]:
    """Yields the number that words have for each operand of a line, how many bits its field has, and the operand."""
    _, name, operand = statement_of(line)
    bits, all_, used = WORD_BITS * len(words), sum(word << WORD_BITS * at for at, word in enumerate(reversed(words))), 0
    for at, part in enumerate(parts_of(operand) if words else ()):
        size, _, text = part.rpartition("/") if name == "VFD" else ("", "", part)
        first, width = field_of(name, at, bits) if name != "VFD" else (used, int(size) if size.isdigit() else 0)
        used = first + width
        if used <= bits:
            yield all_ >> bits - used & (1 << width) - 1, width, text


def field_of(name: str, number: int, bits: int) -> Tuple[int, int]:
    """Returns the first bit and the size of the field of an operand, by its number from 0."""
    code = CODES.get(name)
    if code is None:
        return WORD_BITS * number, WORD_BITS
    if code in TWO_WORDS and bits > WORD_BITS and number == 0:
        return (WORD_BITS // 2, bits - WORD_BITS // 2) if code in CONSTANTS else (WORD_BITS, WORD_BITS)
    return WORD_BITS // 2, WORD_BITS // 2


def left_out_of(lines: Sequence[str], starts: Sequence[int]) -> Iterator[range]:
    """Yields the cells that each BSS of the lines of ROWS leaves out: up to the next row, or, if that goes elsewhere, to the next
    of the starts of code."""
    for line, after in zip(lines, lines[1:]):
        row = row_of(line) if "BSS" in line.upper() else None
        if row and row.is_performed and row.statement.operation == "BSS":
            is_elsewhere = row_of(after).statement.operation in ("ORG", "LOC", "USE", "IDENT")
            yield range(row.location, next((start for start in starts if start >= row.location), row.location) if is_elsewhere
                        else row_of(after).location)
