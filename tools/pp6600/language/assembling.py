"""What the tool assemble writes of a source, by the proved assembler of the library."""

from typing import List, NamedTuple, Optional, Sequence, Union

from ..engine.assembler import LISTING, UNITS, Text, assembler_here
from ..shell.ending import shown_text
from ..shell.text_files import lines_in, lines_of, named
from .cross_reference import cross_reference
from .decks import texts_of
from .symbol_options import Given
from .listing import without_mark
from .program import Program, Unit, assembled, complaints_of, source_of, units_of, written
from .sources import set_lines


class Assembled(NamedTuple):
    """What is written of a source: what is wrong with it, or to be known; whether it is not to be used; and its lines."""

    complaints: List[str]
    is_wrong: bool
    lines: Sequence[str]


def assembled_lines(data: bytes, path: Optional[str], form: str, processor: int, given: Given, name: Optional[str]) -> Assembled:
    """Assembles the source of a file, which has the given texts. The lines are those of a form and, if they load the program, for a
    processor; of the unit with a name, if there is one."""
    lines = without_mark(lines_in(data, path))
    texts = texts_of(given, lines)
    complaints, faults = complaints_of(lines, texts)
    return Assembled([shown_text(f"{named(path)}:{complaint}") for complaint in complaints], faults > 0,
                     [] if faults else lines_of_form(lines, texts, form, processor, name))


def lines_of_form(lines: Sequence[str], texts: Sequence[Text], form: str, processor: int, name: Optional[str]) -> List[str]:
    """Returns the lines of a form of a source that has no fault."""
    if form in ("listing", "cross"):
        return [*written(lines, LISTING, texts), *(cross_reference(lines, texts) if form == "cross" else ())]
    if form == "set" and name is None and not texts:
        return lines_of(assembler_here().load_lines(source_of(lines), processor).decode("ascii"))
    first = next(units_of(written(lines, UNITS, texts)))
    unit: Union[Program, Unit] = first if name is None else assembled(lines, texts).unit(name)
    if form == "set":
        return set_lines(unit, processor)
    return [f"{address:04o} {cell.word:04o}" for address, cell in sorted(unit.cells.items())]
