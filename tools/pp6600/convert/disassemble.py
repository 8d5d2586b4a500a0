"""Cells as a source in COMPASS notation."""

from typing import List, Mapping, Sequence

from ..engine.assembler import assembler_here
from ..language.labelled import Labelled
from ..language.listing import Listing
from ..shell.command_line import Failure, Parser, cell, write_lines
from ..shell.text_files import lines_of, named

DESCRIPTION = """Writes cells as a source that assembles to the same words. FILE has the rows of DUMP M or of save --listing, or is
a listing, whose labels are kept. What a processor reaches from the entries on is code, and the rest is data."""


def main() -> None:
    parser = Parser(DESCRIPTION, "[--entry A ..] [FILE]")
    parser.add_argument("--entry", metavar="A", action="append", type=cell, default=[],
                        help="a cell at which a processor goes on, octal; once for each; without one it is the first cell")
    parser.add_argument("file", nargs="?", metavar="FILE", help="without it, standard input is the file")
    asked = parser.parse()
    listing = Listing.of_file(asked.file, has_gaps=True)
    cells = {address: word for address, (word, _) in listing.cells.items()}
    if not cells:
        raise Failure(f"{named(asked.file)} has no cell")
    write_lines(source_of(cells, asked.entry or [min(cells)], listing.names.labels))


def source_of(cells: Mapping[int, int], entries: Sequence[int], labels: Mapping[int, Sequence[str]] = {}) -> List[str]:
    """Returns the lines of a source that assembles to cells, of which addresses may have labels."""
    lines = lines_of(assembler_here().disassembled(cells, entries).decode("ascii"))
    return list(Labelled(cells, labels, lines).lines()) if labels else lines
