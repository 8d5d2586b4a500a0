"""A source beside the words that it should make: those of a listing, or of a program in a binary file."""

from __future__ import annotations

from contextlib import suppress
from typing import Dict, Iterator, List, Optional, Sequence, Tuple

from ..failure import Failure
from ..language.listing import Listing, complain_of, is_printed
from ..language.program import FilledCell, Program
from ..shell.text_files import bytes_of, lines_in, named
from .binary import program_in, records_of

NONE = "NONE"
Words = Dict[int, int]  # by their addresses


def wanted_words(file: str, name: str) -> Tuple[Words, bool]:
    """Returns the words of FILE or FILE#NAME, and whether zeros may be where a source has none. It is a listing, or has binary
    records: then the program is the one with that name, else the only one, else the one that has the name of the source."""
    path, mark, wanted = file.rpartition("#") if "#" in file else (file, "", name)
    data = bytes_of(path)
    lines: List[str] = []
    with suppress(Failure):
        lines = lines_in(data, path)
    if is_printed(lines):
        listing = Listing(lines, trust=True, has_gaps=True)
        complain_of(path, listing)
        return {address: word for address, (word, _) in listing.cells.items()}, False
    records = records_of(data, path)
    programs = [record for record in records if record.is_program]
    if len(programs) > 1 and not wanted:
        raise Failure(f"{path} has {len(programs)} programs (decimal): name one, as {path}#{programs[0].name}")
    return (programs[0] if len(programs) == 1 and not mark else program_in(records, wanted, path)).cells, True


def differences(program: Program, wanted: Words, may_be_zero: bool) -> Iterator[Tuple[int, str, str, Optional[FilledCell]]]:
    """Yields each address at which the words differ, the word that is wanted there, the one that is made, and where it is made."""
    for address in sorted({*program.cells, *wanted}):
        cell, other = program.cells.get(address), wanted.get(address)
        if other != (cell and cell.word) and not (cell is None and other == 0 and may_be_zero):
            yield address, shown(other), shown(cell and cell.word), cell


def shown(word: Optional[int]) -> str:
    return NONE if word is None else f"{word:04o}"


def against(program: Program, lines: Sequence[str], path: Optional[str], file: str, name: str) -> Tuple[List[str], str]:
    """Returns a line for each word in which the source of a program with a name and a file differ, and what is said of all."""
    wanted, may_be_zero = wanted_words(file, name)
    rows = []
    for address, other, own, cell in differences(program, wanted, may_be_zero):
        line = f"  {named(path)}:{cell.line}: {lines[cell.line - 1].strip()}" if cell and 0 < cell.line <= len(lines) else ""
        rows.append(f"{address:04o} {other} MADE {own}{line}")
    return (rows, f"{len(rows)} (decimal) words of {file} differ" if rows
            else f"no difference in {len(program.cells)} words (decimal)")
